// A lesson's steps as its document in teaching/lessons has them: its heading, the paragraph before its first numbered list, the lists, and
// the paragraph after the last one. They are
// written once, there; the page and the sheets are made from them.

/** The paragraphs of a text, each as one line. */
const paragraphsIn = (text) => (
    text.split(/\n\s*\n/).map((paragraph) => paragraph.trim().replace(/\n/g, " ")).filter((paragraph) => paragraph !== "")
);

const PART = /^## (.*)$/;
const STEP = /^(\d+)\. (.*)$/;
const HINT = /^ {3}\*[^*]+\*\s+(.*)$/;
const LINE = /^ {7}(.*)$/;

/**
 * The steps in the lines of a document, and the places of the first one's line and of the line after the last list. A list goes on with the
 * numbers of the one before it; one that begins with 1 again has no steps. Below a step are lines for the machine, set in by seven blanks,
 * and its hint.
 */
function stepsIn(lines) {
    const steps = [];
    let [part, list, first, end] = ["", null, 0, 0];
    for (const [place, line] of lines.entries()) {
        part = PART.exec(line)?.[1] ?? part;
        const [, number, text] = STEP.exec(line) ?? [];
        if (number !== undefined) {
            list ??= steps.length > 0 && Number(number) === 1 ? "other" : "steps";
            if (list === "other") continue;
            if (Number(number) !== steps.length + 1) throw new Error(`step ${number} comes after step ${steps.length}`);
            if (steps.length === 0) first = place;
            steps.push({ text, part, hint: "", lines: [] });
        } else if (list === "steps" && LINE.test(line)) steps.at(-1).lines.push(LINE.exec(line)[1]);
        else if (list === "steps" && HINT.test(line)) steps.at(-1).hint = HINT.exec(line)[1];
        else if (line !== "" && !line.startsWith("   ")) list = null;
        if (list === "steps") end = place + 1;
    }
    return { steps, first, end };
}

/** The title, what the lesson is about, its steps, each with its part, its lines for the machine and its hint, and the lesson's end. */
export function lessonIn(document) {
    const lines = document.split("\n");
    const { steps, first, end } = stepsIn(lines);
    return {
        title: /^# (.*)$/m.exec(document)[1],
        about: paragraphsIn(lines.slice(0, first).join("\n")).at(-1),
        steps,
        end: paragraphsIn(lines.slice(end).join("\n"))[0],
    };
}
