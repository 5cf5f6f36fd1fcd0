// Scripts and pasted texts as lines, and what a script of examples/ says about itself.

const COMMENT = /^;/;
const BLANK = /^ *\r?$/;

/** The lines of a text. */
export const linesIn = (text) => text.replace(/\r\n/g, "\n").replace(/\n$/, "").split("\n");

/** The comment at the head of a script, as paragraphs; the first sentence is its title. */
export function headOf(script) {
    const comments = [];
    for (const line of linesIn(script)) {
        if (!COMMENT.test(line)) break;
        comments.push(line.replace(/^; ?/, ""));
    }
    const paragraphs = comments.join("\n").split(/\n\s*\n/).filter((paragraph) => paragraph.trim() !== "");
    const title = /^([^]*?)\.(?=\s|$)/.exec(paragraphs[0] ?? "")?.[1].replace(/\s+/g, " ") ?? "";
    return { title, paragraphs };
}

const PUT = /^ *put +(\d{4}) +([0-9fgjkqw]{8}) *$/;
const OF_A_PLACE = /^; *(\d{4}) +(?:-?[a-z] \d{4} +)?(.*)$/;

/**
 * What a script says of the words that it puts: the comment before a `put` that begins with its address, up to its first full stop, and the
 * word's digits.
 */
export function commentsIn(lines) {
    return new Map(lines.flatMap((line, place) => {
        const [, address, digits] = PUT.exec(line) ?? [];
        const [, named, comment] = OF_A_PLACE.exec(lines[place - 1] ?? "") ?? [];
        return address === undefined || named !== address
            ? []
            : [[address, { digits, comment: comment.split(/\. /)[0].replace(/\.$/, "") }]];
    }));
}

const RUNS = /^ *(?:json +)?(run|orders|operate|trace|profile|drum|optimum|trace-data|profile-data|optimum-data)( |$)/;
const SOURCE = /^ *source *$/;
const STARTS = /^ *press +start *$/;

/** For each line whether it stands in a source, as the point that ends one does. */
export function areInSource(lines) {
    let isOpen = false;
    return lines.map((line) => {
        const isWithin = isOpen;
        isOpen = isWithin ? line !== "." : SOURCE.test(line);
        return isWithin;
    });
}

/** How many lines of a script come before the first that starts a run, or, if asked, the machine: those set the machine up. */
export function setUp(lines, isBeforeStart = false) {
    const inSource = areInSource(lines);
    const first = lines.findIndex((line, place) => !inSource[place] && (RUNS.test(line) || (isBeforeStart && STARTS.test(line))));
    return first < 0 ? lines.length : first;
}

/** Whether a line of a script asks for nothing. */
export const isIdle = (line) => BLANK.test(line) || COMMENT.test(line);

/** A line without `json` in front of it, which asks for the same in another form. */
export const plainOf = (line) => line.replace(/^ *json +/, "");

/** The first word of a line; blanks alone separate words. */
export const commandIn = (line) => line.split(" ").find((word) => word !== "") ?? "";

/** A script without the lines that only ask, by the set of their commands. What stands in a source is no command, and stays. */
export function withoutQuestions(script, questions) {
    const written = script.match(/[^\n]*\n|[^\n]+$/g) ?? [];
    const lines = written.map((line) => line.replace(/\r?\n?$/, ""));
    const inSource = areInSource(lines);
    return written.filter((unused, place) => inSource[place] || !questions.has(commandIn(lines[place]))).join("");
}

/**
 * What becomes of a text that is pasted between what is there before and after it: the lines that it ends, and what stays. Null where it
 * ends no line.
 */
export function pasted(text, before, after) {
    const lines = `${before}${text}`.replace(/\r\n?/g, "\n").split("\n");
    return lines.length === 1 ? null : { lines: lines.slice(0, -1), stays: `${lines.at(-1)}${after}` };
}
