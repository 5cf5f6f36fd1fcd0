// Puts the one file together: node assemble.mjs TEMPLATE STYLE LACKING SHARED BEGIN MAIN WORKER MODULE EXAMPLES LESSONS TASKS NOTICES
// EXHIBITS, written to standard output.
import { readFileSync } from "node:fs";
import { exhibitsBelow, lessonsBelow, remarksBelow, scriptsBelow, sharedSheetsBelow, sourcesBelow, tasksBelow } from "./documents.mjs";
import { packedModule, packedText } from "./packed.mjs";

const [template, style, lacking, shared, begin, main, worker, module, shelf, lessons, tasks, notices, exhibits] = process.argv.slice(2);
const text = (path) => readFileSync(path, "utf8");

/** Text that may stand within a script element: nothing in it ends that element. */
const inert = (script) => script.replaceAll("</", "<\\/").replaceAll("<!--", "<\\!--");

/**
 * Notices, in which a paragraph that another one has had is not repeated: the name of that one takes the place of it and of those that
 * follow it.
 */
function once(notices) {
    const first = new Map();
    let name = "";
    const told = notices.split("\n\n").map((paragraph) => {
        name = /^-+\n(\w+)/.exec(paragraph)?.[1] ?? name;
        const words = paragraph.replaceAll(/\s+/g, " ").trim();
        if (words.length > 100 && first.has(words)) return `(The notice goes on as that of ${first.get(words)}, above.)`;
        first.set(words, name);
        return paragraph;
    });
    return told.filter((paragraph, place) => paragraph !== told[place - 1]).join("\n\n");
}

/** JSON with its line feeds as they are, which packs better; the page puts them back. */
const withLineFeeds = (json) => json.replaceAll(/\\(.)/g, (whole, sign) => (sign === "n" ? "\n" : whole));

/** What CodeMirror's style has for editors of other kinds: the colours of their languages, and what lies around and over their lines. */
const OF_OTHERS = new RegExp(
    `[^{}]*(?:${[
        "cm-(?:s-default|fat-cursor|tab|header|em|link|strike|negative|positive)",
        "CodeMirror-(?:guttermarker|secondarycursor|ruler|matching|nonmatching|activeline|crosshair|linewidget|wrap|rtl)",
    ].join("|")})[^{}]*\\{[^{}]*\\}`,
    "g"
);

const { drawings, sheets } = sharedSheetsBelow(lessons);
/** What the page has of other files of the repository, as one text, in the order that packs best. */
const texts = withLineFeeds(JSON.stringify({
    examples: Object.fromEntries(scriptsBelow(shelf)),
    remarks: remarksBelow(shelf),
    sources: sourcesBelow(shelf),
    tasks: tasksBelow(tasks, shelf),
    lessons: lessonsBelow(lessons),
    sheets,
    licences: once(text(notices)),
    exhibits: exhibitsBelow(exhibits, shelf),
    drawings,
}));
const parts = {
    LACKING: inert(text(lacking)),
    SHARED: inert(text(shared)),
    BEGIN: inert(text(begin)),
    PARTS: packedText([...[main, worker].map(text), text(style).replaceAll(OF_OTHERS, ""), texts].join("\0")),
    MODULE: packedModule(readFileSync(module)),
};
process.stdout.write(text(template).replace(/@([A-Z]+)@/g, (whole, name) => parts[name] ?? whole));
