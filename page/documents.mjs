// What the page takes from files of the repository. Lessons are teaching/lessons/NAME.md in English, and teaching/lessons/LANGUAGE/NAME.md
// in each other language;
// tasks are the folders of teaching/tasks; and examples/language has the comments of the examples in other languages.
import { existsSync, readFileSync, readdirSync } from "node:fs";
import { join } from "node:path";
import { remarksOf, sourceIn, tableIn } from "./examples.mjs";
import { exhibitIn } from "./exhibits.mjs";
import { LESSONS } from "./lesson_steps.mjs";
import { lessonIn } from "./lessons.mjs";
import { linesIn } from "./lines.mjs";
import { sentencesIn, taskIn } from "./task.mjs";
import { LANGUAGES } from "./words.mjs";

/** The file of a lesson's document in a language. */
export const documentOf = (folder, name, code) => join(folder, code === "en" ? "" : code, `${name}.md`);

/** The lessons that have no document in a language. */
export const lackingIn = (folder, code) => LESSONS.map(({ name }) => name).filter((name) => !existsSync(documentOf(folder, name, code)));

/** The lessons by their languages and names. One that lacks a language is there in English. */
export function lessonsBelow(folder) {
    const lessonOf = (name, code) => (
        lessonIn(readFileSync(documentOf(folder, name, lackingIn(folder, code).includes(name) ? "en" : code), "utf8"))
    );
    const lessonsOf = (code) => Object.fromEntries(LESSONS.map(({ name }) => [name, lessonOf(name, code)]));
    return Object.fromEntries(Object.keys(LANGUAGES).map((code) => [code, lessonsOf(code)]));
}

/** The lessons' sheets to fill in, by their languages and the lessons' names, as page/handouts.mjs has made them. */
export function sheetsBelow(folder) {
    const fileOf = (name, code) => join(folder, "handouts", `${name}${code === "en" ? "" : `.${code}`}.html`);
    const sheetsOf = (code) => LESSONS.map(({ name }) => [name, fileOf(name, code)])
        .filter(([, file]) => existsSync(file))
        .map(([name, file]) => [name, readFileSync(file, "utf8")]);
    return Object.fromEntries(Object.keys(LANGUAGES).map((code) => [code, Object.fromEntries(sheetsOf(code))]));
}

/** The same with each drawing once: a sheet has the number of the drawing in its place. */
export function sharedSheetsBelow(folder) {
    const drawings = [];
    const numberOf = (drawing) => (drawings.includes(drawing) ? drawings.indexOf(drawing) : drawings.push(drawing) - 1);
    const shared = (sheet) => sheet.replace(/(<svg[^>]*>)([^]*?)(?=<\/svg>)/g, (whole, begin, drawing) => `${begin}@${numberOf(drawing)}`);
    const sheets = Object.fromEntries(
        Object.entries(sheetsBelow(folder)).map(([code, named]) => (
            [code, Object.fromEntries(Object.entries(named).map(([name, sheet]) => [name, shared(sheet)]))]
        ))
    );
    return { drawings, sheets };
}

const read = (...path) => readFileSync(join(...path), "utf8");

/** All scripts below a folder, by their names without the ending. */
export function scriptsBelow(folder, name = "") {
    const entries = readdirSync(folder, { withFileTypes: true }).sort((one, other) => (one.name < other.name ? -1 : 1));
    return entries.flatMap((entry) => {
        const path = name + entry.name;
        if (entry.isDirectory()) return scriptsBelow(join(folder, entry.name), `${path}/`);
        return entry.name.endsWith(".txt") ? [[path.slice(0, -".txt".length), read(folder, entry.name)]] : [];
    });
}

/**
 * The sources of the examples that have none in their scripts, by the scripts' names: `sources/NAME.source`, or that of a tape,
 * `NAME.source`.
 */
export function sourcesOf(shelf) {
    const fileOf = (name) => [join(shelf, "sources", `${name}.source`), join(shelf, `${name}.source`)].find(existsSync);
    return scriptsBelow(shelf)
        .filter(([, script]) => !linesIn(script).includes("source"))
        .map(([name]) => [name, fileOf(name)])
        .filter(([, file]) => file !== undefined)
        .map(([name, file]) => [name, read(file)]);
}

/** The same by languages and names, each with its comments in that language. */
export function sourcesBelow(shelf) {
    const sources = sourcesOf(shelf);
    return Object.fromEntries(
        Object.keys(LANGUAGES).map((code) => (
            [code, Object.fromEntries(sources.map(([name, source]) => [name, sourceIn(source, tableOf(shelf, code))]))]
        ))
    );
}

/** The comments of a language by the English ones, of its file below the folder of the examples; none where it has none, as English. */
export function tableOf(shelf, code) {
    const file = join(shelf, "language", code);
    return existsSync(file) ? tableIn(read(file)) : new Map();
}

/**
 * The comments of all scripts below a folder by languages and the scripts' names, in their order; null where a language has none for one.
 */
export function remarksBelow(folder) {
    const scripts = scriptsBelow(folder);
    return Object.fromEntries(readdirSync(join(folder, "language")).map((code) => {
        const table = tableOf(folder, code);
        return [
            code, Object.fromEntries(scripts.map(([name, script]) => [name, remarksOf(script).map((remark) => table.get(remark) ?? null)])),
        ];
    }));
}

/**
 * The tasks below a folder by their names, the shortest first, each with its file and, by languages, its text and the source that is given,
 * with the
 * comments of a language from the folder of the examples; and the sentences of their check by languages.
 */
export function tasksBelow(folder, shelf) {
    const codes = readdirSync(join(folder, "language"));
    const names = readdirSync(folder).filter((name) => existsSync(join(folder, name, "task")));
    const taskOf = (name) => {
        const [file, inEach] = [
            join(folder, name, "given.source"), (textIn) => Object.fromEntries(codes.map((code) => [code, textIn(code)])),
        ];
        const givenIn = (code) => (existsSync(file) ? sourceIn(read(file), tableOf(shelf, code)) : "");
        return { task: read(folder, name, "task"), texts: inEach((code) => read(folder, name, `${code}.md`)), given: inEach(givenIn) };
    };
    const tasks = names.map((name) => [name, taskOf(name)]).sort(([, one], [, other]) => (
        taskIn(one.task).minutes - taskIn(other.task).minutes
    ));
    return {
        tasks: Object.fromEntries(tasks),
        sentences: Object.fromEntries(codes.map((code) => [code, sentencesIn(read(folder, "language", code))])),
    };
}

/** The exhibits of the kiosk in a folder, by the names of their files, in the order that `order` there has. A wrong one is refused. */
export function exhibitsBelow(folder, shelf) {
    const examples = new Set(scriptsBelow(shelf).map(([name]) => name));
    return Object.fromEntries(linesIn(read(folder, "order")).map((name) => {
        const { exhibit, wrong } = exhibitIn(read(folder, `${name}.json`), (it) => examples.has(it));
        if (wrong !== null) throw new Error(`${join(folder, name)}.json: ${wrong}`);
        return [name, exhibit];
    }));
}
