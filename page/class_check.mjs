// The files of a class, dropped on a task: which they are, and what the check says of each, in the lines of ./check_task.
import { checked } from "./task.mjs";

/** A longer file is longer than any source may be. */
const SOURCE_BYTES = 1_100_000;

const readAll = async (reader) => {
    const entries = [];
    // a folder is read in parts, up to an empty one
    for (;;) {
        const part = await new Promise((resolve, reject) => reader.readEntries(resolve, reject));
        if (part.length === 0) return entries;
        entries.push(...part);
    }
};

/** The files in an entry of what was dropped, with all that is in a folder; hidden ones are none of the class's. */
async function filesIn(entry) {
    if (entry.name.startsWith(".")) return [];
    if (entry.isFile) {
        return [{ name: entry.fullPath.replace(/^\//, ""), file: await new Promise((resolve, reject) => entry.file(resolve, reject)) }];
    }
    return (await Promise.all((await readAll(entry.createReader())).map(filesIn))).flat();
}

/**
 * What was dropped, as files in the order of their names, and whether a folder is among it. It has to be asked before the event is over.
 */
export function dropped({ items, files }) {
    const entries = [...(items ?? [])].map((it) => it.webkitGetAsEntry?.() ?? null).filter((it) => it !== null);
    const plain = [...files].map((file) => ({ name: file.name, file }));
    const isFolder = entries.some((it) => it.isDirectory);
    const inOrder = (found) => found.sort((one, other) => (one.name < other.name ? -1 : 1));
    return {
        isFolder,
        files: isFolder ? Promise.all(entries.map(filesIn)).then((found) => inOrder(found.flat())) : Promise.resolve(inOrder(plain)),
    };
}

/** What the check says of each file, one after another in laboratories of a link; `told` is called with the place of each. */
export async function checkClass(link, files, { task, sentences, code, told }) {
    const verdicts = [];
    for (const [at, { name, file }] of files.entries()) {
        told(at + 1);
        verdicts.push(await checked(link, task, await file.slice(0, SOURCE_BYTES).text(), { file: name, sentences, code }));
    }
    return verdicts;
}

/** The verdicts as text, as ./check_task writes them. */
export const textOf = (verdicts) => verdicts.flatMap(({ verdict, missing }) => [verdict, ...missing.map((sentence) => `    ${sentence}`)])
    .map((line) => `${line}\n`)
    .join("");
