// Sources as a package for programs takes them: their lines, and what is wrong with them.
import { recordsOf, sourceOf } from "./replies.mjs";

/** The lines of a source. */
export function linesOfSource(text) {
    if (typeof text !== "string") throw new TypeError(`a source is a text, and not ${String(text)}`);
    const lines = text === "" ? [] : text.replace(/\n$/, "").split("\n");
    if (lines.some((line) => line.replace(/\r$/, "") === ".")) throw new RangeError("a line of the source is a point alone");
    return lines;
}

/** A source without a fault: how many words it makes, and where it starts. */
export function assembledOf(reply) {
    const { cells, start } = sourceOf(reply);
    return { cells, start };
}

/** The faults of the source that was closed last, as a laboratory tells them that is asked by a function. */
export function faultsOf(ask) {
    const kinds = new Map(recordsOf(ask("json faults-data")).map((record) => [record.get("fault"), record]));
    return recordsOf(ask("json source-data")).filter((record) => record.has("fault")).map((record) => {
        const kind = record.get("fault");
        const { wrong, right } = Object.fromEntries(kinds.get(kind));
        return { line: Number(record.get("line")), kind, columns: record.get("at") ?? null, wrong, right };
    });
}
