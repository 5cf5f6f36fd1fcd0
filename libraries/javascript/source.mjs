// What the monitor says of a source, line by line: its reply to `json source-data`, which it gives for faulty sources too. Nothing of the
// language is known here.
import { ReplyError, linesOf } from "./replies.mjs";

/** The lines that type a source. A line that is only a point would end it: two points are the same fault, at the same place. */
export const typedSource = (lines) => ["source", ...lines.map((line) => (line === "." ? ".." : line)), "."];

/** The columns of one operand or two. */
const operandsOf = (columns) => (columns === null ? [] : columns.flatMap((from, at) => (at % 2 === 0 ? [[from, columns[at + 1]]] : [])));

function lineOf({
    line, label = null, operation = null, operands = null, comment = null, declared = null, place = null, digits = null, fault, at = null,
    first = null,
}) {
    return {
        line,
        label,
        operation,
        operands: operandsOf(operands),
        comment,
        declared,
        place,
        digits,
        fault: fault === null ? null : { kind: fault, at, first },
    };
}

/** Whether the record of a line, which is not read yet, has a fault. */
const hasFault = (record) => !record.includes('"fault":null');

/** A source as the monitor has read it. A line's record is read when it is asked for, since a source may have very many. */
export class Source {
    #records;
    #read = [];

    constructor(reply) {
        this.#records = linesOf(reply);
        if (this.#records.some((record) => !record.startsWith("{"))) {
            throw new ReplyError(`no lines of a source: ${JSON.stringify(reply.slice(0, 80))}`);
        }
    }

    /** What a line is, counted from 1; undefined past the end. */
    line(number) {
        const record = this.#records[number - 1];
        if (record !== undefined) this.#read[number] ??= lineOf(JSON.parse(record));
        return this.#read[number];
    }

    /** What each line is, the first one first. A missing end is the fault of a line after the last one. */
    get lines() {
        return this.#records.map((unused, at) => this.line(at + 1));
    }

    /** How many lines have a fault. */
    get faultCount() {
        return this.#records.filter(hasFault).length;
    }

    /** The lines that have a fault; where a number is asked for, that many of the first. */
    faulty(most = Infinity) {
        const found = [];
        for (const [at, record] of this.#records.entries()) if (hasFault(record) && found.push(this.line(at + 1)) >= most) break;
        return found;
    }

    /** The lines that make a word. */
    get words() {
        return this.lines.filter(({ digits }) => digits !== null);
    }

    /** The line whose word is at a place, or undefined. */
    lineAt(place) {
        const isThere = `"place":"${place}"`;
        for (const [at, record] of this.#records.entries()) {
            if (record.includes(isThere) && this.line(at + 1).digits !== null) return this.line(at + 1);
        }
    }
}
