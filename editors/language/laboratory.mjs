// @ts-check
// What the language server knows: all of it is asked of a laboratory.
import { LINE_LIMIT } from "../../libraries/javascript/lines.mjs";
import { isRefusal, linesOf, recordsOf, refusalOf } from "../../libraries/javascript/replies.mjs";
import { bytesOf, textOf } from "../../libraries/javascript/session.mjs";
import { isYes } from "../answers.mjs";
import { Source } from "../../libraries/javascript/source.mjs";

const [POINT, LINE_FEED, RETURN] = [46, 10, 13];
/** How many bytes a session is sent before another one takes its place. */
const MOST_SENT = 4_000_000;
/** The line of a fault in the reply to a source. */
const FAULT = /^line (\d+) (\w+)$/;
/** The printed characters, of which some begin a comment. */
const PRINTED = Array.from({ length: 94 }, (unused, at) => String.fromCharCode(33 + at));

const isPoint = (line) => line.length === 1 && line[0] === POINT;

/** A source that is refused as a whole. */
export class TooLong extends Error {
    /** Why, by the monitor's sentence, and the line that is too long, or null. */
    constructor(reason, line) {
        super(reason);
        this.line = line;
    }
}

/** The bytes of lines as a file has them: it has no line that is only a point, and its reader leaves out a return of each line. */
function fileOf(lines) {
    const rows = lines.map((line) => (isPoint(line) ? bytesOf("..") : line));
    const bytes = new Uint8Array(rows.reduce((sum, row) => sum + row.length + 2, 0));
    let at = 0;
    for (const row of rows) {
        bytes.set(row, at);
        at += row.length;
        if (row.at(-1) === RETURN) bytes[at++] = RETURN;
        bytes[at++] = LINE_FEED;
    }
    return bytes.subarray(0, at);
}

export class Laboratory {
    #openSession;
    /** @type {any} the session that is asked, or null */
    #session = null;
    #sent = 0;
    /** @type {Map<string, Map<string, any>> | null} */
    #operations = null;
    /** @type {Map<string, Map<string, any>> | null} */
    #faults = null;
    /** @type {Set<string> | null} */
    #named = null;
    /** @type {string[] | null} */
    #signs = null;

    constructor(openSession) {
        this.#openSession = openSession;
    }

    #answer(line) {
        return this.#session.answer(line);
    }

    /** A session with room for this number of bytes. */
    #opened(bytes) {
        this.#sent += bytes;
        if (this.#session === null || this.#sent > MOST_SENT) {
            this.#session = this.#openSession();
            this.#sent = bytes;
        }
    }

    #records(line) {
        this.#opened(0);
        return recordsOf(this.#answer(`json ${line}`));
    }

    /** The operations of the language by their names. */
    get operations() {
        this.#operations ??= new Map(this.#records("operations-data").map((record) => [record.get("operation"), record]));
        return this.#operations;
    }

    /** The kinds of faults by their names. */
    get faults() {
        this.#faults ??= new Map(this.#records("faults-data").map((record) => [record.get("fault"), record]));
        return this.#faults;
    }

    /** Whether a fault of a kind is at a part of its line. One that is not is that of a line which is missing. */
    isMarked(kind) {
        return !this.faults.has(kind) || isYes(this.faults.get(kind)?.get("marked"));
    }

    /** Whether an operation may have the name of a label after it: the assembler finds its declaration. */
    takesName(operation) {
        const named = this.#named ??= new Set([...this.operations.keys()].filter(
            (name) => this.read([bytesOf(`a ${name} a`)]).line(1).declared !== null
        ));
        return named.has(operation);
    }

    /** The signs with which operands begin in the table of operations, and then those that begin a comment, each with a blank after it. */
    get signs() {
        this.#signs ??= [...this.#operandSigns(), ...this.#commentSigns()];
        return this.#signs;
    }

    #operandSigns() {
        const operands = [...this.operations.values()].flatMap((record) => record.get("example").split(" ").slice(1));
        return [...new Set(operands.map((operand) => operand[0]).filter((sign) => !/\w/.test(sign)))];
    }

    #commentSigns() {
        const source = this.read(PRINTED.map((sign) => bytesOf(sign)));
        return PRINTED.filter((sign, at) => source.line(at + 1).comment !== null).map((sign) => `${sign} `);
    }

    /** The operation that ends a source: what mends a source without it has it in a line of its own. */
    get ending() {
        const [record] = [...this.faults.values()].filter((it) => !this.isMarked(it.get("fault")));
        return record.get("mended").slice(record.get("example").length).split("/").at(-1).trim();
    }

    /** What the monitor says of each line of a source. */
    read(lines) {
        this.#opened(lines.reduce((sum, line) => sum + line.length + 1, 0));
        try {
            return this.#said(lines);
        } catch (failure) {
            this.#session = failure instanceof TooLong ? this.#session : null;
            throw failure;
        }
    }

    #said(lines) {
        this.#answer("source");
        for (const line of lines) this.#session.bytesFor(isPoint(line) ? bytesOf("..") : line);
        const reply = this.#answer(".");
        const refusal = isRefusal(reply) ? refusalOf(reply) : null;
        if (refusal?.kind === "TooLong") {
            const long = lines.findIndex((line) => line.length > LINE_LIMIT);
            throw new TooLong(refusal.reason ?? refusal.kind, long < 0 ? null : long + 1);
        }
        return new Source(this.#answer("json source-data"));
    }

    /**
     * The kinds of the faults of a source by their lines, and nothing else of it; null where it is refused as a whole. It is read as a
     * file, at once.
     */
    faultsIn(lines) {
        const file = fileOf(lines);
        this.#opened(file.length);
        try {
            this.#session.tell("typed", bytesOf("source tried"));
            const reply = textOf(this.#session.tell("found", file).reply);
            if (isRefusal(reply) && refusalOf(reply).kind !== "Faults") return null;
            return new Map(
                linesOf(reply).map((row) => FAULT.exec(row)).filter((found) => found !== null).map(([, line, kind]) => [Number(line), kind])
            );
        } catch (failure) {
            this.#session = null;
            throw failure;
        }
    }

    /** A word at its place, as `show-data` has it, and what it would cost there. */
    wordAt({ place, digits }) {
        this.#opened(0);
        this.#answer(`put ${place} ${digits}`);
        const [word] = this.#records(`show-data ${place} 1`);
        const reply = this.#answer(`json cost ${place}`);
        return { word, cost: isRefusal(reply) ? null : recordsOf(reply)[0] };
    }
}
