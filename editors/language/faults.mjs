// @ts-check
// The faults of a source as an editor shows them, and what mends one. Whether something mends it the monitor says: it is tried.
import { likest } from "../../page/language.mjs";

/** The kind of what mends a fault. */
export const QUICK_FIX = "quickfix";
const ERROR = 1;
/** How many faults are shown, and of how many at once it is said what mends them. */
const [MOST_SHOWN, MOST_MENDED] = [1000, 5];
/** What is at fault where a line is in a wrong place, and the fault of an address that depends on places. */
const [PLACED, OUT_OF_RANGE] = ["line", "OutOfRange"];
const [BLANK, TAB] = [32, 9];

const bytesOf = (text) => new TextEncoder().encode(text);

/** What is wrong with a line, and what would be right. */
export function sentenceOf(laboratory, document, source, { line, operation, fault }) {
    const known = laboratory.faults.get(fault.kind);
    const wrong = known?.get("wrong") ?? fault.kind;
    const like = fault.kind === "UnknownName" ? likestFor(document, source, line, fault) : null;
    if (like !== null) return `${wrong}; perhaps ${like} is meant`;
    const takes = operation === null ? undefined : laboratory.operations.get(document.textOf(line, operation))?.get("operands");
    const right = ["MissingOperand", "BadOperand"].includes(fault.kind) && takes !== undefined
        ? `${document.textOf(line, operation)} takes ${takes}`
        : known?.get("right");
    return right === undefined ? wrong : `${wrong}; ${right}`;
}

/** The labels of sources that were asked for. */
const labelled = new WeakMap();

function labelsOf(document, source) {
    if (!labelled.has(source)) labelled.set(
        source, source.lines.filter(({ label }) => label !== null).map(({ line: number, label }) => document.textOf(number, label))
    );
    return labelled.get(source);
}

/** The label that is most like an unknown name, or null. */
const likestFor = (document, source, line, { at }) => likest(document.textOf(line, at), labelsOf(document, source));

/** Where a fault is. That of a missing end is after the last line. */
const rangeOf = (document, { line, fault }) => document.rangeOf(line, fault.at ?? [0, Infinity]);

/** What an editor shows of faults: each with a link to what is said of its kind, where `linkOf` knows one. */
export class Diagnostics {
    #laboratory;
    #linkOf;

    constructor(laboratory, linkOf) {
        this.#laboratory = laboratory;
        this.#linkOf = linkOf;
    }

    /**
     * What is shown of the fault of a line.
     * @returns {import("../types/language.js").Diagnostic}
     */
    of(document, source, line) {
        const { fault } = line;
        const related = fault.first === null
            ? {}
            : {
                relatedInformation: [
                    {
                        location: { uri: document.uri, range: document.rangeOf(fault.first, source.line(fault.first).label) },
                        message: "the earlier line",
                    }
                ]
            };
        return {
            range: rangeOf(document, line), severity: ERROR, code: fault.kind, ...this.#link(fault.kind), source: "lgp30",
            message: sentenceOf(this.#laboratory, document, source, line), ...related
        };
    }

    #link(kind) {
        const href = this.#linkOf(kind);
        return href === null ? {} : { codeDescription: { href } };
    }

    /** The faults of a source. */
    all(document, source) {
        return source.faulty(MOST_SHOWN).map((line) => this.of(document, source, line));
    }

    /** The one fault of a source that is too long, or has a line that is. */
    ofWhole(document, { message, line }) {
        const range = line === null ? { start: { line: 0, character: 0 }, end: { line: 0, character: 0 } } : document.lineRange(line);
        return { range, severity: ERROR, code: "TooLong", ...this.#link("TooLong"), source: "lgp30", message };
    }
}

/** Where the words after an operation begin, the last one first: the monitor lists no more of them than an operation takes. */
function startsOf(document, { line, operation, comment }) {
    if (operation === null) return [];
    const words = document.textOf(line, [operation[1], comment?.[0] ?? Infinity]).matchAll(/[^ \t]+/g);
    return Array.from(words, ({ index }) => operation[1] + index).reverse();
}

/**
 * What may mend a line: each a title, the part of the line that it takes the place of, in bytes, and what it puts there. `isApart` tells
 * that it begins a line.
 */
function* attempts(laboratory, document, source, line) {
    const { line: number, fault, label } = line;
    if (fault.kind === "UnknownName") {
        const like = likestFor(document, source, number, fault);
        if (like !== null) yield { title: `Change it to ${like}`, at: fault.at, newText: like };
    }
    if (label !== null) yield { title: "Put a blank before the operation", at: [0, 0], newText: " " };
    for (const sign of laboratory.signs) for (const from of startsOf(document, line)) yield {
        title: `Put in ${sign.trim()}`, at: [from, from], newText: sign,
    };
    if (line === source.lines.at(-1)) yield {
        title: "Put in the end line", at: [Infinity, Infinity], newText: endLine(laboratory, document, source), isApart: true,
    };
}

/** The line that ends a source, with the label of its first word, where that has one. */
function endLine(laboratory, document, source) {
    const [first] = source.words;
    const start = first === undefined || first.label === null ? "" : ` ${document.textOf(first.line, first.label)}`;
    return `${/(^|\n)$/.test(document.text) ? "" : "\n"}        ${laboratory.ending}${start}\n`;
}

/** The bytes of a line after an attempt. */
function after(line, { at: [from, to], newText }) {
    const put = bytesOf(newText);
    const bytes = new Uint8Array(line.length - (Math.min(to, line.length) - Math.min(from, line.length)) + put.length);
    bytes.set(line.subarray(0, from));
    bytes.set(put, Math.min(from, line.length));
    bytes.set(line.subarray(Math.min(to, line.length)), Math.min(from, line.length) + put.length);
    return bytes;
}

/** A line of bytes without its label, so that another line may have that. */
function unlabelled(line) {
    const end = line.findIndex((byte) => byte === BLANK || byte === TAB);
    return line.map((byte, at) => (at < end || end < 0 ? BLANK : byte));
}

/** The labels that are named in lines, as lines that declare them. */
function declarationsIn(rows, labels) {
    const words = new Set(rows.flatMap((row) => new TextDecoder().decode(row).match(/[A-Za-z0-9]+/g) ?? []));
    return labels.filter((label) => words.has(label)).map(bytesOf);
}

/**
 * Those attempts that may mend a line: all are lines of one small source, with the labels that they name. What is wrong with one there,
 * apart from its place, is wrong in the whole source too.
 */
function likely(laboratory, line, all, labels) {
    const tried = all.filter(({ isApart }) => !isApart);
    const rows = tried.map((attempt) => unlabelled(after(line, attempt)));
    const declared = declarationsIn(rows, labels);
    const faults = laboratory.faultsIn([...declared, ...rows]);
    const isRight = (kind) => kind === undefined || kind === OUT_OF_RANGE || laboratory.faults.get(kind)?.get("part") === PLACED;
    return all.filter((attempt) => attempt.isApart || faults === null || isRight(faults.get(declared.length + tried.indexOf(attempt) + 1)));
}

/** Whether an attempt leaves fewer faults, and none in its line. */
function isMending(laboratory, source, lines, number, attempt) {
    const rows = attempt.isApart
        ? [...lines.slice(number - 1, number), bytesOf(attempt.newText.replaceAll("\n", ""))]
        : [after(lines[number - 1], attempt)];
    const faults = laboratory.faultsIn([...lines.slice(0, number - 1), ...rows, ...lines.slice(number)]);
    return faults !== null && faults.size < source.faultCount && !faults.has(number);
}

/** What mends the faults of sources, and what has been found of them. */
export class Mendings {
    #laboratory;
    #found = new WeakMap();

    constructor(laboratory) {
        this.#laboratory = laboratory;
    }

    /** What mends the fault of a line, in the order in which it is tried; of the same title the first. */
    of(document, source, line) {
        if (!this.#found.has(source)) this.#found.set(source, new Map());
        const known = this.#found.get(source);
        if (!known.has(line.line)) known.set(line.line, this.#sought(document, source, line));
        return known.get(line.line);
    }

    #sought(document, source, line) {
        const lines = document.sourceLines();
        const found = new Map();
        const all = [...attempts(this.#laboratory, document, source, line)];
        for (const attempt of likely(this.#laboratory, lines[line.line - 1] ?? new Uint8Array(), all, labelsOf(document, source))) {
            if (found.has(attempt.title) || !isMending(this.#laboratory, source, lines, line.line, attempt)) continue;
            found.set(
                attempt.title, { title: attempt.title, edit: { range: document.rangeOf(line.line, attempt.at), newText: attempt.newText } }
            );
        }
        return [...found.values()];
    }

    /** The faulty lines within a range, as many as are mended at once. */
    static faultyIn(document, source, range) {
        const touches = (line) => {
            const { start, end } = rangeOf(document, line);
            return start.line <= range.end.line && end.line >= range.start.line;
        };
        return source.faulty().filter(touches).slice(0, MOST_MENDED);
    }
}
