// Pieces of the typewriter's paper: their rows, which rows two of them share, what is typed to type a row again, and those that were torn
// off. Nothing here knows of a page.
import { STOP, piecesOf, shownKeys } from "./flexowriter.mjs";

/**
 * After how many columns a row goes on in the next one; how many rows beside those in view are nodes; and how many pieces and signs are
 * kept at most.
 */
const [WIDEST, AROUND] = [100, 20];
const MOST = { pieces: 12, signs: 1_000_000 };

const brokenRows = (line) => line.match(new RegExp(`.{1,${WIDEST}}`, "gu")) ?? [""];

/**
 * The rows of a paper: each its text, whether it was typed, and how many carriage returns were printed before it. What was typed within a
 * line stands in that.
 */
export function rowsOf(text, typed) {
    const rows = [{ text: "", isTyped: false, returns: 0 }];
    let returns = 0;
    for (const { printed, typed: keys, isLine } of piecesOf(text, typed)) {
        const printedRow = (line) => ({ text: line, isTyped: false, returns });
        if (keys !== undefined && isLine) {
            const typedRow = { ...printedRow(shownKeys(keys)), isTyped: true };
            rows.splice(rows.at(-1).text === "" ? -1 : rows.length, 1, typedRow, printedRow(""));
        } else {
            const [first, ...others] = (printed ?? shownKeys(keys)).split("\n");
            rows.at(-1).text += first;
            for (const line of others) {
                returns += 1;
                rows.push(printedRow(line));
            }
        }
    }
    if (rows.at(-1).text === "") rows.pop();
    return rows.flatMap((row) => brokenRows(row.text).map((part) => ({ ...row, text: part })));
}

/** The paper as text; before each row that was typed stands a word that says so. */
export const copyOf = (rows, word) => rows.map(({ text, isTyped }) => `${isTyped ? `‹${word}› ` : ""}${text}\n`).join("");

const NUMBER = /[-+]?\d+/g;

/** What is struck to type the numbers of a row again: each with a conditional stop after it. */
export const typedAgain = ({ text }) => (text.match(NUMBER) ?? []).map((number) => `${number}${STOP}`);

const firstOf = ({ text, isTyped }) => (isTyped ? null : /^ *([-+]?\d+)/.exec(text)?.[1] ?? null);

/**
 * Which rows of two pieces stand side by side: those that begin with the same number, in the order of both. Each pair has its two rows, or
 * null where one piece has none; how many pairs are whole, and the first number after which the rows are not the same.
 */
export function sideBySide(left, right) {
    const places = new Map(right.map((row, at) => [firstOf(row), at]).filter(([number]) => number !== null).reverse());
    const pairs = [];
    let [next, shared, differs] = [0, 0, null];
    for (const row of left) {
        const at = places.get(firstOf(row)) ?? -1;
        if (at < next) { pairs.push([row, null]); continue; }
        pairs.push(...right.slice(next, at).map((other) => [null, other]), [row, right[at]]);
        [next, shared] = [at + 1, shared + 1];
        if (row.text !== right[at].text) differs ??= firstOf(row);
    }
    pairs.push(...right.slice(next).map((other) => [null, other]));
    return { pairs, shared, differs };
}

/** A text in parts, each with whether its signs are others than those of another text at the same places. */
export function differing(text, other) {
    const parts = [];
    for (const [at, sign] of [...text].entries()) {
        const isOther = sign !== other[at];
        if (parts.at(-1)?.isOther === isOther) parts.at(-1).text += sign;
        else parts.push({ text: sign, isOther });
    }
    return parts;
}

/** Which rows are nodes: those in view, and some around them. */
export function inView({ top, height, row, count }) {
    const first = Math.max(0, Math.floor(top / row) - AROUND);
    return { first, end: Math.min(count, Math.ceil((top + height) / row) + AROUND) };
}

/** The pieces that were torn off, in a text that is kept elsewhere: `of` gives it, and `keep` takes it. */
export class Pieces {
    #kept;

    constructor(kept) {
        this.#kept = kept;
    }

    /**
     * How much of the text of the machine's paper was torn off, and how much of what was typed; and the pieces, each with its number, when
     * it was torn off, its text and what was typed.
     */
    get all() {
        return { torn: 0, typedTorn: 0, pieces: [], ...JSON.parse(this.#kept.of() ?? "{}") };
    }

    /** Another machine, with a paper of its own. */
    anew() {
        const { torn, pieces } = this.all;
        if (torn > 0) this.#kept.keep(JSON.stringify({ torn: 0, typedTorn: 0, pieces }));
    }

    /**
     * What of a paper is still in the machine. Where less was printed than was torn off, the machine is another one, or has gone back: all
     * of it is.
     */
    rest(text, typed) {
        const { torn, typedTorn } = this.all;
        if (torn > text.length) return { text, typed };
        return {
            text: text.slice(torn),
            typed: typed.slice(typedTorn).filter(({ at }) => at >= torn).map(({ at, keys }) => ({ at: at - torn, keys })),
        };
    }

    /**
     * Tears off what is in the machine. Gives the oldest piece where that is one too many, which is not kept any more; else null; undefined
     * where there is nothing to tear off.
     */
    tear(text, typed, at) {
        const { pieces } = this.all;
        const rest = this.rest(text, typed);
        if (rest.text === "" && rest.typed.length === 0) return undefined;
        const all = [...pieces, { number: (pieces.at(-1)?.number ?? 0) + 1, at, ...rest }];
        const isTooMuch = all.length > MOST.pieces || all.length > 1 && all.reduce((sum, piece) => sum + piece.text.length, 0) > MOST.signs;
        this.#kept.keep(JSON.stringify({ torn: text.length, typedTorn: typed.length, pieces: isTooMuch ? all.slice(1) : all }));
        return isTooMuch ? all[0] : null;
    }
}
