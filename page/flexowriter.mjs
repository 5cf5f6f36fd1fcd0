// The Flexowriter as numbers: its keys and which of them strikes a code, the holes of a code, what it does now, and where its carriage
// stands. Nothing here knows of a page.
import { codesOf, groupOf } from "../libraries/javascript/replies.mjs";

/** The keys in their rows, each row with how far it is set in, in widths of a key. The letter l is the digit 1, as on a typewriter. */
export const KEY_ROWS = [["1234567890-", 0], ["qwertyuiop+", 0.5], ["asdfghjk;/", 0.75], ["zxcvbnm,.", 1.25]];

/** The keys of the last row. */
export const [SPACE, STOP] = [" ", "'"];

const BITS = 6;

/** The holes of a code across the tape, three on each side of the feed hole. */
export const holesOf = (code) => Array.from({ length: BITS }, (unused, bit) => ((code >> bit) & 1) === 1);

/** The sign of the key that strikes a code; null where no key has it, as that of a new line. */
export const keyOf = (code) => codesOf(groupOf(code))[0].sign;

/**
 * What the typewriter does: it reads while codes of an order are still to pass, waits where its keys are live, has been typed at where
 * something was typed since the last print, and else is idle.
 */
export function stateOf({ coming, isReading, isLive, isTyped }) {
    if (coming > 0 || isReading) return "reading";
    return isLive ? (isTyped ? "typed" : "waiting") : "idle";
}

/** In how many columns a sheet is printed that leaves a share of its place free, so that the carriage can move. */
const [FREE, FEWEST] = [0.2, 12];
export const columnsIn = (width, column, margins) => Math.max(FEWEST, Math.floor(((1 - FREE) * width - margins) / column));

/**
 * The column at which the next sign is struck, where a line is broken after this number of columns; a line that is just full has not been
 * broken yet.
 */
export function columnOf(text, columns) {
    const length = [...text.slice(text.lastIndexOf("\n") + 1)].length;
    return length === 0 ? 0 : ((length - 1) % columns) + 1;
}

/**
 * Where the carriage stands before the sign of a column is struck, in pixels from the middle of its place: it moves as far as its place
 * beside the sheet lets it, and the guide of the types moves the rest.
 */
export function carriageAt({ column, columns, width, room }) {
    const half = (columns * width) / 2;
    const share = half === 0 ? 0 : Math.max(0, Math.min(1, room / half));
    const shift = share * (half - column * width);
    return { shift, guide: shift + column * width - half };
}

/**
 * What was typed, laid between what was printed, as pieces in their order: a text is `printed`, or was `typed`. What is at the end of the
 * text comes after it.
 */
export function piecesOf(text, typed) {
    const pieces = [];
    let done = 0;
    for (const { at, keys } of typed.filter(({ at }) => at <= text.length)) {
        if (at > done) pieces.push({ printed: text.slice(done, at) });
        const last = pieces.at(-1);
        if (last?.typed !== undefined) last.typed += keys;
        else pieces.push({ typed: keys, isLine: at === 0 || text[at - 1] === "\n" });
        done = at;
    }
    if (done < text.length) pieces.push({ printed: text.slice(done) });
    return pieces;
}

/** The text of such pieces as it stands on the paper: what was typed at the beginning of a line has that line to itself. */
export const textOnPaper = (pieces) => (
    pieces.map(({ printed, typed, isLine }, at) => printed ?? `${shownKeys(typed)}${isLine && at < pieces.length - 1 ? "\n" : ""}`).join("")
);

/** Typed keys as they are shown: a conditional stop leaves no sign. */
export const shownKeys = (keys) => keys.replaceAll(STOP, " ").trimEnd();
