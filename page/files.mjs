// Files that are opened as scripts, and links that open one.
import { addressOf, numberOf } from "./addresses.mjs";
import { commandIn, isIdle, linesIn } from "./lines.mjs";
import { LIMITS } from "./memory_budget.mjs";

/** Scripts that a link may hold: some browsers take no longer addresses. */
const LONGEST_LINK = 30_000;

/** Why a text cannot be opened as a script, by the name of what is told; or null. Nothing is done with it. */
export function unopened(text, knows) {
    if (text.length > LIMITS.lines) return "fileTooLong";
    if (/[\0\ufffd]/.test(text)) return "fileNoText";
    const first = linesIn(text).find((line) => !isIdle(line));
    return first === undefined || knows(commandIn(first)) ? null : "fileNoScript";
}

/** A word as SIMH writes it, in its commands or as it shows a drum: its address and its digits, small or capital. */
const WORD = /^(?:d -lt ([0-9]{4}) |([0-9]{4}):\t)([0-9a-z]{8})\r?$/i;

/** Whether a text begins as a drum does that SIMH has written. */
export const isOfSimh = (text) => WORD.test(text.slice(0, text.indexOf("\n") + 1 || undefined).trimEnd());

/**
 * A drum of SIMH's as a script that puts its words; or the number of the first line that has no word, or none with a higher address than
 * the one before. What a word's digits are the monitor says.
 */
export function scriptOfSimh(text) {
    const lines = [];
    let least = 0;
    for (const [place, line] of text.replace(/\r?\n$/, "").split("\n").entries()) {
        const [, given, shown, digits] = WORD.exec(line) ?? [];
        const number = numberOf(given ?? shown ?? "");
        if (digits === undefined || number < least || addressOf(number) !== (given ?? shown)) return { wrong: place + 1 };
        lines.push(`put ${given ?? shown} ${digits.toLowerCase()}`);
        least = number + 1;
    }
    return { script: `${lines.join("\n")}\n` };
}

/** An address of the page that opens a script, or null where that would be too long. */
export function linkOf(script, { origin, protocol, pathname }) {
    const page = protocol === "file:" ? `file://${pathname}` : `${origin}${pathname}`;
    const link = `${page}#script=${encodeURIComponent(script.replace(/\n$/, ""))}`;
    return link.length > LONGEST_LINK ? null : link;
}
