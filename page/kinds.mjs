// What words are: whole numbers with their point, orders, or digits alone, as the lines of the loaded source declare them; and what the
// accumulator holds after each order, by what was brought there.
import { isOrder } from "./language.mjs";
import { orderIn, placesIn } from "./machine.mjs";
import { digitsOf, signedOf } from "../libraries/javascript/replies.mjs";
import { Source } from "../libraries/javascript/source.mjs";
import { letterOf } from "./views/says.mjs";
import { inSigns } from "./words.mjs";

/** How the operation is called that declares a whole number, and how many places of a fraction are shown. */
const [WHOLE, FRACTION] = ["int", 10];

/** Kinds of words: an order, and a number of places. A whole number's kind is its point, the bit after which that stands. */
const [ORDER, PLACES] = ["order", "places"];

/**
 * The kinds of the words of a source by their places, as the reply to `source-data` has them; of one that is neither an order nor a whole
 * number, null.
 */
export function kindsIn(lines, data) {
    const textAt = (line, columns) => lines[line - 1].slice(...columns);
    const kindOf = ({ line, operation, operands }) => {
        const name = textAt(line, operation);
        if (name === WHOLE && operands.length === 2) return Number(textAt(line, operands[1]));
        return isOrder(name) ? ORDER : null;
    };
    return new Map(new Source(data).words.map((word) => [word.place, kindOf(word)]));
}

const wholeOf = (digits, point, code) => inSigns(signedOf(digits) / 2 ** (31 - point), code, { maximumFractionDigits: FRACTION });

/**
 * The digits of a word as what its kind says, in a language: the decimal number, the order, or a number of places; null where it is none of
 * these.
 */
export function valueOf(digits, kind, { code, text }) {
    if (typeof kind === "number") return wholeOf(digits, kind, code);
    const places = kind === PLACES ? placesIn(digits) : null;
    if (places !== null) return text("placesOn", { places: String(places).replace("-", "\u2212") });
    return kind === ORDER ? orderIn(digits) : null;
}

/** What a word is where no source says it: an order, where it can be one; but no stop, as which each small number can be read. */
const likely = (digits) => (/^-?[^z-]/.test(orderIn(digits) ?? "z") ? ORDER : null);

/** The word at a place, as what the loaded source says that it is. */
export const valueAt = (kinds, address, digits, texts) => (
    valueOf(digits, kinds.size === 0 ? likely(digits) : kinds.get(address) ?? null, texts) ?? digits
);

/** The digits of a word as the whole number that it was declared as, in a language; null where it was not. */
export function wholeAt(kinds, address, digits, code) {
    const kind = kinds.get(address);
    return typeof kind === "number" ? wholeOf(digits, kind, code) : null;
}

/** What a sum or a difference is, of what was in the accumulator and of the word. */
function kindOfSum(letter, held, word) {
    if (held === ORDER && word === ORDER) return letter === "s" ? PLACES : null;
    if (held === ORDER) return ORDER;
    if (word === ORDER) return letter === "a" ? ORDER : null;
    return held === word ? held : null;
}

/** What the word of an order is that brings, adds or subtracts it. */
function kindOfWord(letter, { word, before, after }, kinds) {
    if (kinds.size > 0) return kinds.get(word) ?? null;
    const [was, is] = [signedOf(before), signedOf(after)];
    return likely(digitsOf({ b: is, a: is - was, s: was - is }[letter]));
}

/** What the accumulator holds after an order, by what it held before. */
function kindAfter(account, held, kinds) {
    const letter = letterOf(account.order);
    if (letter === "b") return kindOfWord(letter, account, kinds);
    if (letter === "a" || letter === "s") return kindOfSum(letter, held, kindOfWord(letter, account, kinds));
    return ["h", "y", "r", "u", "t", "z", "p"].includes(letter) || (letter === "c" && typeof held === "number") ? held : null;
}

/**
 * What the accumulator held before and after each of some accounts. Of what was there before an order that does not follow the one before
 * it nothing is known.
 */
export function accumulatorKinds(accounts, kinds) {
    let [held, clock] = [null, null];
    return accounts.map((account) => {
        const before = account.clock === clock ? held : null;
        held = kindAfter(account, before, kinds);
        clock = account.clock + BigInt(account.sum);
        return { before, after: held };
    });
}
