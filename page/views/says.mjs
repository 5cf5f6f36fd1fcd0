// What an order does, in one sentence for a child, from its account. Nothing here knows of a page.
import { SECTORS, addressIn, bareOrder, inTwoDigits, partsOfOrder } from "../addresses.mjs";
import { isNegative, sectorAt } from "../machine.mjs";

/** The letter of an order as it is written, or null. */
export const letterOf = (order) => partsOfOrder(order).letter;

/** What a test has found. Only one with a sign asks for the switch; there it has to be known where the machine went on. */
function testOf({ before, order, next }) {
    if (isNegative(before)) return "tBelow";
    if (!order.startsWith("-")) return "tNot";
    if (next == null) return "tOpen";
    return next === addressIn(order) ? "tSwitch" : "tNot";
}

/** The name of the sentence for an order. A stop was passed by where the machine did not stand still after it. */
function kindOf(account) {
    const letter = letterOf(account.order);
    if (letter === null) return "other";
    if (letter === "t") return testOf(account);
    if (letter === "z") return account.status === "halted stop" ? "z" : "zPast";
    if (letter === "p" && account.printed?.sign == null) return "pCode";
    if (letter === "i" && account.passed === 1) return "iOne";
    return letter;
}

/** The name of the sentence that says how far the drum had to turn, or null. */
function waitOf({ word, find }, kind) {
    if (kind === "other") return null;
    return `waits${find === 0 ? "Register" : "Order"}${word === null ? "" : "Word"}`;
}

/** The sentences of an order by their names: what it does, and how far the drum had to turn; and what stands in their places. */
export function saysOf(account) {
    const { order, find, seek, printed, passed } = account;
    const kind = kindOf(account);
    return {
        kind,
        waits: waitOf(account, kind),
        values: { m: addressIn(order) ?? "–", g: printed?.sign ?? "", code: printed?.code ?? "–", n: passed, f: find, s: seek },
    };
}

/** Which sector the head reads next at a clock. */
const nextAt = (clock) => inTwoDigits(sectorAt(Number(clock % BigInt(SECTORS))));

/** Why an order has waited, for itself and then for its word: the names of the sentences, and what stands in their places. */
export function whyOf({ at, clock, find, take, seek, word }) {
    const order = find === 0 || at === null
        ? { name: "whyRegister", values: {} }
        : { name: "whyOrder", values: { m: at, next: nextAt(clock), f: find } };
    return word === null
        ? [order, { name: "whyNoWord", values: {} }]
        : [order, { name: "whyWord", values: { m: word, next: nextAt(clock + BigInt(find + take)), s: seek } }];
}

/** What an order has rewritten: another one, to which it has given another address. Null where it has not. */
export function rewrittenBy({ order, at, stored }) {
    if (stored === null || !["y", "r"].includes(letterOf(order)) || stored.before.digits === stored.after.digits) return null;
    const named = ({ order: name, digits }) => name ?? digits;
    return { o: order, at: at ?? "–", m: stored.address, b: named(stored.before), a: named(stored.after) };
}

/**
 * What is told of the order under way while a program plays by itself, by the name of its text and what stands in that: that it prints a
 * sign, or has rewritten another order, as long as that can be read; or null.
 */
export function happeningIn({ now, order, phase }, account, isTelling) {
    if (account === null || phase === null) return null;
    const event = phase === "done" && isTelling ? rewrittenBy(account) : null;
    if (event !== null) return { name: "kiosk_write", values: { b: bareOrder(event.b), a: bareOrder(event.a) } };
    const sign = account.printed?.sign ?? null;
    return phase === "act" && sign !== null ? { name: "kiosk_type", values: { g: sign } } : null;
}
