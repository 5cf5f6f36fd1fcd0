// What a terminal shows beside the replies: where the machine is, the panel in a few lines, and accounts in 80 columns. All of it is read
// from
// replies that are asked for when it is shown.
import { accountsOf, fractionOf, isRefusal, recordsOf, reportOf } from "./replies.mjs";

/** Of more codes that were printed only the count is shown. */
const MOST_PRINTED = 20_000;

const left = (text, width) => String(text).padEnd(width);
const right = (text, width) => String(text).padStart(width);

export class Views {
    #ask;
    #hasColour;
    #clock = null;
    #printed = 0;
    /** The addresses, as they were typed, whose words are shown after each move. */
    #displayed = [];

    /** What answers a line that only asks, and whether there is colour. */
    constructor(ask, hasColour) {
        this.#ask = ask;
        this.#hasColour = hasColour;
    }

    /** The order or the digits of some words around an address, each with its label; the address has a mark in front of it. */
    async around(address, count) {
        const before = Math.floor((count - 1) / 2);
        const first = Math.max(0, Math.min(numberOf(address) - before, 4096 - count));
        const words = recordsOf(await this.#ask(`json show-data ${addressOf(first)} ${count}`));
        return words.map((word) => {
            const isMarked = word.get("address") === address;
            const line =
                `${isMarked
                    ? ">"
                    : " "} ${word.get("address")} ${left(word.get("label") ?? "", 8)}  ${word.get("digits")}  ${word.get("order")
                    ?? ""}`.trimEnd();
            return isMarked && this.#hasColour ? `\x1b[1m${line}\x1b[0m` : line;
        });
    }

    /**
     * Where the machine is, if it has moved: three words around the counter, the accumulator, the words that are displayed, and what was
     * printed since.
     */
    async afterMove() {
        const state = await this.#state();
        const clock = state.get("clock");
        const printed = await this.#printedSince();
        const hasMoved = this.#clock !== null && clock !== this.#clock;
        this.#clock = clock;
        if (!hasMoved && printed === null) return [];
        const told = printed === null ? [] : [`  printed ${printed}`];
        return [...told, ...(await this.around(state.get("counter"), 3)), `  ${accumulatorOf(state)}`, ...(await this.displayed())];
    }

    /** Shows the word at an address after each move, or no more. Whether that is a change. */
    display(address) {
        const isNew = !this.#displayed.includes(address);
        if (isNew) this.#displayed.push(address);
        return isNew;
    }

    hide(address = null) {
        const before = this.#displayed.length;
        this.#displayed = address === null ? [] : this.#displayed.filter((each) => each !== address);
        return this.#displayed.length < before;
    }

    /** The words that are displayed, each in its four forms. One whose label is gone is left out. */
    async displayed() {
        const replies = await Promise.all(this.#displayed.map((address) => this.#ask(`json show-data ${address} 1`)));
        return replies.filter((reply) => !isRefusal(reply)).map((reply) => `  ${formsOf(recordsOf(reply)[0])}`);
    }

    async #state() {
        const [state] = recordsOf(await this.#ask("json state-data"));
        return state;
    }

    /** Why the machine does not run, and what lets it go on. */
    async standstill() {
        const state = await this.#state();
        return `${state.get("state-sentence")}: ${state.get("way-sentence")}`;
    }

    /** The machine is here; what comes after is a move. */
    async settle() {
        this.#clock = (await this.#state()).get("clock");
        await this.#printedSince();
    }

    async #codesAfter(count) {
        return recordsOf(await this.#ask(`json paper-data ${count}`));
    }

    /**
     * What was printed since this was asked last, as its signs; null where nothing was. The last code is asked for too: where it is gone,
     * the machine went back.
     */
    async #printedSince() {
        const last = Math.min(this.#printed, 1);
        const found = await this.#codesAfter(this.#printed - last);
        const codes = found.slice(last);
        this.#printed = found.length < last ? (await this.#codesAfter(0)).length : this.#printed + codes.length;
        if (codes.length === 0) return null;
        return codes.length > MOST_PRINTED
            ? `codes: ${codes.length}`
            : codes.map((code) => code.get("sign") ?? `[${code.get("code")}]`).join("");
    }

    /** The panel in lines of at most 80 columns. */
    async look() {
        const state = await this.#state();
        const down = [...state].filter(([, value]) => value === "down").map(([name]) => name);
        return [
            `status ${state.get("status")}, mode ${state.get("mode")}, clock ${state.get("clock")}`,
            `counter ${state.get("counter")}, register ${state.get("register")}, switches down: ${down.join(" ") || "none"}`,
            accumulatorOf(state),
            `reader ${state.get("reader")}, codes left on the tape: ${state.get("tape")}`,
            state.get("state-sentence"),
            state.get("way-sentence"),
            ...(await this.around(state.get("counter"), 3)),
        ];
    }
}

/** A word with its address and label, as digits, whole number, fraction and order. */
function formsOf(word) {
    const place = [word.get("address"), word.get("label")].filter((it) => it !== undefined).join(" ");
    const order = word.has("order") ? `, order ${word.get("order")}` : "";
    return `${place}: ${word.get("digits")} = ${word.get("number")} or ${fractionOf(word.get("digits")).toFixed(10)}${order}`;
}

/** The accumulator as digits, whole number and fraction. */
const accumulatorOf = (state) => (
    `accumulator ${state.get("accumulator")} = ${state.get("accumulator-number")} or ${fractionOf(state.get("accumulator")).toFixed(10)}`
);

const numberOf = (address) => Number(address.slice(0, 2)) * 64 + Number(address.slice(2));
const addressOf = (number) => [Math.floor(number / 64), number % 64].map((part) => String(part).padStart(2, "0")).join("");

const INDENT = "        ";

/** The reply of `trace-data` in 80 columns: the rows with their heading, the line that ends it, and all of its lines. */
export function narrowRows(reply) {
    const { told, end, state } = reportOf(reply);
    const found = accountsOf(told).flatMap(narrowRow);
    const rows = found.length > 0 ? [HEADING, ...found] : [];
    return { rows, end, lines: [...rows, end, ...(state === null ? [] : [INDENT + state])] };
}

const HEADING = "   clock at            order         find take seek act   sum accumulator";

function narrowRow({ clock, at, label, order, find, take, seek, act, sum, after, origin, stored, printed, passed }) {
    const row = `${right(clock, 8)} ${left(
        at === null ? "" : `${at} ${label ?? ""}`, 13
    )} ${left(order, 13)} ${right(find, 4)} ${right(take, 4)} ${right(seek, 4)} ${right(act, 3)} ${right(sum, 5)} ${after}`;
    const lines = [row];
    if (origin !== null) {
        lines.push(
            `        put there by ${origin.order
                ?? "hand"}${origin.at === null ? "" : ` at ${origin.at}`}, clock ${origin.clock}; before it was ${origin.lost}`
        );
    }
    if (stored !== null) {
        lines.push(
            `        ${stored.address}: ${stored.before.order
                ?? stored.before.digits} = ${stored.before.number} -> ${stored.after.order ?? stored.after.digits} = ${stored.after.number}`
        );
    }
    if (printed !== null) lines.push(`        printed ${printed.sign ?? `code ${printed.code}`}`);
    if (passed > 0) lines.push(`        codes passed: ${passed}`);
    return lines;
}
