// How much of the module's memory a session may take. The module is not asked for its free room: what is counted is what takes the memory,
// the bytes of the lines that its transcript keeps, and the codes that it has printed. The bounds leave room to spare for what
// `transcript`,
// `printed`, a source and a told run need for a moment; page/tests/memory_budget.test.mjs fills a session up to them, and asks all that.

import { commandIn } from "./lines.mjs";

/**
 * The bytes of lines and the codes that a session may reach; how many codes short of that no more is begun; the codes after which a run
 * asks; the most orders that one line tells, and the most signs of a source that is sent at once.
 */
export const LIMITS = { lines: 3_000_000, codes: 1_000_000, last: 10_000, asksAfter: 20_000, told: 10_000, source: 1_500_000 };

const PERFORMS = /^ *(?:json +)?(run|orders|operate|profile|trace|drum|optimum|profile-data|trace-data|optimum-data) +(\d+)(?: +\S+)? *$/;
const ORDERS = /^ *orders +(\d{1,15}) *$/;
const TELL_EACH = ["trace", "drum", "trace-data"];
const RUN = /^ *run +(\d{1,15}) *$/;
const GIVE_ROOM = ["new", "back", "last"];
const USED_LITTLE = 100_000;

const lengthOf = (text) => new TextEncoder().encode(text).length;

/** What a session has taken so far. */
export class MemoryBudget {
    #lines = 0;
    #codes = 0;
    #unasked = 0;

    /** A line was sent. Each is counted, though some of those that only ask stand in no transcript. */
    sent(line) {
        this.#lines += lengthOf(line) + 1;
    }

    /** So many codes are printed, as the monitor has said. */
    printed(count) {
        this.#codes = count;
        this.#unasked = 0;
    }

    /** So many orders were performed since. Each may have printed one code. */
    ran(orders) {
        this.#unasked += orders;
    }

    /** How many codes may have been printed at most. */
    get codesAtMost() {
        return this.#codes + this.#unasked;
    }

    /** How many orders may be performed at once, whatever they print. */
    get orders() {
        return Math.max(0, LIMITS.codes - this.codesAtMost);
    }

    /** Whether no more is to be begun. */
    get isUsedUp() {
        return this.#lines >= LIMITS.lines || this.orders < LIMITS.last;
    }

    /** Whether a new laboratory may be opened in the same memory. */
    get isFresh() {
        return this.#lines + this.codesAtMost < USED_LITTLE;
    }

    /** Whether a line may be sent although no more is to be begun: it only asks, by the set of such commands, or gives room. */
    static isAlwaysTaken(line, questions) {
        const command = commandIn(line);
        return questions.has(command) || GIVE_ROOM.includes(command);
    }

    /** The most orders that may stand in a line where it names more than that, else null. */
    mostIn(line) {
        const [, verb, number] = PERFORMS.exec(line) ?? [];
        const most = TELL_EACH.includes(verb) ? Math.min(LIMITS.told, this.orders) : verb === "operate" ? this.runs : this.orders;
        return verb !== undefined && Number(number) > most ? most : null;
    }

    /** The most orders of `operate`: it performs as many runs, and one more. */
    get runs() {
        return Math.floor((Math.sqrt(1 + 4 * this.orders) - 1) / 2);
    }

    /** The orders of a line `run` that names more than may be performed at once, else null. It can be done in portions. */
    longRunIn(line) {
        const orders = Number(RUN.exec(line)?.[1] ?? 0);
        return orders > this.orders ? orders : null;
    }

    /** The parts in which a line `orders` is done that names more than may be performed at once. Else none. */
    partsOf(line, size) {
        const left = this.mostIn(line) === null ? 0 : Number(ORDERS.exec(line)?.[1] ?? 0);
        return Array.from({ length: Math.ceil(left / size) }, (unused, at) => `orders ${Math.min(size, left - at * size)}`);
    }

    /** The transcript has this number of bytes now. */
    holds(bytes) {
        this.#lines = bytes;
    }

    /** A new module has been taken. */
    anew() {
        this.#lines = 0;
        this.printed(0);
    }
}
