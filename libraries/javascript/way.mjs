// @ts-check
// The way of a session: what was done in it, without what was gone back over. A machine does the same again where the same is done, so the
// lines of a transcript, done again, tell each order that leads to the present, and which one of all it is.
import { wordsOf } from "./lines.mjs";
import * as replies from "./replies.mjs";

/** What sets rules and drops them: these are no part of the machine. */
const OF_RULES = ["break", "watch", "drop"];
/** A number of orders that a line may ask for. */
const IS_LIMIT = /^\d{1,10}$/;
/** The last code that there is. */
const LAST_CODE = 63;
/** How many orders are performed again at a time. */
export const PORTION = 1_000_000;

/** Over how many orders a line of a script goes back, by its words and its reply. */
const BACK_OF = { back: ([, orders]) => Number(orders), last: (words, reply) => replies.lastOf(reply).orders };

/** What is done again takes long, and was stopped. */
export class Interrupted extends Error {}

/**
 * What was done: a line, or null for orders that are performed alone; the number of the first of its orders among all since the session
 * began, counted as `at` counts them, and how many they are; where a word is watched, what is to be said of a line that changed it; and
 * where keys are noted, the text of those that the machine has taken, and after how much of the paper's text they were struck.
 * @typedef {{ line: string | null, first: number, orders: number, change?: string, keys?: string, at?: number }} Deed
 */

/** Whether a deed is about rules. */
export const isOfRules = ({ line }) => line !== null && OF_RULES.includes(wordsOf(line)[0]);

/** A deed of which only the first orders are left. */
export const shortened = (deed, orders) => ({ ...deed, orders });

/** Runs in portions, and tells how many orders were performed at each stop of a rule, and at the end. */
export async function* stopsWithin(session, limit, letOthersGo) {
    for (let orders = 0; ;) {
        await letOthersGo();
        const reply = await session.answer(`run ${Math.min(PORTION, limit - orders)}`);
        const run = replies.isRefusal(reply) ? { orders: 0, end: "rest" } : replies.runOf(reply);
        orders += run.orders;
        if (run.end !== "limit" || orders === limit) yield { orders, isRule: run.end === "rule" };
        if (run.end === "rest" || orders === limit) return;
    }
}

/** The lines that sources and rules are made of: they leave the machine as it is. */
export function besideMachine(lines) {
    let isOpen = false;
    return lines.filter((line) => {
        const isOfSource = isOpen || line.trim() === "source";
        isOpen = isOfSource && line !== ".";
        return isOfSource || isOfRules({ line });
    });
}

/** The codes of a line that strikes keys; null where its text is none of a tape, so that it is refused. */
function codesIn(line) {
    try {
        const codes = replies.codesOf(line.replace(/^ *type ?/, ""));
        return codes.some(({ code }) => code > LAST_CODE) ? null : codes;
    } catch (failure) {
        if (!(failure instanceof replies.ReplyError)) throw failure;
        return null;
    }
}

export class Way {
    #session;
    #letOthersGo;
    /** @type {Deed[]} */
    #deeds = [];
    #performed = 0;
    #begun = 0;
    #watched;
    /**
     * The word that is watched, as it was after the line before.
     * @type {any}
     */
    #word = null;
    #notesKeys;
    /**
     * The paper after all lines; null where no keys are noted.
     * @type {{ count: number, text: string } | null}
     */
    paper = null;

    /**
     * The way of lines that are done in a new session, from its beginning; `letOthersGo` is awaited now and then, and throws `Interrupted`
     * where it is enough. The word at an address may be watched, and the keys may be noted that were struck.
     * @param {any} session
     * @param {() => Promise<void>} letOthersGo
     * @param {{ watched?: string | null, notesKeys?: boolean }} options
     */
    constructor(session, letOthersGo, { watched = null, notesKeys = false } = {}) {
        this.#session = session;
        this.#letOthersGo = letOthersGo;
        this.#watched = watched;
        this.#notesKeys = notesKeys;
    }

    /** Does lines. */
    async follow(lines) {
        if (this.#watched !== null) this.#word ??= await this.#wordNow();
        for (const line of lines) {
            const deed = await this.#does(line);
            if (this.#watched !== null && !this.#session.isSourceOpen) await this.#noteWord(deed);
        }
        if (this.#notesKeys) this.paper = await this.#paperNow();
    }

    /** What was done so far brought the program into the machine. */
    begin() {
        this.#begun = this.#deeds.length;
    }

    /** What brought the program into the machine, and what was done since then. */
    get beginning() {
        return this.#deeds.slice(0, this.#begun);
    }

    get sinceBegun() {
        return this.#deeds.slice(this.#begun);
    }

    /** How many orders on the way were performed since the program was there. */
    get orders() {
        return ordersOf(this.sinceBegun);
    }

    /** How many orders were performed in all, with those that were gone back over. */
    get performed() {
        return this.#performed;
    }

    /** The number of the order that is this many orders back from the end; null where there are fewer. */
    numberBack(orders) {
        let left = orders;
        for (const deed of this.#deeds.slice().reverse()) {
            if (left <= deed.orders) return deed.first + deed.orders - left;
            left -= deed.orders;
        }
        return null;
    }

    /** How many orders back that of a number is; null where it was gone back over. */
    backTo(number) {
        const at = this.#deeds.findIndex(({ first, orders }) => first <= number && number < first + orders);
        if (at < 0) return null;
        const { first, orders } = this.#deeds[at];
        return first + orders - number + ordersOf(this.#deeds.slice(at + 1));
    }

    /** After how many of all orders the last one on the way was performed that came before that of a number. */
    endBefore(number) {
        return this.#deeds.reduce((end, { first, orders }) => (orders > 0 && first < number ? Math.min(first + orders, number) : end), 0);
    }

    /** What is to be said of the last line that changed the watched word after the order of a number, or since the beginning; or null. */
    changeAfter(number) {
        const changes = this.#deeds.filter((deed) => deed.change !== undefined && (number === null || deed.first > number));
        return changes.at(-1)?.change ?? null;
    }

    /** What was typed and taken by the machine: each text, and after how much of the paper's text it was struck. */
    get typed() {
        return this.#deeds.filter(({ keys = "" }) => keys !== "").map(({ keys, at }) => ({ keys, at }));
    }

    async #paperNow() {
        return replies.paperOf(await this.#session.answer("paper"));
    }

    async #wordNow() {
        return replies.recordsOf(await this.#session.answer(`json show-data ${this.#watched} 1`))[0];
    }

    /** Notes a change of the watched word by a line, if it was one that performs no orders. */
    async #noteWord(deed) {
        const [before, now] = [this.#word, await this.#wordNow()];
        this.#word = now;
        if (deed === null || before.get("digits") === now.get("digits")) return;
        // the loader leaves no steps
        const by = /, put there by (.*)/.exec(await this.#session.answer(`why ${this.#watched}`))?.[1];
        deed.change = by ?? `${deed.line}; before it was ${before.get("order") ?? `${before.get("digits")} = ${before.get("number")}`}`;
    }

    /** Does a line; the deed, if it is one that performs no orders. */
    async #does(line) {
        const isOfSource = this.#session.isSourceOpen;
        const words = isOfSource ? [] : wordsOf(line);
        const [command = "", limit = ""] = words;
        const isCounted = words.length === 2 && IS_LIMIT.test(limit);
        if (command === "run" && isCounted) return this.#ran(await this.#run(Number(limit)));
        if (command === "orders" && isCounted) return this.#ran(await this.#perform(Number(limit)));
        const codes = this.#notesKeys && command === "type" ? codesIn(line) : null;
        if (codes !== null) return this.#struck(line, codes);
        const reply = await this.#session.answer(line);
        if (replies.isRefusal(reply) && !isOfSource) return null;
        if (command in BACK_OF) return this.#takeBack(BACK_OF[command](words, reply));
        return this.#did({ line, first: this.#performed, orders: 0 });
    }

    #did(deed) {
        this.#deeds.push(deed);
        return deed;
    }

    /** Strikes keys one after another, and notes those that the machine has taken. */
    async #struck(line, codes) {
        const { text: { length: at } } = await this.#paperNow();
        let keys = "";
        for (const { code, sign } of codes) {
            const key = sign ?? replies.groupOf(code);
            if ((await this.#session.answer(`type ${key}`)).startsWith("live 1 ")) keys += key;
        }
        return this.#did({ line, first: this.#performed, orders: 0, keys, at });
    }

    #ran(orders) {
        this.#deeds.push({ line: null, first: this.#performed, orders });
        this.#performed += orders;
        return null;
    }

    async #run(limit) {
        let orders = 0;
        for await (const stop of stopsWithin(this.#session, limit, this.#letOthersGo)) {
            orders = stop.orders;
            if (stop.isRule) break;
        }
        return orders;
    }

    async #perform(limit) {
        for (let orders = 0; ;) {
            await this.#letOthersGo();
            const asked = Math.min(PORTION, limit - orders);
            const reply = await this.#session.answer(`orders ${asked}`);
            if (replies.isRefusal(reply)) return orders;
            const done = replies.ordersOf(reply).orders;
            orders += done;
            if (done < asked || orders === limit) return orders;
        }
    }

    /** Orders were gone back over, with all that was done after the first of them. */
    #takeBack(orders) {
        const rules = [];
        let left = orders;
        for (let last = this.#deeds.at(-1); left > 0 && last !== undefined; last = this.#deeds.at(-1)) {
            this.#deeds.pop();
            if (last.orders >= left) this.#deeds.push(shortened(last, last.orders - left));
            else if (isOfRules(last)) rules.unshift(last);
            left -= Math.min(left, last.orders);
        }
        this.#begun = Math.min(this.#begun, this.#deeds.length);
        this.#deeds.push(...rules);
        return null;
    }
}

/** How many orders deeds performed. */
export const ordersOf = (deeds) => deeds.reduce((sum, deed) => sum + deed.orders, 0);
