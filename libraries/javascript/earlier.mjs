// What was done in a session earlier than the steps that are kept: its transcript, done again in another laboratory, tells it.
import { NoMemory } from "./session.mjs";
import { Progress, letOthersGo } from "./long.mjs";
import { linesIn, wordsOf } from "./lines.mjs";
import { accountsOf, codesOf, isRefusal, orderOf, recordsOf, reportOf } from "./replies.mjs";
import { Interrupted, Way, besideMachine } from "./way.mjs";

/** A text with what was typed between its signs, marked. */
function laidBetween(text, typed, mark) {
    const struck = new Map();
    for (const { keys, at } of typed) struck.set(at, (struck.get(at) ?? "") + keys);
    const lastFirst = [...struck].sort(([one], [other]) => other - one);
    return lastFirst.reduce((laid, [at, keys]) => laid.slice(0, at) + mark(keys) + laid.slice(at), text);
}

/** The order that a laboratory performs next: where it is, its operation, and its address. */
async function orderNext(laboratory) {
    const records = async (line) => recordsOf(await laboratory.answer(`json ${line}`))[0];
    const state = await records("state-data");
    const isInRegister = state.get("status") === "executing";
    const place = isInRegister ? null : state.get("counter");
    const order = isInRegister ? state.get("register-order") : (await records(`show-data ${place} 1`)).get("order");
    const [operation, address] = wordsOf(order ?? "");
    return { place, operation, address };
}

/**
 * Goes back over the orders of which a laboratory has kept steps, up to the last `r` that is not answered by one of the jumps after it; and
 * the number of the first order, where others come before it.
 */
async function callIn(way, laboratory, jumps, hears) {
    const kept = recordsOf(await laboratory.answer("json state-data"))[0].get("kept");
    for (let left = kept; left > 0; left -= 1) {
        await hears();
        await laboratory.answer("back 1");
        const { place, operation, address } = await orderNext(laboratory);
        if (operation === "r" && !jumps.delete(address)) return { call: { place, address }, number: null };
        if (operation === "u") jumps.add(place);
    }
    return { call: null, number: kept === 0 || kept === way.orders ? null : way.numberBack(kept) };
}

export class Earlier {
    #engine;
    #isInterrupted;
    #draw;
    #askLong;

    /**
     * With the engine of the session, what tells whether Ctrl-C was pressed, what draws how far it is, and what asks a question that may
     * take long: its reply, or null where Ctrl-C has stopped it.
     */
    constructor({ engine, isInterrupted, draw, askLong }) {
        this.#engine = engine;
        this.#isInterrupted = isInterrupted;
        this.#draw = draw;
        this.#askLong = askLong;
    }

    /** How many orders can be gone back over by steps that are kept. */
    async kept() {
        return recordsOf(await this.#engine.ask("json state-data"))[0].get("kept");
    }

    /** The way of the session, on which a word may be watched, and keys noted. Ctrl-C throws Interrupted. */
    async way(options = {}) {
        return this.#followed(await this.#engine.ask("transcript"), options, (way) => way);
    }

    /** What a work finds on the way of a transcript and in the laboratory that did its lines. Ctrl-C throws Interrupted. */
    async #followed(transcript, options, work) {
        const [again, progress] = [this.#engine.openAgain(), new Progress(this.#draw)];
        const hears = async () => {
            await letOthersGo();
            if (this.#isInterrupted()) throw new Interrupted();
            progress.showTime();
        };
        const way = new Way(again, hears, options);
        try {
            await way.follow(linesIn(transcript));
            return await work(way, again, hears);
        } catch (failure) {
            if (failure instanceof NoMemory) failure.isTakenBack = true;
            throw failure;
        } finally {
            progress.clear();
            await again.close();
        }
    }

    /**
     * What put the word at an address there, over the whole session: what is to be said of it, and if it was an order, its number and how
     * many orders back it is. Ctrl-C throws Interrupted.
     */
    async origin(address) {
        const way = await this.way({ watched: address });
        const number = await this.#lastChange(way, address);
        const change = way.changeAfter(number);
        if (change !== null) return { says: `put there by ${change}`, number: null, back: null };
        if (number === null) return { says: "changed by nothing since the session began", number, back: null };
        const back = way.backTo(number);
        return { says: `put there by ${await this.#performed(number, back)}`, number, back };
    }

    /** The paper with what was typed, marked: how many codes were printed and typed, and the text. Ctrl-C throws Interrupted. */
    async typedPaper(mark) {
        const { typed, paper: { count, text } } = await this.way({ notesKeys: true });
        return { printed: count, typed: codesOf(typed.map(({ keys }) => keys).join("")).length, text: laidBetween(text, typed, mark) };
    }

    /**
     * The last `r` after which no `u` was performed at the word in which it has stored an address: its place, null where that was in the
     * register, and the address of the word; or null where there is none since the last `load`. Ctrl-C throws Interrupted.
     */
    async call() {
        const jumps = new Set();
        let transcript = await this.#engine.ask("transcript");
        for (;;) {
            const { call, number } = await this.#followed(transcript, {}, (way, again, hears) => callIn(way, again, jumps, hears));
            if (call !== null || number === null) return call;
            transcript = await this.#answer(`at ${number} transcript`);
        }
    }

    async #answer(line) {
        const reply = await this.#askLong(line);
        if (reply === null) throw new Interrupted();
        return reply;
    }

    /** The number of the last order on the way that changed a word; null where none did. */
    async #lastChange(way, address) {
        for (let end = way.performed; ;) {
            const reply = await this.#answer(`at ${end} to last changed ${address}`);
            if (isRefusal(reply)) return null;
            const number = orderOf(reply);
            if (way.backTo(number) !== null) return number;
            end = way.endBefore(number);
        }
    }

    /** What is said of the order of a number that changed a word, in the words of `why`. */
    async #performed(number, back) {
        const [account] = accountsOf(reportOf(await this.#answer(`at ${number} json trace-data 1`)).told);
        const { order, at, label, clock, stored: { before } } = account;
        const place = at === null ? "in the instruction register" : `at ${[at, label].filter((it) => it !== null).join(" ")}`;
        const lost = before.order ?? `${before.digits} = ${before.number}`;
        return `${order} ${place}, clock ${clock}, ${back} ${back === 1 ? "order" : "orders"} ago; before it was ${lost}`;
    }

    /** Types the sources and rules that a session's lines have after those that lead here. */
    async typeBesideMachine(lines) {
        const here = linesIn(await this.#engine.ask("transcript"));
        // orders at the end may be a part of those of a line
        const common = wordsOf(here.at(-1) ?? "")[0] === "orders" ? here.length - 1 : here.length;
        for (const line of besideMachine(lines.slice(common))) await this.#engine.type(line);
    }
}
