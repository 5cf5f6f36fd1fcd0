// @ts-check
// All that was done in a session, so that each of its moments can be come back to: a machine keeps a few thousand steps, and does the same
// again where the same is done.
import { bytesFrom, textFrom } from "../../libraries/javascript/lines.mjs";
import * as replies from "../../libraries/javascript/replies.mjs";
import { TextSession } from "../../libraries/javascript/text_session.mjs";
import { Interrupted, PORTION, Way, isOfRules, ordersOf, shortened, stopsWithin } from "../../libraries/javascript/way.mjs";

/** How many places are told at which rules have hit: the last of them may be the present. */
const MOST_TOLD = 3;

/** A text as a session takes it, with a sign for each of its bytes. */
export const typed = (text) => textFrom(new TextEncoder().encode(text));

/** A text of which each sign is a byte, as it is shown. */
export const shown = (text) => new TextDecoder().decode(bytesFrom(text));

export { Interrupted };

/** How many orders were performed since something else was done. */
const ordersAtEnd = (deeds) => deeds.reduce(
    (sum, deed) => (deed.orders > 0 || isOfRules(deed) ? sum + deed.orders : 0), 0
);

const counterOf = (session) => replies.recordsOf(session.answer("json state-data"))[0].get("counter");

export class Past {
    #openSession;
    #letOthersGo;
    /** @type {Way} */
    #way;

    /**
     * `openSession` opens a new session; `letOthersGo` is awaited now and then, and throws `Interrupted` where it is enough.
     * @param {() => any} openSession
     * @param {() => Promise<void>} letOthersGo
     */
    constructor(openSession, letOthersGo) {
        this.#openSession = openSession;
        this.#letOthersGo = letOthersGo;
        this.#way = this.#newWay();
    }

    #newWay() {
        return new Way(new TextSession(this.#openSession()), this.#letOthersGo);
    }

    /** Follows the lines of a transcript, of which the first ones brought the program into the machine. */
    async follow(lines, begun) {
        this.#way = this.#newWay();
        await this.#way.follow(lines.slice(0, begun).map(typed));
        this.#way.begin();
        await this.#way.follow(lines.slice(begun).map(typed));
    }

    /** How many orders were performed since the program was there. */
    get orders() {
        return this.#way.orders;
    }

    /** What was done up to the end of the first `orders` orders, with all rules; and the lines that were done after it. */
    #upTo(orders) {
        const deeds = this.#way.beginning;
        const undone = [];
        let left = orders;
        for (const deed of this.#way.sinceBegun) {
            if (left > 0) deeds.push(shortened(deed, Math.min(left, deed.orders)));
            else if (isOfRules(deed)) deeds.push(deed);
            else if (deed.line !== null) undone.push(shown(deed.line));
            left -= Math.min(left, deed.orders);
        }
        return { deeds, undone };
    }

    /** Does a deed again, whatever the rules say. */
    async #does(session, { line, orders }) {
        if (line !== null) session.answer(line);
        for (let left = orders; left > 0; left -= PORTION) {
            await this.#letOthersGo();
            session.answer(`orders ${Math.min(PORTION, left)}`);
        }
    }

    /** A session in which `orders` orders were performed, how many of them since something else was done, and what was done after them. */
    async openedAfter(orders) {
        const { deeds, undone } = this.#upTo(orders);
        const opened = this.#openSession();
        const session = new TextSession(opened);
        for (const deed of deeds) await this.#does(session, deed);
        return { opened, since: ordersAtEnd(deeds), undone };
    }

    /** After how many orders rules stop the machine on its way to the present: the last few places, the latest one first. */
    async stops(rules) {
        const session = new TextSession(this.#openSession());
        for (const deed of this.#way.beginning) await this.#does(session, deed);
        for (const { kind, address } of rules) session.answer(`${kind} ${address}`);
        const stops = [];
        const note = (orders) => stops.push(orders) > MOST_TOLD && stops.shift();
        let before = 0;
        for (const deed of this.#way.sinceBegun.filter((it) => !isOfRules(it))) {
            const counter = counterOf(session);
            const isHit = rules.some(({ kind, address }) => kind === "break" && address === counter);
            if (deed.orders > 0 && isHit) note(before);
            if (deed.line !== null) await this.#does(session, deed);
            else for await (const stop of stopsWithin(session, deed.orders, this.#letOthersGo)) if (stop.isRule) note(before + stop.orders);
            before += deed.orders;
        }
        return stops.reverse();
    }
}
