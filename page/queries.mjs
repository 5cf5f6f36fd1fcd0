// Queries about the machine. Each is made of questions that leave no trace in the transcript, so that what is saved are the reader's lines
// alone.
import { SECTORS, addressOf } from "./addresses.mjs";
import { kindsIn } from "./kinds.mjs";
import { linesIn } from "./lines.mjs";
import { sectorAt } from "./machine.mjs";
import * as replies from "../libraries/javascript/replies.mjs";

/** How many words are shown around the counter. */
export const SHOWN = 16;

/** Queries over a link. */
export class Queries {
    #link;

    constructor(link) {
        this.#link = link;
    }

    /** The commands by their names. */
    async commands() {
        return replies.commandsOf(await this.#link.ask("commands"));
    }

    /** The operations that wait for the word at their address. */
    async waiting() {
        return replies.waitingOf(await this.#link.ask("json operations-data"));
    }

    /** The panel, what is live, and what lets the machine go on. */
    async state() {
        const reply = await this.#link.ask("json state-data");
        return { panel: replies.panelOf(reply), live: replies.liveOf(reply) };
    }

    /** The same by a reply that also has the words from an address on, and what was printed after the codes that are known. */
    async stateWith(address, known) {
        const reply = await this.#link.ask(`json look ${address} ${SECTORS} ${known}`);
        return { panel: replies.panelOf(reply), live: replies.liveOf(reply), reply };
    }

    async rules() {
        return replies.rulesOf(await this.#link.ask("json rules-data"));
    }

    async labels() {
        return replies.labelsOf(await this.#link.ask("json labels-data"));
    }

    /** What the words of the source are that was closed last, by their places. */
    async kinds(source) {
        return kindsIn(linesIn(source), await this.#link.ask("json source-data"));
    }

    async paper() {
        return replies.paperOf(await this.#link.ask("paper"));
    }

    /** The code that was printed last, of `count`. */
    async struck(count) {
        const [record] = count === 0 ? [] : replies.recordsOf(await this.#link.ask(`json paper-data ${count - 1}`));
        return record === undefined ? null : { code: Number(record.get("code")), sign: record.get("sign") ?? null };
    }

    /** The digits of all words of the drum, in the order of their addresses. */
    async drum() {
        const tracks = Array.from({ length: SECTORS }, (unused, track) => `numbers ${addressOf(track * SECTORS)} ${SECTORS}`);
        return replies.linesOf(await this.#link.askAll(tracks)).map((line) => line.split(" ", 2)[1]);
    }

    /** The replies to questions of a view. */
    async others(questions) {
        return Promise.all(questions.map((line) => this.#link.ask(line)));
    }
}

/**
 * What a reply of `optimum-data` tells of one word, with the sectors in the order in which they pass the head, none where the orders took
 * as long with the word at any; and why its run was refused, where that was so.
 */
export function costsIn(reply) {
    const { told, end } = replies.reportOf(reply);
    const { own, best, numbers, ...costs } = replies.costsOf(told);
    const isSame = numbers.every((times) => times === numbers[0]);
    const passing = isSame ? [] : Array.from({ length: SECTORS }, (unused, position) => sectorAt(position));
    const sectors = passing.map((sector) => ({ sector, times: numbers[sector], isOwn: sector === own, isBest: sector === best }));
    return { ...costs, own, best, sectors, refusal: replies.isRefusal(end) ? end : null };
}

const waited = (times, sign) => (times === 0 ? "" : ".".repeat(times - 1) + sign);

/** The signs of an order along the drum, one for each word time, as `drum` draws them. */
function signsOf({ word, find, take, seek, act, stored }) {
    const sought = word === null ? "-".repeat(seek) : waited(seek, stored === null ? "R" : "W");
    return [waited(find, "F"), "i".repeat(take), sought, "x".repeat(act)].join("");
}

/** The turns of the drum in which told orders were performed, one after another: the clock of each, and its signs. */
export function rowsIn(accounts) {
    if (accounts.length === 0) return [];
    const before = Number(accounts[0].clock % BigInt(SECTORS));
    const signs = " ".repeat(before) + accounts.map(signsOf).join("");
    const first = accounts[0].clock - BigInt(before);
    return Array.from(
        { length: Math.ceil(signs.length / SECTORS) },
        (unused, turn) => ({ clock: first + BigInt(SECTORS * turn), signs: signs.slice(SECTORS * turn, SECTORS * (turn + 1)) })
    );
}
