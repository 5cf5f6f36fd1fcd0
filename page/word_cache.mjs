// The words of the drum that the monitor told last. What has put a word there is asked once: as long as the monitor tells each order, an
// account says which word its order has stored.
import { SECTORS, bareOrder } from "./addresses.mjs";
import * as replies from "../libraries/javascript/replies.mjs";

const nameOfTrack = (address) => address.slice(0, 2);

const originBy = ({ order, at, clock, stored: { before } }) => (
    { order: bareOrder(order), at, clock, lost: bareOrder(before.order) ?? `${before.digits} = ${before.number}` }
);

/** The words of a reply, by their addresses. */
const wordsIn = (reply) => new Map(replies.heldOf(reply).map((word) => [word.address, word]));

/** A cache over a link. */
export class WordCache {
    #link;
    /** The words of the tracks that were asked last, and what put words there, null where no order has; each by its address. */
    #words = new Map();
    #origins = new Map();
    /** Whether all that was done since the last looking was told. */
    isTold = false;
    /** The digits of the whole drum, once they were asked and as long as no word has changed. */
    drum = null;

    constructor(link) {
        this.#link = link;
    }

    /** Something was done that was not told. */
    forget() {
        this.#origins.clear();
        Object.assign(this, { isTold: false, drum: null });
    }

    /** Orders were told. */
    told(accounts) {
        const changes = accounts.filter(({ stored }) => stored !== null && stored.before.digits !== stored.after.digits);
        for (const account of changes) this.#origins.set(account.stored.address, originBy(account));
        if (changes.length > 0) this.drum = null;
    }

    async #ask(lines) {
        return lines.length === 0 ? "" : this.#link.askAll(lines);
    }

    /** Takes the words of a reply, in the place of those that were asked before. */
    take(reply) {
        this.#words = wordsIn(reply);
        this.isTold = true;
    }

    /** Asks the tracks of addresses, of which some may have been taken just now. */
    async ask(addresses, isTaken = false) {
        const tracks = [...new Set(addresses.map(nameOfTrack))].filter((track) => !isTaken || !this.#words.has(`${track}00`));
        const reply = await this.#ask(tracks.map((track) => `json show-data ${track}00 ${SECTORS}`));
        this.#words = new Map([...(isTaken ? this.#words : []), ...wordsIn(reply)]);
        this.isTold = true;
    }

    /** Asks what put words of addresses there that a step has changed, where that is not known. */
    async askOrigins(addresses) {
        const asked = addresses.filter((address) => this.#words.get(address).isChanged && !this.#origins.has(address));
        const origins = replies.originsOf(await this.#ask(asked.map((address) => `json why-data ${address}`)));
        for (const address of asked) this.#origins.set(address, origins.get(address) ?? null);
    }

    /** The words of addresses of tracks that were asked, by their addresses, each with its digits and the order that it is, or null. */
    heldAt(addresses) {
        return new Map(addresses.map((address) => [address, this.#words.get(address)]));
    }

    /**
     * The words of addresses, each with the order that it is, or `word` and its digits, and with the order or the hand that is known to
     * have put it there, or null.
     */
    words(addresses) {
        return addresses.map((address) => {
            const { digits, order, isChanged } = this.#words.get(address);
            return { address, digits, order: order ?? `word ${digits}`, origin: isChanged ? this.#origins.get(address) ?? null : null };
        });
    }
}
