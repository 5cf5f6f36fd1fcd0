// The script that leads to where a machine is: the monitor's transcript, without what the page has asked for itself.
import { linesOf } from "../libraries/javascript/replies.mjs";

export class Transcript {
    #link;
    /** Which lines are left out: those from each first number up to the one after the last. */
    #asides = [];

    constructor(link) {
        this.#link = link;
    }

    /** A new laboratory was opened. */
    begin() {
        this.#asides = [];
    }

    /** The monitor's lines were cut off at their end. */
    async cut() {
        const { length } = await this.#lines();
        this.#asides = this.#asides.filter(([, end]) => end <= length);
    }

    /** The script. */
    async script() {
        const written = await this.#link.ask("transcript");
        if (this.#asides.length === 0) return written;
        const isAside = (number) => this.#asides.some(([first, end]) => first <= number && number < end);
        return written.split(/(?<=\n)/).filter((unused, number) => !isAside(number)).join("");
    }

    async #lines() {
        return linesOf(await this.#link.ask("transcript"));
    }

    /** The last lines of the monitor's: those that a line just answered stands for. */
    async last(count) {
        return (await this.#lines()).slice(-count);
    }

    /** Does what nobody has asked for. Where `action` gives that it has ended where it began, its lines are left out of the script. */
    async aside(action) {
        const first = (await this.#lines()).length;
        if (await action()) this.#asides.push([first, (await this.#lines()).length]);
    }
}
