// @ts-check
// What a printed code is on paper: a machine beside the debugged one prints it between two signs.
import { paperOf } from "../../libraries/javascript/replies.mjs";
import { TextSession } from "../../libraries/javascript/text_session.mjs";

const SIGN = "a";

export class Typewriter {
    #openSession;
    /** @type {TextSession | null} */
    #session = null;
    #texts = new Map();

    constructor(openSession) {
        this.#openSession = openSession;
    }

    /**
     * The text of a code that stands on the paper as this text wherever it is printed; null of one that depends on what is there, or that
     * changes how later codes are printed.
     */
    textOf(code) {
        if (!this.#texts.has(code)) this.#texts.set(code, this.#printed(code));
        return this.#texts.get(code);
    }

    #printed(code) {
        const [narrow, wide] = [1, 2].map((before) => this.#between(code, before));
        return narrow === wide ? narrow : null;
    }

    /** What a code puts between signs, or null where it is not between them. */
    #between(code, before) {
        const session = this.#session ??= new TextSession(this.#openSession());
        const sign = ` p =${SIGN}`;
        const lines = [
            "new", "source", ...Array(before).fill(sign), ` p ${String(code).padStart(2, "0")}00`, sign, " z", " end 0000", ".", "load",
            "run 10",
        ];
        for (const line of lines) session.answer(line);
        const { text } = paperOf(session.answer("paper"));
        const front = SIGN.repeat(before);
        return text.length > before && text.startsWith(front) && text.endsWith(SIGN) ? text.slice(before, -1) : null;
    }
}
