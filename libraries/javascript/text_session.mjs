// A session by texts of which each sign is a byte.
import { bytesFrom, standInOf, textFrom } from "./lines.mjs";

export class TextSession {
    #session;

    constructor(session) {
        this.#session = session;
        session.setManner("prompting");
    }

    /** Whether the next line is a source's: the prompt says so. */
    get isSourceOpen() {
        return textFrom(this.#session.show("prompt")) === "source> ";
    }

    /** The reply to a line. */
    answer(line) {
        return textFrom(this.#session.bytesFor(bytesFrom(standInOf(line))).reply);
    }

    /** The reply to the end. */
    close() {
        return textFrom(this.#session.close().reply);
    }
}
