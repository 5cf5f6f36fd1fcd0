// The page's end of the Worker: lines go out one after another, and each reply belongs to the oldest line that has none yet.
import { NoMemory } from "../libraries/javascript/session.mjs";

/** A link to a Worker whose source is this text, with a session of a module, whose bytes are given packed as a text. */
export class Link {
    #worker;
    #waiting = [];

    constructor(workerText, module) {
        this.#worker = new Worker(URL.createObjectURL(new Blob([workerText], { type: "text/javascript" })));
        this.#worker.onmessage = ({ data }) => this.#settle(data);
        this.#worker.onerror = (event) => this.#settle({ failure: event.message });
        this.opened = this.#post({ module });
    }

    #post(message) {
        return new Promise((resolve, reject) => {
            this.#waiting.push({ resolve, reject });
            this.#worker.postMessage(message);
        });
    }

    #settle({ reply, failure, noMemory }) {
        const { resolve, reject } = this.#waiting.shift();
        if (failure === undefined) resolve(reply);
        else reject(noMemory ? new NoMemory(failure) : new Error(failure));
    }

    /** The reply to a line. Fails with NoMemory where there was not enough; the session is closed then. */
    ask(line) {
        return this.#post({ lines: [line] });
    }

    /** The replies to several lines, one after another. */
    askAll(lines) {
        return this.#post({ lines });
    }

    /** Gives the session up and opens a new one. */
    anew() {
        return this.#post({ anew: true });
    }

    /** Ends the Worker, and gives its memory back. */
    end() {
        this.#worker.terminate();
    }
}
