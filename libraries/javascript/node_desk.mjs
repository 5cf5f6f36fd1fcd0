// A desk for programs in node: it behaves like lgp_monitor, and its lines may name files.
import { Desk as FileDesk } from "./desk.mjs";
import { Laboratory } from "./laboratory.mjs";
import { Session, textOf } from "./session.mjs";

const MANNERS = ["bare", "prompting", "echo", "json"];

/** A desk at which lines are typed to a monitor of its own. A refusal is not thrown; its text is among what is written. */
export class Desk {
    #desk;
    #written = [];
    #manner;

    constructor(module, manner = "bare") {
        if (!MANNERS.includes(manner)) throw new RangeError(`manner is to be one of ${MANNERS.join(", ")}, and not '${manner}'`);
        this.#manner = manner;
        this.#desk = new FileDesk(new Session(module), (bytes) => this.#written.push(bytes), manner);
    }

    static async open(manner) {
        return new Desk(await Laboratory.module(), manner);
    }

    get hasLeft() {
        return this.#desk.hasLeft;
    }

    get isRefused() {
        return this.#desk.isRefused;
    }

    get prompt() {
        return this.#desk.prompt;
    }

    /** What has been written since the last call. */
    #taken() {
        return this.#written.splice(0).map(textOf).join("");
    }

    type(line) {
        if (typeof line !== "string") throw new TypeError(`a line is a text, and not ${String(line)}`);
        this.#desk.typeLine(line);
        return this.#taken();
    }

    typeFile(name) {
        if (typeof name !== "string") throw new TypeError(`a file is named by a text, and not ${String(name)}`);
        this.#desk.typeFirst([name]);
        return this.#taken();
    }

    leave() {
        this.#desk.close();
        return this.#taken();
    }

    [Symbol.for("nodejs.util.inspect.custom")]() {
        return `<Desk: ${this.#manner}${this.isRefused ? ", a reply was a refusal" : ""}>`;
    }
}
