// A link to a session of the module in this process, with the functions that the page's link to its Worker has.
import { readFileSync } from "node:fs";
import { Session, compiled } from "../libraries/javascript/session.mjs";

/** A link to the compiled module in a file. */
export class ModuleLink {
    #module;
    #session;
    /** All lines that were sent since a session was opened. */
    sent = [];
    opened = Promise.resolve();

    constructor(path) {
        this.#module = compiled(readFileSync(path));
        this.#start();
    }

    #start() {
        this.#session = new Session(this.#module);
        this.sent = [];
    }

    /** The reply to a line. */
    async ask(line) {
        this.sent.push(line);
        return this.#session.answer(line);
    }

    /** The replies to several lines, one after the other. */
    async askAll(lines) {
        let text = "";
        for (const line of lines) text += await this.ask(line);
        return text;
    }

    /** Gives the session up and opens a new one. */
    async anew() {
        this.#start();
    }

    /** Ends the link. */
    async end() {
        this.#session = undefined;
    }
}
