// A client of the debug adapter in this process: it waits for responses and for events, never for a time.
import assert from "node:assert/strict";
import { readFileSync } from "node:fs";
import { DebugAdapter } from "../debug/adapter.mjs";
import { Session, compiled } from "../../libraries/javascript/session.mjs";

export const module = compiled(readFileSync(new URL("../../libraries/javascript/lgp_c_region.wasm", import.meta.url)));
export const openSession = () => new Session(module);

export class Client {
    #adapter;
    #sequence = 1;
    #waiting = [];
    #read = 0;
    /** All that the adapter has sent. */
    messages = [];

    /** A client whose files are texts by their paths. */
    constructor(files, options = {}) {
        this.files = files;
        const readFile = async (path) => {
            if (!(path in this.files)) throw new Error("it cannot be opened");
            return new TextEncoder().encode(this.files[path]);
        };
        this.#adapter = new DebugAdapter(openSession, (message) => this.#took(message), { readFile, ...options });
    }

    #took(message) {
        this.messages.push(message);
        for (const wait of this.#waiting) wait();
    }

    /** The first message that fits, from one on. */
    async #until(isWanted, from) {
        for (let at = from; ; at += 1) {
            while (at >= this.messages.length) await new Promise((resume) => { this.#waiting.push(resume); });
            if (isWanted(this.messages[at])) return this.messages[at];
        }
    }

    /** The number of the last request. */
    get lastSequence() {
        return this.#sequence - 1;
    }

    /** Sends a message as it is. */
    take(message) {
        this.#adapter.take(message);
    }

    /** The response to a request. */
    response(command, given) {
        const seq = this.#sequence++;
        const from = this.messages.length;
        this.#adapter.take({ seq, type: "request", command, arguments: given });
        return this.#until((message) => message.type === "response" && message.request_seq === seq, from);
    }

    /** The body of a response that is a success. */
    async asks(command, given) {
        const { success, message, body } = await this.response(command, given);
        assert.equal(success, true, message);
        return body;
    }

    /** What a refused request is told. */
    async refused(command, given) {
        const { success, message } = await this.response(command, given);
        assert.equal(success, false);
        return message;
    }

    /** The next event of a name after those that were waited for; its body. */
    async event(name) {
        const found = await this.#until((message) => message.type === "event" && message.event === name, this.#read);
        this.#read = this.messages.indexOf(found) + 1;
        return found.body;
    }

    /** Launches a program and sets breakpoints; then it runs. */
    async launched(launch, breakpoints = [], more = {}) {
        await this.asks("initialize", { linesStartAt1: true, ...more });
        await this.asks("launch", launch);
        await this.event("initialized");
        const set = await this.asks("setBreakpoints", { source: { path: launch.program }, breakpoints });
        await this.asks("configurationDone");
        return set.breakpoints;
    }

    /** The variables of a scope, by their names. */
    async scope(name) {
        const { scopes } = await this.asks("scopes", { frameId: 1 });
        const { variablesReference } = scopes.find((scope) => scope.name === name);
        const { variables } = await this.asks("variables", { variablesReference });
        return { variablesReference, variables, of: (wanted) => variables.find((variable) => variable.name === wanted) };
    }

    /** What was written, of the categories that are named. */
    output(...categories) {
        return this.messages.filter(
            ({ event, body }) => event === "output" && categories.includes(body.category)
        ).map(({ body }) => body.output).join("");
    }
}
