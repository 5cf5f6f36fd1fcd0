// What answers the lines of a person at a terminal by the module, in a thread beside the terminal's.
import { Worker } from "node:worker_threads";
import { Stopped } from "./engines.mjs";
import { NoMemory, Session } from "./session.mjs";
import { TextSession } from "./text_session.mjs";

/** What node says where a thread has used up its memory. */
const OUT_OF_MEMORY = "ERR_WORKER_OUT_OF_MEMORY";

export class ThreadEngine {
    #module;
    #region;
    #openBeside;
    #thread;
    #waiting = null;
    /** What the session was before the line that is answered, if that may take long. */
    #image = null;
    #isSourceOpen = false;
    #hasLeft = false;

    /** An engine of the module with a session of that many bytes; `openBeside` opens another session, in which lines can be tried. */
    constructor(module, region, openBeside) {
        this.#module = module;
        this.#region = region;
        this.#openBeside = openBeside;
        this.#begin(null);
    }

    #begin(image) {
        const workerData = { module: this.#module, region: this.#region, image };
        const thread = new Worker(new URL("engine_thread.mjs", import.meta.url), { workerData });
        thread.on("message", (message) => thread === this.#thread && this.#hear(message));
        thread.on("error", ({ message, code }) => (
            thread === this.#thread && this.#hear({ failure: message, isMemory: code === OUT_OF_MEMORY })
        ));
        this.#thread = thread;
    }

    #hear({ image, said, failure, isMemory, ...state }) {
        if (image !== undefined) {
            this.#image = image;
            return;
        }
        const { resolve, reject } = this.#waiting;
        this.#waiting = null;
        if (failure === undefined) {
            this.#isSourceOpen = state.isSourceOpen;
            this.#hasLeft = state.hasLeft;
            resolve(said);
        } else reject(isMemory ? this.#withoutMemory(failure) : new Error(failure));
    }

    /** Where the session is kept as it was before the line, it goes on from there. */
    #withoutMemory(why) {
        const failure = new NoMemory(why);
        failure.isTakenBack = this.#image !== null;
        if (failure.isTakenBack) this.#goBack();
        return failure;
    }

    #goBack() {
        this.#thread.terminate();
        this.#begin(this.#image);
    }

    #call(call, operand, isLong = false) {
        this.#image = null;
        return new Promise((resolve, reject) => {
            this.#waiting = { resolve, reject };
            this.#thread.postMessage({ call, operand, isLong });
        });
    }

    /** What is written for the files that are typed first. */
    begin(names) {
        return this.#call("begin", names);
    }

    /** What is written for a line. One that may take long can be taken back while it is answered. */
    type(line, { isLong = false } = {}) {
        return this.#call("type", line, isLong);
    }

    /** The reply to a line that only asks. */
    ask(line) {
        return this.#call("ask", line);
    }

    /** Takes back the line that is answered, which throws Stopped: the session is as it was before it. */
    async takeBack() {
        if (this.#waiting === null || this.#image === null) return;
        const { reject } = this.#waiting;
        this.#waiting = null;
        this.#goBack();
        reject(new Stopped());
    }

    get isSourceOpen() {
        return this.#isSourceOpen;
    }

    get hasLeft() {
        return this.#hasLeft;
    }

    /** Another laboratory, in which lines can be tried. */
    openBeside() {
        const beside = new TextSession(this.#openBeside());
        return { type: async (line) => beside.answer(line), close: async () => {} };
    }

    /** Another laboratory with as much room, in which the lines of this one can be done again. */
    openAgain() {
        return new TextSession(new Session(this.#module, this.#region));
    }

    async close() {
        const said = await this.#call("close");
        await this.#thread.terminate();
        return said;
    }

    /** Ends without a word, where something has failed. */
    async end() {
        await this.#thread.terminate();
    }
}
