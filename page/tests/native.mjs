// A session of the native monitor, for trying the controller where there is no module: the program of ./lgp_monitor, line by line.
import { spawn } from "node:child_process";

const MARK = "help go";
const MARKED = "go ttss\n";

/** A link to a native monitor, with the functions that the page's link to its Worker has. */
export class NativeLink {
    #program;
    #process;
    #text = "";
    #arrived = () => {};
    #sourceIsOpen = false;
    #last = Promise.resolve();
    opened = Promise.resolve();

    constructor(program) {
        this.#program = program;
        this.#start();
    }

    #start() {
        this.#text = "";
        this.#sourceIsOpen = false;
        this.#process = spawn(this.#program, { stdio: ["pipe", "pipe", "ignore"] });
        this.#process.stdout.setEncoding("utf8").on("data", (piece) => {
            this.#text += piece;
            this.#arrived();
        });
    }

    #isWhole() {
        return this.#text === MARKED || this.#text.endsWith(`\n${MARKED}`);
    }

    /** What is asked at once is asked one after the other. */
    #inTurn(action) {
        const done = this.#last.then(action);
        this.#last = done.catch(() => {});
        return done;
    }

    /** The reply to a line. */
    ask(line) {
        return this.#inTurn(() => this.#answer(line));
    }

    /** The same in its turn. The mark after the reply tells where it ends; in an open source there is neither. */
    async #answer(line) {
        this.#text = "";
        this.#process.stdin.write(`${line}\n`);
        if (this.#sourceIsOpen && line !== ".") return "";
        this.#sourceIsOpen = !this.#sourceIsOpen && line.trim() === "source";
        if (this.#sourceIsOpen) return "";
        this.#process.stdin.write(`${MARK}\n`);
        while (!this.#isWhole()) await new Promise((resolve) => { this.#arrived = resolve; });
        return this.#text.slice(0, -MARKED.length);
    }

    /** The replies to several lines, one after the other. */
    askAll(lines) {
        return this.#inTurn(async () => {
            let text = "";
            for (const line of lines) text += await this.#answer(line);
            return text;
        });
    }

    /** Gives the monitor up and starts another one. */
    async anew() {
        await this.end();
        this.#start();
    }

    /** Ends the monitor. */
    end() {
        const ended = new Promise((resolve) => this.#process.once("exit", resolve));
        this.#process.stdin.end();
        return ended;
    }
}
