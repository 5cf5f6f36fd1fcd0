// @ts-check
// The console of the debugger: it takes the lines of the monitor, and says what may be typed next.
import { Completion } from "../../libraries/javascript/completion.mjs";
import { wordsOf } from "../../libraries/javascript/lines.mjs";
import { isRefusal, runOf } from "../../libraries/javascript/replies.mjs";
import { Refused } from "./machine.mjs";
import { letOthersGo } from "./runner.mjs";

const RUN = /^ *run +(\d{6,10}) *$/;
/** The orders of a portion of a long run. */
const PORTION = 100_000;

export class Prompt {
    #here;
    #shelf;
    #fileNames;
    /** @type {string[] | null} the lines of a source that is open */
    #source = null;

    /**
     * `here` gives the machine and its variables, `shelf` keeps a source that is open, and `fileNames` gives the names of files that begin
     * so.
     * @param {() => { machine: any, variables: any }} here
     * @param {import("../types/debug.js").Options} options
     */
    constructor(here, { shelf = null, fileNames = () => [] }) {
        this.#here = here;
        this.#shelf = shelf;
        this.#fileNames = fileNames;
    }

    get #machine() {
        return this.#here().machine;
    }

    get #variables() {
        return this.#here().variables;
    }

    /**
     * The replies to lines, those of a source when it is whole. `isRunning` says whether the machine runs, `isInterrupted` whether a long
     * run is to end between two portions, and `changed` is called after each line that has done something.
     */
    async typed(expression, isRunning, isInterrupted, changed) {
        let result = "";
        for (const line of expression.replace(/\n$/, "").split("\n")) result += await this.#line(line, isRunning, isInterrupted, changed);
        return result.trimEnd();
    }

    async #line(line, isRunning, isInterrupted, changed) {
        if (this.#source !== null || line.trim() === "source") return this.#sourceLine(line, isRunning, changed);
        const asks = this.#machine.isQuestion(line);
        if (asks === undefined && wordsOf(line).length === 1) return `${this.#variables.evaluated(line.trim(), false).value}\n`;
        if (isRunning() && !asks) throw new Refused(`${line}: the machine runs, and only lines that ask are taken: pause stops it`);
        const limit = RUN.exec(line)?.[1];
        const reply = limit === undefined ? await this.#machine.types(line) : await this.#run(Number(limit), isInterrupted);
        if (!asks) changed(line);
        if (isRefusal(reply)) throw new Refused(reply.trimEnd());
        return reply;
    }

    /** A long run, in portions, so that a pause is heard. */
    async #run(limit, isInterrupted) {
        for (let done = 0; ; ) {
            const asked = Math.min(PORTION, limit - done);
            const reply = await this.#machine.types(`run ${asked}`);
            if (isRefusal(reply)) return reply;
            const { orders, end } = runOf(reply);
            done += orders;
            if (end !== "limit" || done >= limit || isInterrupted()) return reply.replace(/^ran \d+/, `ran ${done}`);
            await letOthersGo();
        }
    }

    async #sourceLine(line, isRunning, changed) {
        if (isRunning()) throw new Refused(`${line}: the machine runs, and no source is taken: pause stops it`);
        this.#source = [...this.#source ?? [], line];
        this.#shelf?.keepSource(this.#source.slice(1));
        if (line !== "." || this.#source.length === 1) return "";
        const lines = this.#source;
        this.#source = null;
        let reply = "";
        for (const each of lines) reply += await this.#machine.types(each);
        this.#shelf?.dropSource();
        changed(lines[0]);
        return reply;
    }

    /** What may stand at the end of a line: each a word, and how many signs of it stand there already. */
    async completed(line) {
        if (this.#source !== null) return [];
        const begun = /@\S*$/.exec(line)?.[0];
        const completion = new Completion((asked) => this.#machine.replyTo(asked), new Map(), this.#fileNames);
        const [words, front] = begun === undefined
            ? await completion.at(line)
            : [this.#variables.fields().filter((name) => name.startsWith(begun)), begun];
        return words.map((word) => ({ word, begun: front.length }));
    }
}
