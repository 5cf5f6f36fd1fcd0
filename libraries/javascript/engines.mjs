// What answers the lines of a person at a terminal: the proved module in this process, or the native program beside it.
import { spawn } from "node:child_process";
import { once } from "node:events";
import { createInterface } from "node:readline";
import { Desk } from "./desk.mjs";
import { bytesFrom, escapedOf, textFrom, wordsOf } from "./lines.mjs";
import { TextSession } from "./text_session.mjs";

const INDENT = "        ";

/** The line that was answered has been taken back. */
export class Stopped extends Error {}

/** A question whose reply tells that the objects for a line have come: nobody else writes it with these spaces. */
const ASKED = "  panel-data   ";

/** A session of the module, and its desk. */
export class ModuleEngine extends TextSession {
    #desk;
    #openBeside;
    #said = [];

    /** `openBeside` opens another session, in which lines can be tried. */
    constructor(session, openBeside = null) {
        super(session);
        this.#openBeside = openBeside;
        this.#desk = new Desk(session, (bytes) => this.#said.push(bytes), "prompting");
    }

    /** What is written for the files that are typed first. */
    async begin(names) {
        this.#desk.typeFirst(names);
        return this.#taken();
    }

    /** What is written for a line. */
    async type(line) {
        this.#desk.typeLine(line);
        return this.#taken();
    }

    #taken() {
        const said = textFrom(Buffer.concat(this.#said));
        this.#said = [];
        return said;
    }

    /** The reply to a line that only asks. */
    async ask(line) {
        return this.answer(line);
    }

    get hasLeft() {
        return this.#desk.hasLeft;
    }

    /** Another laboratory, in which lines can be tried. */
    openBeside() {
        const beside = this.openAgain();
        return { type: async (line) => beside.answer(line), close: async () => {} };
    }

    /** Another laboratory, in which the lines of this one can be done again. */
    openAgain() {
        return new TextSession(this.#openBeside());
    }

    async close() {
        this.#desk.close();
        return this.#taken();
    }
}

/** A value of a record as a line has it. */
function valueText(value) {
    if (typeof value === "boolean") return value ? "yes" : "no";
    return Array.isArray(value) ? value.join(" ") : escapedOf(String(value));
}

/** The lines of a record: as one object after `json`, as one line after `to`, or of each key that has a value with it. */
function recordLines(record, command) {
    if (command === "json") return [JSON.stringify(record)];
    const lines = Object.entries(record).filter(([, value]) => value !== null).map(([key, value]) => `${key} ${valueText(value)}`);
    return command === "to" ? [lines.join(" ")] : lines;
}

/** The command of a line, which is the one after `at NUMBER` where it is asked of a moment. */
function commandOf(line) {
    const words = wordsOf(line);
    return words[0] === "at" ? words[2] : words[0];
}

/** The lines of a reply of the native program to a line. */
const replyLines = (reply, line) => reply.flatMap((it) => (typeof it === "string" ? [it] : recordLines(it, commandOf(line))));

/**
 * Starts a process beside a program that kills it when this one has gone without ending it: a program within a long line does not notice
 * that its input has closed.
 */
function guard(program) {
    const beside = spawn(
        "sh", ["-c", 'read -r _; kill -KILL "$1"', "guard", String(program.pid)], { stdio: ["pipe", "ignore", "ignore"], detached: true }
    );
    for (const it of [beside, beside.stdin]) it.on("error", () => {}).unref();
    program.once("exit", () => beside.kill("SIGKILL"));
}

/** The native program, which answers each line by an object of JSON. */
export class ProgramEngine {
    #path;
    #program;
    #objects;
    #isSourceOpen = false;
    #hasLeft = false;
    #isBroken = false;
    #restarted = null;

    /** The program at a path, with the files that it types first. */
    constructor(path, names = []) {
        this.#path = path;
        this.#start(names);
        process.once("exit", () => this.#program.kill());
    }

    #start(names) {
        // a group of its own, so that Ctrl-C and Ctrl-Z reach this process alone
        this.#program = spawn(this.#path, ["--json", ...names], { stdio: ["pipe", "pipe", "inherit"], detached: true });
        this.#program.stdin.on("error", () => {});
        guard(this.#program);
        this.#objects = createInterface({ input: this.#program.stdout })[Symbol.asyncIterator]();
    }

    /** What is written for the files that it types first. */
    async begin() {
        this.#program.stdin.write(`${ASKED}\n`);
        return this.#written(await this.#untilAsked());
    }

    async #object() {
        const { value, done } = await this.#objects.next();
        if (done) throw this.#isBroken ? new Stopped() : new Error("the program ended unexpectedly");
        return JSON.parse(value);
    }

    /** The objects up to the reply to a question, which is typed after a line since a file that it names may have many. */
    async #untilAsked() {
        const objects = [];
        for (;;) {
            const object = await this.#object();
            if (object.line === ASKED && object.from === undefined) return objects;
            objects.push(object);
        }
    }

    /** The objects for a line; in a source each has one. */
    async #objectsFor(line) {
        const isWithin = this.#isSourceOpen && line !== ".";
        this.#program.stdin.write(bytesFrom(isWithin ? `${line}\n` : `${line}\n${ASKED}\n`));
        return isWithin ? [await this.#object()] : this.#untilAsked();
    }

    #written(objects) {
        const linesOf = ({ line = "", reply, refused, from = "" }) => (
            [...replyLines(reply, line), ...(refused && from !== "" ? [`${INDENT}${from}`] : [])]
        );
        return objects.flatMap(linesOf).map((line) => `${line}\n`).join("");
    }

    /**
     * Ends the program within a line, which throws Stopped. Another one is brought to where it was before the line, by the lines that lead
     * there.
     */
    async takeBack(lines) {
        const before = this.#program;
        this.#isBroken = true;
        before.kill("SIGKILL");
        await once(before, "close");
        this.#restarted = this.#bring(lines);
        await this.#restarted;
    }

    async #bring(lines) {
        // the line that was broken off has heard of its end
        await new Promise((resolve) => setImmediate(resolve));
        this.#start([]);
        this.#isBroken = false;
        for (const line of lines) await this.#typed(line);
    }

    /** What is written for a line. */
    async type(line) {
        await this.#restarted;
        return this.#typed(line);
    }

    async #typed(line) {
        if (!this.#isSourceOpen && line.trim() === "quit") {
            this.#hasLeft = true;
            return "";
        }
        const isOpening = !this.#isSourceOpen && line.trim() === "source";
        if (isOpening) {
            this.#isSourceOpen = true;
            this.#program.stdin.write("source\n");
            await this.#object();
            return "";
        }
        const program = this.#program;
        const objects = await this.#objectsFor(line);
        if (this.#isBroken || program !== this.#program) throw new Stopped();
        if (line === ".") this.#isSourceOpen = false;
        return this.#written(objects);
    }

    async ask(line) {
        return this.type(line);
    }

    /** Another laboratory, in which lines can be tried. */
    openBeside() {
        return new ProgramEngine(this.#path);
    }

    /** Another laboratory, in which the lines of this one can be done again. */
    openAgain() {
        const again = this.openBeside();
        return {
            answer: (line) => again.type(line),
            get isSourceOpen() {
                return again.isSourceOpen;
            },
            close: () => again.close(),
        };
    }

    get isSourceOpen() {
        return this.#isSourceOpen;
    }

    get hasLeft() {
        return this.#hasLeft;
    }

    async close() {
        this.#program.stdin.end();
        if (this.#program.exitCode === null) await once(this.#program, "exit");
        return "";
    }

    /** Ends without a word, where something has failed. */
    async end() {
        this.#program.kill();
    }
}
