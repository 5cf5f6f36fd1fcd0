// What of a script is refused, or of a source is at fault, with the number of its line, the line, and why, as the monitor gives the reason.
//
//     node refusals.mjs script|source FILE [NAME]      tells it on standard error, with another name for the file
import { readFileSync } from "node:fs";
import { fileURLToPath } from "node:url";
import { writeAll } from "./files.mjs";
import { bytesFrom, linesIn, textFrom, withoutReturn, wordsOf } from "./lines.mjs";
import { isRefusal } from "./replies.mjs";
import { Session, answerScript, compiled } from "./session.mjs";
import { TextSession } from "./text_session.mjs";

const INDENT = "    ";
const isFault = (line) => line.startsWith("line ");

/** The faults of a source that begins after a line, each with its lines of the monitor's reply, of which the first has the kind. */
function faultsIn(reply, opened, lines, first) {
    const faults = [];
    for (const line of reply.slice(1)) {
        const [, number, kind] = wordsOf(line);
        if (!isFault(line)) faults.at(-1).reason.push(line);
        else faults.push({
            number: opened + Number(number), line: lines[opened + Number(number) - 1] ?? "", reason: [first(kind)],
        });
    }
    return faults;
}

const openSession = (module) => new TextSession(new Session(module, 2 ** 28));

/** The replies of a script, taken one after another. */
class Replies {
    #lines;
    #place = 0;

    constructor(text) {
        this.#lines = linesIn(text);
    }

    /** Passes a reply as the monitor gives it, which may say more than the script's. */
    pass(reply) {
        for (const line of reply) if (line === this.first) this.#place += 1;
    }

    /** The first line of the next reply. */
    get first() {
        return this.#lines[this.#place] ?? "";
    }

    /** Passes a refusal, with the faults that it lists. */
    passRefusal() {
        do this.#place += 1;
        while (isFault(this.first));
    }
}

/** Goes through a script line by line, as its replies and the monitor's do. */
class Passage {
    #module;
    #replies;
    #monitor;
    #accepted = [];
    #found = [];
    #opened = null;
    #lines;

    constructor(module, script, lines) {
        this.#module = module;
        this.#lines = lines;
        this.#replies = new Replies(textFrom(answerScript(module, bytesFrom(script), 2 ** 28).replies));
        this.#monitor = openSession(module);
    }

    /** What is refused: the number of each line, the line, and the lines of the reason. */
    refusals() {
        for (const [place, line] of this.#lines.entries()) this.#take(place + 1, line);
        if (this.#opened !== null) this.#judge(this.#lines.length, "", this.#monitor.close());
        return this.#found;
    }

    #take(number, line) {
        const isOpening = this.#opened === null && wordsOf(line).length === 1 && wordsOf(line)[0] === "source";
        const reply = this.#monitor.answer(line);
        if (this.#opened !== null && line === ".") {
            this.#judge(number, line, reply);
            this.#opened = null;
        } else if (isOpening) this.#opened = number;
        else if (this.#opened === null && reply !== "") this.#judge(number, line, reply);
        if (this.#opened === null) this.#accepted.push(line);
    }

    /**
     * The reply to a line is a refusal, or it is not; where the monitor takes a line that a script may not have, what it has done is
     * undone.
     */
    #judge(number, line, reply) {
        if (!isRefusal(this.#replies.first)) return this.#replies.pass(linesIn(reply));
        const refusal = this.#replies.first;
        this.#replies.passRefusal();
        const reason = linesIn(reply);
        if (reason.some(isFault)) this.#found.push(...faultsIn(reason, this.#opened, this.#lines, (kind) => `${reason[0]}: ${kind}`));
        else if (isRefusal(reply)) this.#found.push({ number, line, reason });
        else {
            this.#found.push({ number, line, reason: [`${refusal}: only ./lgp_monitor takes this line; a script has other forms`] });
            this.#begin();
        }
    }

    /** The monitor as it was before the last line. */
    #begin() {
        this.#monitor = openSession(this.#module);
        for (const line of this.#accepted) this.#monitor.answer(line);
    }
}

/** What of a script is refused. */
export function refusalsOf(module, script) {
    const lines = linesIn(script.endsWith("\n") ? script : `${script}\n`).map(withoutReturn);
    return new Passage(module, script, lines).refusals();
}

/** What of a source is at fault; nothing where a line of it is a point alone, which ends a source at the monitor. */
export function faultsOfSource(module, source) {
    const lines = linesIn(source.endsWith("\n") ? source : `${source}\n`).map(withoutReturn);
    const monitor = openSession(module);
    for (const line of ["source", ...lines]) if (line !== ".") monitor.answer(line);
    const reply = monitor.answer(".");
    return lines.includes(".") || !isRefusal(reply) ? [] : faultsIn(linesIn(reply), 0, lines, (kind) => kind);
}

/** Each refusal with the file's name, its number and its line, and below them the reason. */
export const toldRefusals =
    (name, refusals) => refusals.map(({ number, line, reason }) => (
        [`${name}:${number}: ${line}`, ...reason.map((text) => `${INDENT}${text}`)].join("\n").concat("\n")
    )).join("");

if (process.argv[1] === fileURLToPath(import.meta.url)) {
    const [kind, file, name = file] = process.argv.slice(2);
    const module = compiled(readFileSync(new URL("lgp_c_region.wasm", import.meta.url)));
    const found = (kind === "source" ? faultsOfSource : refusalsOf)(module, textFrom(readFileSync(file)));
    writeAll(2, bytesFrom(toldRefusals(textFrom(Buffer.from(name)), found)));
}
