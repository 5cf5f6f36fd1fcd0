// A machine with its debugger and assembler, which answers the lines of the monitor; and whole scripts. The names are those of the
// package for Python.
import { assembledOf, faultsOf, linesOfSource } from "./assembling.mjs";
import * as replies from "./replies.mjs";
import { NoMemory, Session, answerScript, bytesOf, compiled, textOf } from "./session.mjs";

const LINE_FEED = 10;
const POINT = 30;
const WORDS_ARE = "a word is a text of digits or an order, a whole number, or a fraction";
const INSPECTED = Symbol.for("nodejs.util.inspect.custom");

/** The refusal of a line. */
export class Refusal extends Error {
    constructor(reply, faults = []) {
        super([reply, ...faults.map((fault) => `line ${fault.line}: ${fault.wrong}: ${fault.right}`)].join("\n"));
        const { code, kind, number, reason } = replies.refusalOf(reply);
        Object.assign(this, { name: "Refusal", reply, number: code, kind, detail: number, reason, faults });
    }
}

const told = (value) => (typeof value === "string" ? `'${value}'` : String(value));

/** An address as a line has it. */
function addressIn(address) {
    if (typeof address !== "string") throw new TypeError(`an address is a text, such as '0050' or a label, and not ${told(address)}`);
    if (!/^[!-~]+$/.test(address)) throw new RangeError(`an address is four digits or a label, and not ${told(address)}`);
    return address;
}

/** A number as a line has it. */
function countIn(count) {
    if (!Number.isInteger(count)) throw new TypeError(`this is to be a whole number, and not ${told(count)}`);
    if (count < 0) throw new RangeError(`this is to be a whole number from 0 on, and not ${count}`);
    return String(count);
}

/** The order that `to` takes, as a line has it: a number, or the first or the last one that meets a condition. */
function wayIn(order) {
    if (typeof order === "number") return [countIn(order)];
    const [[which, condition], ...others] = Object.entries(order ?? {}).length > 0 ? Object.entries(order) : [[]];
    const isSought = ["first", "last"].includes(which) && typeof condition === "string" && others.length === 0;
    if (!isSought) throw new TypeError(`an order is a number, { first: CONDITION } or { last: CONDITION }, and not ${told(order)}`);
    return [which, condition];
}

/** A word in digits as a number with its point after a bit; with 30 it is whole. */
export function numberOf(digits, point = POINT) {
    if (!Number.isInteger(point)) throw new TypeError(`a point is a whole number, and not ${told(point)}`);
    if (point < 0 || point > POINT) throw new RangeError(`a point is from 0 to ${POINT}, and not ${point}`);
    return point === POINT ? replies.wholeOf(digits) : replies.signedOf(digits) / 2 ** (31 - point);
}

/** A word in digits as a fraction from -1 to below 1. */
export const { fractionOf } = replies;

/** What `put` takes for a value: a text as it is, a whole number with its point, another number as the digits of the nearest fraction. */
function wordIn(value, point) {
    if (typeof value === "string") return value;
    if (typeof value !== "number" || Number.isNaN(value)) throw new TypeError(`${WORDS_ARE}, and not ${told(value)}`);
    if (Number.isInteger(value)) return `= ${value} ${countIn(point)}`;
    if (value < -1 || value >= 1) throw new RangeError(`a fraction is from -1 to below 1, and not ${value}`);
    return replies.digitsOf(2 * Math.min(Math.round(value * 2 ** POINT), 2 ** POINT - 1));
}

const ownPanel = ({ readerOn, ...panel }) => ({ ...panel, reading: readerOn });

function ownAccount({ sum, origin, ...account }) {
    return { ...account, cost: sum, putThere: origin };
}

/** The module that lies beside this file: in node, in a page, and in what a bundler makes of them. */
async function ownModule() {
    const url = new URL("lgp_c_region.wasm", import.meta.url);
    if (url.protocol !== "file:") return compiled(await (await fetch(url)).arrayBuffer());
    const { readFile } = await import(/* webpackIgnore: true */ /* @vite-ignore */ "node:fs/promises");
    return compiled(await readFile(url));
}

let own = null;

/** A laboratory that answers one line after another. A refusal is thrown. */
export class Laboratory {
    #session;
    #inSource = false;
    #lastRun = null;
    #module;
    #options;

    constructor(module, { region } = {}) {
        this.#session = new Session(module, region);
        this.#module = module;
        this.#options = { region };
    }

    static async open({ module, region } = {}) {
        return new Laboratory(module ?? await Laboratory.module(), { region });
    }

    /** The module that lies beside this file, compiled once. */
    static module() {
        own ??= ownModule();
        return own;
    }

    #open() {
        if (this.#session === null) throw new Error("the laboratory is closed");
        return this.#session;
    }

    /** What a call of the session gives. Where memory has ended the laboratory is closed. */
    #given(call) {
        try {
            return call(this.#open());
        } catch (failure) {
            if (failure instanceof NoMemory) this.#session = null;
            throw failure;
        }
    }

    answer(line) {
        const isLine = typeof line === "string" || line instanceof Uint8Array;
        if (!isLine) throw new TypeError(`a line is a text or bytes, and not ${told(line)}`);
        const bytes = bytesOf(line);
        if (bytes.includes(LINE_FEED)) throw new RangeError("a line has no line feed");
        const { reply, isRefused } = this.#given((session) => session.bytesFor(bytes));
        const text = textOf(reply);
        const command = textOf(bytes).trim();
        // no line of a source has a reply, and its end has one
        this.#inSource = reply.length === 0 && (this.#inSource || command === "source");
        if (isRefused) throw new Refusal(replies.linesOf(text).find(replies.isRefusal));
        return text;
    }

    answers(lines) {
        if (typeof lines !== "string") throw new TypeError(`several lines are one text, and not ${told(lines)}`);
        return lines.replace(/\n$/, "").split("\n").map((line) => this.answer(line)).join("");
    }

    /** The reply to a command. An open source would take its line. */
    #asked(...words) {
        if (this.#inSource) throw new Error("a source is open, and takes each line up to a point alone");
        return this.answer(words.join(" "));
    }

    panel() {
        return ownPanel(replies.panelOf(this.#asked("json panel-data")));
    }

    words(address, count = 1) {
        const places = replies.placesOf(this.#asked("words", addressIn(address), countIn(count)));
        return new Map(places.map(({ address: at, text }) => [at, text]));
    }

    numbers(address, count = 1, point = POINT) {
        return new Map([...this.words(address, count)].map(([at, digits]) => [at, numberOf(digits, point)]));
    }

    put(address, word, point = POINT) {
        this.#asked("put", addressIn(address), wordIn(word, point));
    }

    go(address) {
        this.#asked("go", addressIn(address));
    }

    source(text) {
        const lines = linesOfSource(text);
        this.#asked("source");
        for (const line of lines) this.answer(line);
        try {
            return assembledOf(this.answer("."));
        } catch (refusal) {
            if (!(refusal instanceof Refusal) || refusal.kind !== "Faults") throw refusal;
            throw new Refusal(refusal.reply, faultsOf((line) => this.#asked(line)));
        }
    }

    load() {
        return replies.loadedOf(this.#asked("load"));
    }

    labels() {
        const places = [...replies.labelsOf(this.#asked("json labels-data"))];
        return new Map(places.flatMap(([place, names]) => names.map((name) => [name, place])));
    }

    why(address) {
        return [...replies.originsOf(this.#asked("json why-data", addressIn(address))).values()][0] ?? null;
    }

    breakAt(address) {
        return replies.ruleOf(this.#asked("break", addressIn(address)));
    }

    watch(address) {
        return replies.ruleOf(this.#asked("watch", addressIn(address)));
    }

    drop(rule) {
        this.#asked("drop", countIn(rule));
    }

    rules() {
        return replies.rulesOf(this.#asked("json rules-data")).map((rule, number) => {
            const [kind, address, label = null] = rule.split(" ");
            return { number, kind, address, label };
        });
    }

    get lastRun() {
        return this.#lastRun;
    }

    run(limit, until = null) {
        const asked = until === null ? ["run", countIn(limit)] : ["run", countIn(limit), "until", until];
        return this.#ran(this.#asked(...asked));
    }

    step() {
        return this.trace(1)[0] ?? null;
    }

    trace(limit) {
        return replies.accountsOf(this.#told(replies.reportOf, "json trace-data", limit)).map(ownAccount);
    }

    profile(limit) {
        return replies.profileOf(this.#told(replies.reportOf, "json profile-data", limit));
    }

    optimum(limit) {
        return replies.optimumOf(this.#told(replies.reportOf, "json optimum-data", limit));
    }

    optimumOf(limit, address) {
        return replies.costsOf(this.#told(replies.reportOf, "json optimum-data", limit, addressIn(address)));
    }

    drum(limit) {
        return replies.drumRowsOf(this.#told(replies.toldOf, "drum", limit));
    }

    /** What stands before the reply of the run. Where the clock's end has broken the run off, that refusal is thrown. */
    #told(read, command, limit, ...operands) {
        const { told: rows, end } = read(this.#asked(command, countIn(limit), ...operands));
        if (replies.isRefusal(end)) throw new Refusal(end);
        this.#ran(end);
        return rows;
    }

    /** The run that a reply tells, with what the machine's state says of its end. */
    #ran(reply) {
        const run = replies.runOf(reply);
        this.#lastRun = {
            ...run, isMet: replies.metIn(reply), state: run.end === "limit" ? null : replies.stateOf(this.#asked("json state-data")),
        };
        return this.#lastRun;
    }

    paper() {
        return replies.paperOf(this.#asked("paper")).text;
    }

    back(orders) {
        return replies.clockOf(this.#asked("back", countIn(orders)));
    }

    to(order) {
        const [there] = replies.recordsOf(this.#asked("json to", ...wayIn(order)));
        return there.get("order");
    }

    at(order) {
        const there = new Laboratory(this.#module, this.#options);
        for (const line of this.#asked("at", countIn(order), "transcript").split("\n").slice(0, -1)) there.#again(line);
        return there;
    }

    *moments(step = 1) {
        if (countIn(step) === "0") throw new RangeError("a step is 1 at least");
        for (let order = 0; ; order += step) {
            const there = this.#atOrNone(order);
            if (there === null) return;
            yield there;
        }
    }

    /** A line of a transcript: one that was refused then is refused again. */
    #again(line) {
        try {
            this.answer(line);
        } catch (refusal) {
            if (!(refusal instanceof Refusal)) throw refusal;
        }
    }

    #atOrNone(order) {
        try {
            return this.at(order);
        } catch (refusal) {
            if (!(refusal instanceof Refusal) || refusal.kind !== "TooFar") throw refusal;
            return null;
        }
    }

    transcript() {
        return this.#asked("transcript");
    }

    close() {
        if (this.#session === null) return "";
        const { reply } = this.#given((session) => session.close());
        this.#session = null;
        this.#inSource = false;
        return textOf(reply);
    }

    toString() {
        if (this.#session === null) return "<Laboratory: closed>";
        if (this.#inSource) return "<Laboratory: a source is open>";
        const { status, counter, accumulator, clock } = this.panel();
        return `<Laboratory: ${status}, counter ${counter}, accumulator ${accumulator}, clock ${clock}>`;
    }

    [INSPECTED]() {
        return this.toString();
    }
}

export function runScript(module, script, { region } = {}) {
    const { replies: bytes, questions } = answerScript(module, bytesOf(script), region);
    return { text: textOf(bytes), questions };
}

/** A source by the laboratory's own module: its listing, or its faults. */
export async function assemble(source, options) {
    const laboratory = await Laboratory.open(options);
    try {
        return { ...laboratory.source(source), text: laboratory.answer("list"), faults: [] };
    } catch (refusal) {
        if (!(refusal instanceof Refusal) || refusal.kind !== "Faults") throw refusal;
        return { cells: 0, start: null, text: "", faults: refusal.faults };
    } finally {
        laboratory.close();
    }
}
