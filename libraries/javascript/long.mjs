// Lines that take long, in portions: between two of them a key is heard, and what is told so far is written.
import { STARTED, asUnmet, isRefusal, linesOf, metIn, ordersOf, runOf, startsOf, toldOf } from "./replies.mjs";
import { wordsOf } from "./lines.mjs";
import { narrowRows } from "./views.mjs";

/** How many orders a run does before a key is heard, at first; the next portion has twice as many, until one takes PORTION_TIME. */
const FIRST_PORTION = 100_000;
const PORTION_TIME = 60;
/** How many orders are told of at once, and how many runs and orders of each one `operate` does at once. */
const TOLD_AT_ONCE = 1000;
const STARTS_AT_ONCE = 1000;
/** After how many milliseconds a line shows how far it is, and how often it does. */
const PATIENCE = 500;
const INDENT = "        ";

const counted = (number) => Math.round(number).toLocaleString("en");
export const letOthersGo = () => new Promise((resolve) => setImmediate(resolve));

/** How far a line is, at the end of the terminal. */
export class Progress {
    #write;
    #begun = performance.now();
    #isShown = false;

    constructor(write) {
        this.#write = write;
    }

    #show(tell) {
        const time = performance.now() - this.#begun;
        if (time < PATIENCE) return;
        this.#write(`\r\x1b[K${tell(time / 1000)}`);
        this.#isShown = true;
    }

    showOrders(orders) {
        this.#show((seconds) => `${counted(orders)} orders, ${counted(orders / seconds)} a second (Ctrl-C stops)`);
    }

    showLines(done, all) {
        this.#show(() => `lines repeated: ${done} of ${all} (Ctrl-C stops)`);
    }

    showTime() {
        this.#show((seconds) => `seconds: ${Math.floor(seconds)} (Ctrl-C takes the line back)`);
    }

    clear() {
        if (this.#isShown) this.#write("\r\x1b[K");
        this.#isShown = false;
    }
}

/** How often a run waits for its condition, and what comes after its number where it waits once. Portions are counted together. */
function waitedFor(more) {
    const [, times = "0", condition] = /^ until (\d+) times (.*)$/.exec(more) ?? [];
    return Number(times) === 0 ? { left: 1, once: more } : { left: Number(times), once: ` until ${condition}` };
}

/** A run that is told in portions ends with the line of its last one, which has the orders of all. */
function lastLines(lines, end, orders) {
    const at = lines.lastIndexOf(end);
    return isRefusal(end) ? lines.slice(at) : [end.replace(/^ran \d+/, `ran ${orders}`), ...lines.slice(at + 1)];
}

/** What an account tells of a portion: its rows, and the lines that end it. */
function toldPart(reply) {
    const lines = linesOf(reply);
    const { told, end } = toldOf(reply);
    return { rows: told, end, lines };
}

/** Rows of which the last one may go on in the next portion. */
class DrumRows {
    #last = null;

    /** The rows that are whole now. */
    add(rows) {
        const [first, ...others] = rows;
        if (first === undefined) return [];
        const before = this.#goesOn(first) ? [this.#last + first.slice(this.#last.length)] : [...this.rest(), first];
        const all = [...before, ...others];
        this.#last = all.pop();
        return all;
    }

    rest() {
        return this.#last === null ? [] : [this.#last];
    }

    #goesOn(row) {
        return this.#last !== null && wordsOf(row)[0] === wordsOf(this.#last)[0];
    }
}

/** Rows below one heading. */
class HeadedRows {
    #hasHeading = false;

    add(rows) {
        const [, ...others] = rows;
        const shown = this.#hasHeading ? others : rows;
        this.#hasHeading ||= rows.length > 0;
        return shown;
    }

    rest() {
        return [];
    }
}

export class LongLines {
    #type;
    #isInterrupted;
    #write;
    #draw;

    /** Whether the last line was stopped by a key. */
    wasStopped = false;

    /** What types a line and gives the reply, what tells whether Ctrl-C was pressed, what writes on the terminal, and what draws there. */
    constructor({ type, isInterrupted, write, draw = () => {} }) {
        this.#type = type;
        this.#isInterrupted = isInterrupted;
        this.#write = write;
        this.#draw = draw;
    }

    /** Whether keys want it to stop, after they have been heard. */
    async #stops() {
        await letOthersGo();
        this.wasStopped = this.#isInterrupted();
        return this.wasStopped;
    }

    /**
     * `run` or `orders`; the reply is that of one line. What comes after the number is `more`; what shows how far it is may be another's.
     */
    async run(command, limit, more = "", show = null) {
        const progress = new Progress(this.#draw);
        this.wasStopped = false;
        let [done, portion, reply] = [0, FIRST_PORTION, ""];
        const { left: times, once } = waitedFor(more);
        let left = times;
        do {
            const begun = performance.now();
            const asked = Math.min(portion, limit - done);
            reply = await this.#type(`${command} ${asked}${once}`);
            if (isRefusal(reply)) break;
            const { orders, end, status } = command === "run" ? runOf(reply) : ordersOf(reply);
            done += orders;
            const isMet = metIn(reply);
            if (isMet) left -= 1;
            const isEnded = command === "run" ? end !== "limit" : ["halted", "waiting"].includes(wordsOf(status)[0]);
            if (isEnded || (isMet ? left === 0 : orders < asked)) break;
            if (performance.now() - begun < PORTION_TIME) portion *= 2;
            if (show === null) progress.showOrders(done);
            else show();
        } while (done < limit && !(await this.#stops()));
        progress.clear();
        const told = left > 0 && metIn(reply) ? asUnmet(reply) : reply;
        const [first, , ...others] = told.split(" ");
        return isRefusal(reply) ? reply : [first, done, ...others].join(" ");
    }

    /** `operate`: as one line does, it runs at most `limit` orders after each start, and starts at most so often. */
    async operate(limit) {
        const progress = new Progress(this.#draw);
        this.wasStopped = false;
        let [stretch, starts, all, told, isBegun] = [0, 0, 0, null, false];
        for (;;) {
            const most = Math.min(STARTS_AT_ONCE, limit - stretch, limit - starts);
            const reply = await this.#type(most > 0 ? `operate ${most}` : `run ${Math.min(FIRST_PORTION, limit - stretch)}`);
            const again = startsOf(reply);
            const { end } = toldOf(reply);
            if (isRefusal(end)) return reply;
            const { orders, end: why } = runOf(reply);
            // after the last start of a portion nothing may have been left to do
            if (isBegun && orders === 0 && again === 0 && why === "rest") break;
            stretch = again > 0 ? orders : stretch + orders;
            starts += again;
            all += orders + again;
            told = { reply, why };
            isBegun = true;
            const goesOn = why === "limit" ? stretch < limit : why === "rest" && again === most && starts < limit;
            if (!goesOn || (await this.#stops())) break;
            progress.showOrders(all);
        }
        progress.clear();
        return operated(told.reply, stretch, starts);
    }

    /** `trace` or `drum`: each portion is written when it is there. The reply is what is left to write at the end. */
    async tell(command, limit) {
        this.wasStopped = false;
        const shown = command === "drum" ? new DrumRows() : new HeadedRows();
        const isNarrow = command === "narrow";
        let done = 0;
        for (;;) {
            const asked = Math.min(TOLD_AT_ONCE, limit - done);
            const reply = await this.#type(isNarrow ? `json trace-data ${asked}` : `${command} ${asked}`);
            if (isRefusal(reply)) return reply;
            const { rows, end, lines } = isNarrow ? narrowRows(reply) : toldPart(reply);
            this.#writeLines(shown.add(rows));
            const run = isRefusal(end) ? null : runOf(`${end}\n`);
            done += run?.orders ?? 0;
            if (run === null || run.end !== "limit" || run.orders < asked || done >= limit || (await this.#stops())) {
                return [...shown.rest(), ...lastLines(lines, end, done)].map((line) => `${line}\n`).join("");
            }
        }
    }

    #writeLines(lines) {
        if (lines.length > 0) this.#write(lines.map((line) => `${line}\n`).join(""));
    }
}

/** The reply of `operate` with the orders since the last start, and with all starts. */
function operated(reply, orders, starts) {
    const others = linesOf(reply).filter((line) => !line.trimStart().startsWith(STARTED));
    const lines = others.map((line) => line.replace(/^ran \d+/, `ran ${orders}`));
    return [...lines, ...(starts > 0 ? [`${INDENT}${STARTED}${starts}`] : [])].map((line) => `${line}\n`).join("");
}
