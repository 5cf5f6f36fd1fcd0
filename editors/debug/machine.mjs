// @ts-check
// The laboratory of a debugger: what it asks of the monitor, and what an operator does at the console for it. What is known of the machine
// is in the replies.
import { bytesFrom, linesIn, textFrom, wordsOf } from "../../libraries/javascript/lines.mjs";
import * as replies from "../../libraries/javascript/replies.mjs";
import { TextSession } from "../../libraries/javascript/text_session.mjs";
import { isYes } from "../answers.mjs";
import { Past, shown, typed } from "./past.mjs";
import { Recorded, withoutAsides } from "./recorded.mjs";

/** What answers another line, and asks as that does. */
const AS_JSON = "json";
/** What is before the code in a record of `paper-data`. */
const CODE = "\ncode ";

/** What could not be done, as a client shows it. */
export class Refused extends Error {}

/** The reply, or where it is a refusal the line that says so. */
function granted(reply) {
    const refusal = replies.linesOf(reply).find(replies.isRefusal);
    if (refusal !== undefined) throw new Refused(refusal);
    return reply;
}

/** The words of a record of `show-data`, as one line. */
export const valueOf = (record) => ["digits", "order", "number", "fraction"].flatMap(
    (key) => record.get(key)?.toString().trim() ?? []
).join("  ");

export class Machine {
    #openSession;
    #consoleOver;
    #session;
    #recorded;
    /** @type {any} what types lines that may name files, or null */
    #console;
    /** How many lines of the transcript brought the program into the machine. */
    #begun = 0;
    /** @type {string[]} what an operator did after the moment that was gone back to, when orders were gone back over that are not kept */
    takenBack = [];
    /** @type {TextSession | null} */
    #beside = null;
    /** @type {Map<string, boolean> | null} */
    #commands = null;
    /** How many orders were performed since something else was done: these can be gone back over and performed again. */
    #orders = 0;

    /**
     * A laboratory in a session, with what types lines that may name files: where there is none, the session types them.
     * @param {() => any} openSession
     * @param {((session: any, openSession: () => any) => any) | null} [consoleOver]
     */
    constructor(openSession, consoleOver = null) {
        this.#openSession = openSession;
        this.#consoleOver = consoleOver;
        this.#goOnIn(openSession());
    }

    #goOnIn(session) {
        this.#session = session;
        this.#recorded = new Recorded(session);
        this.#console = this.#consoleOver?.(session, this.#openSession) ?? null;
    }

    /** The program is in the machine: what is done from now on can be gone back over. */
    begin() {
        this.#begun = linesIn(this.transcript()).length;
    }

    /** The reply to a line that does something. */
    does(line) {
        this.#orders = 0;
        return granted(shown(this.#recorded.answer(typed(line))));
    }

    /** The reply to a line that may be refused. */
    tries(line) {
        return shown(this.#recorded.answer(typed(line)));
    }

    /** The reply to a line that only asks. */
    asks(line) {
        return granted(shown(this.#recorded.ask(typed(line))));
    }

    /**
     * The reply to a question of programs, which no transcript has.
     * @param {string} line
     */
    #told(line) {
        return granted(shown(this.#recorded.tell(typed(line))));
    }

    /** The reply to a question of programs, a refusal too. */
    replyTo(line) {
        return shown(this.#recorded.tell(typed(line)));
    }

    #records(line) {
        return replies.recordsOf(this.#told(`json ${line}`));
    }

    /** Whether a line only asks, by its command; undefined where it has none. */
    isQuestion(line) {
        this.#commands ??= new Map(this.#records("commands-data").map((record) => [record.get("command"), isYes(record.get("asks"))]));
        const [command, ...rest] = wordsOf(line);
        return command === AS_JSON ? this.isQuestion(rest.join(" ")) : this.#commands.get(command);
    }

    /** What a console line is answered, a refusal too. */
    async types(line) {
        if (!this.isQuestion(line)) this.#orders = 0;
        if (wordsOf(line)[0] === "new") this.#begun = 0;
        if (this.#console === null || Recorded.isConcerned(line)) return shown(this.#recorded.answer(typed(line)));
        this.#recorded.note(typed(line));
        return shown(withoutAsides(await this.#console.type(typed(line))));
    }

    /** Puts the tape of a file into the reader, as the monitor does with `tape FILE`. */
    mount(path, bytes) {
        this.#orders = 0;
        this.#recorded.note(typed(`tape ${path}`));
        const told = { typed: bytesFrom(typed(`tape ${path}`)), found: bytes };
        for (const [what, said] of Object.entries(told)) granted(shown(textFrom(this.#session.tell(what, said).reply)));
    }

    /** What the lines of a source are answered, each with a sign for each of its bytes. */
    assemble(lines) {
        this.#orders = 0;
        return lines.map((line) => shown(this.#recorded.answer(line))).join("");
    }

    get hasLeft() {
        return this.#console?.hasLeft ?? false;
    }

    transcript() {
        return this.#recorded.transcript();
    }

    /** The fields of `state-data`. */
    state() {
        return this.#records("state-data")[0];
    }

    /** The words from an address on, as `show-data` has them. */
    words(address, count = 1) {
        return this.#records(`show-data ${address} ${count}`);
    }

    /** The word at what may be an address; the monitor says whether it is, and a refused line leaves no trace. */
    word(address) {
        if (/\s/.test(address) || address === "") throw new Refused(`${JSON.stringify(address)} is no address and no label`);
        return replies.recordsOf(this.asks(`json show-data ${address} 1`))[0];
    }

    /** The address that a label or an address names, or null. */
    addressNamed(name) {
        try {
            return this.word(name).get("address");
        } catch (refusal) {
            if (!(refusal instanceof Refused)) throw refusal;
            return null;
        }
    }

    why(address) {
        return this.#records(`why-data ${address}`)[0];
    }

    labels() {
        return this.#records("labels-data");
    }

    rules() {
        return this.#records("rules-data");
    }

    tape() {
        return this.#records("tape-data")[0];
    }

    /** The codes that were printed after the first `count`. There may be very many, and their records are not read whole. */
    codesAfter(count) {
        const reply = this.#recorded.tell(`paper-data ${count}`);
        if (replies.isRefusal(reply)) granted(reply);
        const codes = [];
        for (let at = reply.indexOf(CODE); at >= 0; at = reply.indexOf(CODE, at)) {
            at += CODE.length;
            codes.push(Number.parseInt(reply.slice(at, at + 2), 10));
        }
        return codes;
    }

    /** The rows of the typewriter's paper. */
    paper() {
        return replies.paperOf(this.#told("paper")).text;
    }

    source() {
        return this.#told("json source-data");
    }

    /** Performs orders, and says how many, and why that ended. */
    run(limit) {
        const before = this.#orders;
        const run = replies.runOf(this.does(`run ${limit}`));
        this.#orders = before + run.orders;
        return run;
    }

    /**
     * Starts the machine again where it has halted for its typewriter, and performs an order: the run, or null where it waits for nothing.
     */
    operate() {
        const reply = this.does("operate 1");
        return replies.startsOf(reply) === 0 ? null : replies.runOf(reply);
    }

    /** How many orders can be gone back over. */
    kept() {
        return this.state().get("kept");
    }

    /** Goes back over orders. */
    #back(orders) {
        const before = this.#orders;
        this.does(`back ${orders}`);
        this.#orders = Math.max(0, before - orders);
    }

    /** All that was done. `letOthersGo` is awaited now and then, and throws `Interrupted` where it is enough. */
    async #past(letOthersGo) {
        const past = new Past(this.#openSession, letOthersGo);
        await past.follow(linesIn(this.transcript()), this.#begun);
        return past;
    }

    /** Goes to the end of the first `orders` orders of the past, with the steps before it. */
    async #goTo(past, orders) {
        const { opened, since, undone } = await past.openedAfter(orders);
        this.#goOnIn(opened);
        this.#orders = since;
        this.takenBack.push(...undone);
    }

    /** Goes back over one order; whether there was one. */
    async stepBack(letOthersGo) {
        if (this.kept() === 0) {
            const past = await this.#past(letOthersGo);
            if (past.orders === 0) return false;
            await this.#goTo(past, past.orders);
        }
        this.#back(1);
        return true;
    }

    /** Goes back to the latest order that a rule hits: what the monitor says of it, or null where there is none. */
    async last(letOthersGo) {
        const last = this.#lastKept();
        if (last !== null || this.rules().length === 0) return last;
        const past = await this.#past(letOthersGo);
        const rules = this.rules().map((record) => ({ kind: record.get("kind"), address: record.get("address") }));
        for (const orders of await past.stops(rules)) {
            await this.#goTo(past, Math.min(orders + 1, past.orders));
            const far = this.#lastKept();
            if (far !== null) return far;
        }
        return null;
    }

    /** The same as far as steps are kept. */
    #lastKept() {
        const before = this.#orders;
        const reply = this.tries("last");
        if (replies.isRefusal(reply)) return null;
        const last = replies.lastOf(reply);
        this.#orders = Math.max(0, before - last.orders);
        return last;
    }

    /** Goes back to the first order; whether there was one. */
    async toFirst(letOthersGo) {
        const past = await this.#past(letOthersGo);
        if (past.orders > 0) await this.#goTo(past, 1);
        const orders = this.kept();
        if (orders > 0) this.#back(past.orders > 0 ? 1 : orders);
        return orders > 0;
    }

    /** Lets the machine go on, as the monitor says that it can; whether it goes. One that waits for keys does not. */
    wake() {
        const way = this.state().get("way");
        if (way === "keys") return false;
        if (way !== "orders") for (const button of way.split("-")) this.does(`press ${button}`);
        return true;
    }

    /** Does what the console allows only at rest: a machine that is going is halted for it, and started again. */
    atRest(work) {
        const before = this.state();
        if (before.get("way") !== "orders") return work();
        this.does("press manual");
        try {
            return work();
        } finally {
            this.does(`press ${before.get("mode")}`);
            this.does("press start");
        }
    }

    /** The reply of a laboratory beside this one, in which values are tried. */
    #tried(line) {
        this.#beside ??= new TextSession(this.#openSession());
        return shown(this.#beside.answer(typed(line)));
    }

    /** The digits of what `put` takes as a word. */
    digitsOf(value) {
        granted(this.#tried(`put 0000 ${value}`));
        return replies.placesOf(this.#tried("words 0000 1"))[0].text;
    }

    /**
     * The digits of a value: as the line that declares a word would be read with the value in place of its first operand, or else as `put`
     * takes it, or after =, as a whole number.
     */
    digitsMeant(value, declared) {
        const read = declared === null ? null : this.#readAs(value, declared);
        if (read !== null) return read;
        const isWhole = replies.isRefusal(this.#tried(`put 0000 ${value}`)) && !replies.isRefusal(this.#tried(`put 0000 = ${value}`));
        return this.digitsOf(isWhole ? `= ${value}` : value);
    }

    /** The digits of a line of a source with a value as its first operand, or null. */
    #readAs(value, { operation, operands }) {
        for (const line of ["source", ` ${[operation, value, ...operands.slice(1)].join(" ")}`, "."]) this.#tried(line);
        return replies.recordsOf(this.#tried("json source-data"))[0].get("digits") ?? null;
    }

    /** Types digits into the accumulator, as an operator does. */
    #keyIn(digits) {
        const isSix = this.state().get("sixbit") === "down";
        this.does("press manual");
        if (isSix) this.does("press sixbit up");
        this.does(`type ${digits}`);
        if (isSix) this.does("press sixbit down");
    }

    /** The accumulator, keyed in. */
    setAccumulator(digits) {
        this.#keyedIn(() => this.#keyIn(digits));
    }

    /** The instruction register, which is filled from the accumulator. */
    setRegister(digits) {
        this.#keyedIn((before) => {
            this.#keyIn(digits);
            this.does("press fill");
            this.#keyIn(before.get("accumulator"));
        });
    }

    #keyedIn(work) {
        const before = this.state();
        if (!["orders", "start", "normal-start"].includes(before.get("way"))) throw new Refused(before.get("way-sentence"));
        work(before);
        this.does(`press ${before.get("mode")}`);
        if (before.get("way") === "orders") this.does("press start");
    }

    /** The counter: a jump is keyed in and performed, and then the accumulator as it was. */
    goTo(address) {
        const before = this.state().get("accumulator");
        this.does(`go ${address}`);
        this.setAccumulator(before);
    }

    /** The accounts of the last orders, at most this number: it goes back over them and performs them again, which leaves no trace. */
    lastOrders(most) {
        const orders = Math.min(most, this.#orders, this.kept());
        if (orders === 0) return [];
        return this.#recorded.aside(() => {
            this.asks(`back ${orders}`);
            return Array.from({ length: orders }, () => replies.reportOf(this.asks("json trace-data 1")).told[0]);
        });
    }

    /** What was said of a word before the last order was performed. */
    whyBefore(address) {
        if (this.#orders === 0 || this.kept() === 0) return null;
        return this.#recorded.aside(() => {
            this.asks("back 1");
            const said = this.asks(`why ${address}`);
            this.asks("run 1");
            return said.trim();
        });
    }

    /** What a work gives here, or if wanted after the order that comes next, which is then undone. */
    afterwards(isAfter, work) {
        if (!isAfter) return work();
        return this.#recorded.aside(() => {
            this.asks("run 1");
            try {
                return work();
            } finally {
                this.asks("back 1");
            }
        });
    }

    sayWhy(address) {
        return this.asks(`why ${address}`).trim();
    }
}
