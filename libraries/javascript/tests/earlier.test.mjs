// The way back beyond the steps that are kept, at the prompt: each order that is come back to is the one of the proved session.
import assert from "node:assert/strict";
import { test } from "node:test";
import { linesIn } from "../lines.mjs";
import { accountsOf, lastOf, orderOf, panelOf, recordsOf, reportOf } from "../replies.mjs";
import { chance } from "./chance.mjs";
import { Shelf } from "../shelf.mjs";
import { Sitting, openText } from "./sat.mjs";

const [SESSIONS, DEEDS] = [8, 40];
const ASKED = ["panel-data", "dump", "printed", "paper", "json tape-data"];
/** What `back` leaves as it is. */
const BESIDE = ["rules", "labels", "list"];
const BEGUN = ["put 0000 b 0010", "put 0001 a 0011", "put 0002 h 0010", "put 0003 u 0000", "put 0011 = 1", "go 0000"];
const SOURCE = ["source", "loop b count", " a one", " h count", " p =a", " u loop", "count int 3 30", "one int 1 30", " end loop", "."];

/** What a moment answers, which no transcript notes. */
const answersAt = (engine, number) => ASKED.map((line) => engine.answer(`at ${number} ${line}`));
/** What the present answers, asked in a laboratory that its transcript leads to. */
async function answersNow(engine, lines = ASKED) {
    const [there, transcript] = [openText(), await transcriptOf(engine)];
    for (const line of linesIn(transcript)) there.answer(line);
    assert.equal(there.answer("json panel-data"), await engine.ask("json panel-data"), `where ${transcript} leads`);
    return lines.map((line) => there.answer(line));
}
const transcriptOf = (engine) => engine.ask("transcript");
const keptOf = async (engine) => recordsOf(await engine.ask("json state-data"))[0].get("kept");

/** What a test knows by itself: the orders that lead to the present, and the way before each of all that were performed. */
class Known {
    #way = null;
    #ways = [];

    get orders() {
        return this.#way?.orders ?? 0;
    }

    performs(orders) {
        for (let order = 0; order < orders; order += 1) {
            this.#ways.push(this.#way);
            this.#way = { number: this.#ways.length - 1, before: this.#way, orders: this.orders + 1 };
        }
    }

    /** The number of the order that is this many orders back. */
    numberBack(orders) {
        let at = this.#way;
        for (let left = orders; left > 1; left -= 1) at = at.before;
        return at.number;
    }

    goesBack(orders) {
        for (let left = orders; left > 0; left -= 1) this.#way = this.#way.before;
    }

    goesTo(number) {
        if (number < this.#ways.length) this.#way = this.#ways[number];
        this.#ways.length = number;
    }
}

/** A person who tries everything, and knows where that leads. */
class Person {
    compared = 0;
    far = 0;
    #by;
    #sitting = new Sitting();
    #known = new Known();

    constructor(seed) {
        this.#by = chance(seed);
    }

    get #engine() {
        return this.#sitting.engine;
    }

    async #types(...lines) {
        for (const line of lines) {
            const shown = await this.#sitting.type(line);
            const said = (form) => form.exec(shown)?.[0];
            const ran = said(/^(?:ran|orders) \d+ /m);
            if (ran !== undefined) this.#known.performs(Number(ran.split(" ")[1]));
            if (said(/^started: /m) !== undefined) this.#known.performs(1);
            if (said(/^back \d+ rule \d+$/m) !== undefined) this.#known.goesBack(lastOf(said(/^back .*$/m)).orders);
            if (line.startsWith("to ") && said(/^order /m) !== undefined) this.#known.goesTo(orderOf(said(/^order .*$/m)));
        }
    }

    async #isAt(told, how) {
        assert.deepEqual(await answersNow(this.#engine), told, how);
        this.compared += 1;
    }

    /** Goes back over orders, forward over some of them, and then either to the end, or again back. */
    async #goesBack() {
        // what is gone back over from here is another thing than what was gone back over to come here
        await this.#types(`press bp8 ${this.#by.of(["up", "down"])}`);
        const [before, beside] = [await transcriptOf(this.#engine), await answersNow(this.#engine, BESIDE)];
        const orders = Math.min(this.#known.orders, 1 + this.#by.below(2 * this.#known.orders));
        const forward = this.#by.below(orders);
        if (orders === 0) return;
        const now = await answersNow(this.#engine);
        const told = (back) => (back === 0 ? now : answersAt(this.#engine, this.#known.numberBack(back)));
        const [there, between] = [told(orders), told(orders - forward)];
        if (orders > await keptOf(this.#engine)) this.far += 1;
        await this.#sitting.type(`back ${orders}`);
        await this.#isAt(there, `back ${orders} of ${before}`);
        assert.deepEqual(await answersNow(this.#engine, BESIDE), beside, `beside after back ${orders} of ${before}`);
        await this.#sitting.type(`forward ${forward}`);
        await this.#isAt(forward === 0 ? there : between, `back ${orders}, forward ${forward} of ${before}`);
        await this.#sitting.type("forward");
        await this.#isAt(now, `forward after back ${orders} of ${before}`);
        assert.equal(await transcriptOf(this.#engine), before);
        if (this.#by.below(3) > 0) return;
        const isFar = orders > await keptOf(this.#engine);
        const number = this.#known.numberBack(orders);
        await this.#sitting.type(`back ${orders}`);
        if (isFar) this.#known.goesTo(number);
        else this.#known.goesBack(orders);
    }

    /** Tries a number of things. */
    async tries(deeds) {
        const by = this.#by;
        await this.#types(...BEGUN);
        for (let deed = 0; deed < deeds; deed += 1) {
            await by.of([
                () => this.#types(`run ${by.below(20)}`), () => this.#types(`run ${by.below(3000)}`),
                () => this.#types(`orders ${by.below(40)}`), () => this.#types(`orders ${by.below(3000)}`),
                () => this.#types(`break 000${by.below(6)}`), () => this.#types("watch 0010"), () => this.#types("drop 0"),
                () => this.#types("last"), () => this.#types(`press bp4 ${by.of(["up", "down"])}`),
                () => this.#types("press manual", `put 0011 = ${by.below(9)}`, "press normal", "press start"),
                () => this.#types("press manual", "go 0000"), () => this.#types(...SOURCE, ...by.of([[], ["load"]])),
                () => this.#types("to last changed 0010"), () => this.#goesBack(), () => this.#goesBack(), () => this.#goesBack(),
            ])();
        }
        await this.#isTooFar();
        await this.#sitting.leave();
    }

    /** One order more than there were. */
    async #isTooFar() {
        const { orders } = this.#known;
        const shown = await this.#sitting.type(`back ${orders + 1}`);
        assert.match(shown, new RegExp(`^\\? 7 TooFar ${orders}: only this many orders led here since the session began$`, "m"));
    }
}

test("each order that is gone back to is the one of the proved session, and forward leads from it to where it was", async () => {
    let [compared, far] = [0, 0];
    for (let seed = 1; seed <= SESSIONS; seed += 1) {
        const person = new Person(seed);
        await person.tries(DEEDS);
        compared += person.compared;
        far += person.far;
    }
    assert.ok(compared > 100 && far > 10, `${compared} compared, ${far} of them far`);
});

/** A sitting after some lines. */
async function satAfter(lines, options) {
    const sitting = new Sitting(undefined, options);
    for (const line of lines) await sitting.type(line);
    return sitting;
}
const LONG = ["put 0000 u 0000", "press start", "run 5000"];

test("a way back that is stopped changes nothing", async () => {
    const sitting = await satAfter(LONG);
    const before = [await sitting.engine.ask("json state-data"), await transcriptOf(sitting.engine)];
    sitting.keyboard.isInterrupted = true;
    assert.match(await sitting.type("back 4500"), /^ {8}stopped by Ctrl-C before it was done; it was taken back/m);
    sitting.keyboard.isInterrupted = false;
    assert.deepEqual([await sitting.engine.ask("json state-data"), await transcriptOf(sitting.engine)], before);
    assert.match(await sitting.type("forward"), /^nothing was gone back over/m);
    assert.match(await sitting.type("back 4500"), /^order 500 /m);
    await sitting.leave();
});

test("what cannot be kept is not left unasked for an order far back", async () => {
    const sitting = await satAfter(LONG, { shelf: new Shelf("/dev/null/no") });
    assert.match(await sitting.type("back 5"), /^clock /m);
    assert.match(await sitting.type("b 4500"), /: it would be lost; the same line again does it\n/);
    assert.match(await sitting.type("b 4500"), /^order 495 /m);
    await sitting.leave();
});

/** What was done, order by order, without what was gone back over: what a machine that does it again says of a word. */
class Done {
    #events = [];

    does(line) {
        this.#events.push(line);
    }

    performs(orders) {
        for (let order = 0; order < orders; order += 1) this.#events.push(null);
    }

    goesBack(orders) {
        for (let left = orders; left > 0;) if (this.#events.pop() === null) left -= 1;
    }

    /** A laboratory that does the first events; `look` is told of each. */
    #again(count, look = () => {}) {
        const there = openText();
        for (const [at, event] of this.#events.slice(0, count).entries()) {
            there.answer(event ?? "orders 1");
            if (!there.isSourceOpen) look(there, at);
        }
        return there;
    }

    /** What is to be said of the word at an address, and which event put it there, if it was an order. */
    origin(address) {
        const wordIn = (session) => recordsOf(session.answer(`json show-data ${address} 1`))[0];
        let [last, word] = [{ says: "changed by nothing since the session began", at: null }, wordIn(openText())];
        this.#again(this.#events.length, (there, at) => {
            const [before, now] = [word, wordIn(there)];
            word = now;
            if (before.get("digits") === now.get("digits")) return;
            const [, says] = /, (put there by .*)/.exec(there.answer(`why ${address}`)) ?? [];
            const lost = before.get("order") ?? `${before.get("digits")} = ${before.get("number")}`;
            last = { says: says ?? `put there by load; before it was ${lost}`, at: this.#events[at] === null ? at : null };
        });
        if (last.at === null) return last;
        const orders = this.#events.slice(last.at).filter((event) => event === null).length;
        return { ...last, says: last.says.replace("1 order ago", orders === 1 ? "1 order ago" : `${orders} orders ago`) };
    }

    /** What a machine answers before an event. */
    answersBefore(at) {
        const there = this.#again(at);
        return ["panel-data", "dump", "printed"].map((line) => there.answer(line));
    }
}

/** Lines of a person who puts words in, runs, loads and goes back. */
const linesOf = (by) => by.of([
    () => [`run ${by.below(20)}`], () => [`orders ${by.below(30)}`], () => [`back ${by.below(9)}`], () => ["last"],
    () => [`break 000${by.below(6)}`], () => ["drop 0"],
    () => ["press manual", `put 001${by.below(2)} = ${by.below(9)}`, "press normal", "press start"],
    () => [...COUNTING, "load"], () => ["load"], () => [`run ${by.below(20)}`, "load", "back 1"],
])();
/** A loop whose words are elsewhere: its loader forgets the steps, and leaves them as they are. */
const COUNTING = ["source", "loop b 0010", " a 0011", " h 0010", " y 0012", " u loop", " end loop", "."];

async function done(sitting, by) {
    const all = new Done();
    // what is gone back over later is not one with what was gone back over here
    const lines = [...BEGUN.slice(0, -1), "press start", ...Array.from({ length: DEEDS }, () => linesOf(by)).flat(), "press bp8 down"];
    for (const line of lines) {
        const shown = await sitting.type(line);
        const [, command, number] = /^(ran|orders|back) (\d+)/m.exec(shown) ?? [];
        if (command === "back") all.goesBack(Number(number));
        else if (command !== undefined) all.performs(Number(number));
        else if (line.startsWith("back") && /^(?:clock|order) /m.test(shown)) all.goesBack(Number(line.split(" ")[1]));
        else if (!/^\?/m.test(shown)) all.does(line);
    }
    return all;
}

test("what put a word where it is, and the way to it, are those of a machine that does all of it again", async () => {
    let [far, gone] = [0, 0];
    for (let seed = 1; seed <= 2 * SESSIONS; seed += 1) {
        const sitting = new Sitting();
        const all = await done(sitting, chance(seed));
        for (const address of ["0002", "0003", "0010", "0011", "0012", "0050"]) {
            const { says, at } = all.origin(address);
            far += (await sitting.engine.ask(`json why-data ${address}`)).includes('"changed-by":"none"') && at !== null ? 1 : 0;
            const before = await transcriptOf(sitting.engine);
            assert.equal(/, ((?:put|changed) .*)/.exec(await sitting.type(`why ${address}`))[1], says, `${address} after ${before}`);
            const shown = await sitting.type(`back to why ${address}`);
            if (at === null) assert.match(shown, /^no order to go back to: the word at /m);
            else {
                assert.deepEqual((await answersNow(sitting.engine)).slice(0, 3), all.answersBefore(at), `${address} after ${before}`);
                await sitting.type("forward");
                gone += 1;
            }
        }
        await sitting.leave();
    }
    assert.ok(far > 5 && gone > far, `${far} beyond the kept steps of ${gone}`);
});

test("what put a word there is looked for as long as nobody stops it", async () => {
    const sitting = await satAfter([...BEGUN, "run 5000"]);
    const before = await transcriptOf(sitting.engine);
    assert.match(await sitting.type("why 0011"), /^0011: 00000002 = 1, put there by hand, clock 0; before it was z 0000$/m);
    sitting.keyboard.isInterrupted = true;
    assert.match(await sitting.type("why 0011"), /stopped by Ctrl-C before it was done[^\n]*\n0011: .*, changed by no kept step$/m);
    assert.match(await sitting.type("back to why 0011"), /stopped by Ctrl-C before it was done/);
    sitting.keyboard.isInterrupted = false;
    assert.match(await sitting.type("back to 5"), /^\? 1 Form: [^\n]* back to why ttss: after to comes why, and an address$/m);
    assert.match(await sitting.type("back to why nothing"), /^\? 1 Form: nothing is not a label in the last source$/m);
    assert.ok((await transcriptOf(sitting.engine)).startsWith(before));
    await sitting.leave();
});

/** A program that reads, prints an a, reads, prints a carriage return, and reads. */
const READING = ["put 0000 i 0000", "put 0001 p =a", "put 0002 i 0000", "put 0003 p 1600", "put 0004 i 0000", "put 0005 z", "press start"];
const TYPED = ["type 99", ...READING, "run 5", "type 12'34", "run 5", "type 5 [59]'", "run 9", "type 7'7", "type [64]", "run 9"];

test("what was typed is on the paper where the machine has taken it, and is marked", async () => {
    const sitting = await satAfter(TYPED);
    const before = await transcriptOf(sitting.engine);
    assert.match(await sitting.type("paper typed"), /^paper 2 typed 9\n<12'>a<5 \[59\]'>\n<7'>\n$/);
    assert.match(await sitting.type("paper x"), /^\? 1 Form: paper or paper typed: x is not typed$/m);
    assert.match(await sitting.type("help paper"), /a code that is typed is on the\n *paper when the machine has taken it/);
    sitting.keyboard.isInterrupted = true;
    assert.match(await sitting.type("paper typed"), /stopped by Ctrl-C before it was done/);
    sitting.keyboard.isInterrupted = false;
    assert.equal(await transcriptOf(sitting.engine), before);
    assert.match(await sitting.type("paper"), /^paper 2\na\n\n$/);
    // what was gone back over was not typed
    await sitting.type("back 4");
    assert.match(await sitting.type("paper typed"), /^paper 1 typed 3\n<12'>a\n$/);
    await sitting.leave();
    const coloured = await satAfter(TYPED, { hasColour: true });
    const red = (keys) => `\x1b[31m${keys}\x1b[0m`;
    assert.equal(await coloured.type("paper typed"), `paper 2 typed 9\n${red("12'")}a${red("5 [59]'")}\n${red("7'")}\n`);
    await coloured.leave();
});

/** A routine is called twice, and calls another one in a loop. */
const CALLING = [
    "source", "main r exit", " u sub", " p =a", " r exit", " u sub", " p =b", " z", "sub b count", "loop a one", " h count", " r out",
    " u inner", " b count", " t loop", "exit u main", "inner b count", " c 0100", "out u main", "count int -5 30", "one int 1 30",
    " end main", ".", "load",
];
const callingOf = (count) => CALLING.map((line) => line.replace("-5", String(count)));

/** The address to which the routine returns that is under way after some orders, by what each of them was; null where none is. */
function returnAfter(orders) {
    const there = openText();
    for (const line of CALLING) there.answer(line);
    let open = [];
    for (let order = 0; order < orders; order += 1) {
        const [account] = accountsOf(reportOf(there.answer("json trace-data 1")).told);
        if (account === undefined) break;
        const { at, order: performed } = account;
        const [operation, address] = performed.split(" ");
        if (operation === "r") open = [...open.filter((each) => each !== address), address];
        if (operation === "u") open = open.filter((each) => each !== at);
    }
    const under = open.at(-1);
    return under === undefined ? null : recordsOf(there.answer(`json show-data ${under} 1`))[0].get("order").split(" ")[1];
}

test("finish runs until the routine that is under way returns", async () => {
    const sitting = await satAfter(CALLING);
    let returned = 0;
    for (let orders = 0; orders < 80; orders += 1) {
        const [wanted, before] = [returnAfter(orders), await sitting.engine.ask("json panel-data")];
        const shown = await sitting.type("finish");
        if (wanted === null) {
            assert.match(shown, /^\? 1 Form: finish: no subroutine is under way: no r was performed whose u was not$/m);
            assert.equal(await sitting.engine.ask("json panel-data"), before);
        } else {
            assert.match(shown, /^ {8}called by r at \d{4}; it returns by u \d{4} .*at \d{4}\nran \d+ limit\n {8}the condition is met\n/);
            assert.equal(panelOf(await sitting.engine.ask("json panel-data")).counter, wanted, `after ${orders} orders`);
            await sitting.type(`back ${/^ran (\d+)/m.exec(shown)[1]}`);
            returned += 1;
        }
        await sitting.type("run 1");
    }
    assert.ok(returned > 50, `${returned} returned`);
    await sitting.leave();
});

test("finish is stopped by a rule, and finds a call before the kept steps", async () => {
    const sitting = await satAfter([...callingOf(-2000), "run 7000", "until 0011", "break 0015"]);
    assert.match(await sitting.type("finish"), /^ran 1 rule 0$/m);
    await sitting.type("drop 0");
    for (const wanted of ["0012", "0002"]) {
        assert.match(await sitting.type("finish"), /the condition is met/);
        assert.equal(panelOf(await sitting.engine.ask("json panel-data")).counter, wanted);
    }
    assert.match(await sitting.type("finish"), /no subroutine is under way/);
    // what a loader brings is not under way
    await sitting.type("back 1");
    await sitting.type("load");
    assert.match(await sitting.type("finish"), /no subroutine is under way/);
    sitting.keyboard.isInterrupted = true;
    await sitting.type("run 1");
    assert.match(await sitting.type("finish"), /stopped by Ctrl-C before it was done/);
    await sitting.leave();
});
