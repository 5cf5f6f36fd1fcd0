// The moments of a session: whatever was done, a line that is asked at an order is answered as in a second laboratory that never went
// further, and so it is where a session has gone there.
import assert from "node:assert/strict";
import { readFileSync } from "node:fs";
import { test } from "node:test";
import { Laboratory, Refusal } from "../laboratory.mjs";
import { startsOf } from "../replies.mjs";
import { compiled } from "../session.mjs";
import { chance } from "./chance.mjs";

const module = await compiled(readFileSync(new URL("../lgp_c_region.wasm", import.meta.url)));
const [SESSIONS, LINES, FEW, MOMENTS] = [8, 40, 12, 20];

const ORDERS = "zbyrdnmpieuthacs".split("");
const BUTTONS = [
    "start", "manual", "normal", "oneop", "clear", "fill", "execute", "compute", "read", "bp32 down", "bp32 up", "transfer down",
    "sixbit down",
];
const PRINTS = ["press manual", "put 0000 p =h", "put 0001 z", "put 0002 i 0000", "put 0003 p =i", "put 0004 z", "go 0000"];
const SOURCE = [
    "source", "first b count", " a one", " h count", " p =a", " i 0000", " u first", "count int 3 30", "one int 1 30", " end first", ".",
];

/** A line, or several, of a person who tries everything. */
function typed(by) {
    const address = () => `00${String(by.below(24)).padStart(2, "0")}`;
    const kinds = [
        () => [`put ${address()} ${by.of(ORDERS)} ${address()}`],
        () => [`put ${address()} = ${by.below(1000)}`],
        () => [`press ${by.of(BUTTONS)}`],
        () => [`type ${by.of(["1", "0000fff0", "a", "'", "u0004"])}`],
        () => [`mount ${by.of(["12'34'", "abc", "0"])}`],
        () => [`turn ${by.below(99)}`],
        () => [`run ${by.below(60)}`], () => [`orders ${by.below(60)}`], () => [`run ${by.below(300)}`], () => [`back ${by.below(4)}`],
        () => ["last"],
        () => [`break ${address()}`],
        () => [`watch ${address()}`],
        () => ["drop 0"],
        () => ["load"],
        () => SOURCE,
        () => ["press manual", "press normal", "press start"],
        () => [...by.of([PRINTS, []]), `operate ${2 + by.below(9)}`],
        () => ["; a note"], () => ["no such command"], () => ["panel"], () => [`go ${address()}`], () => [`run 80 until ${address()}`],
    ];
    return by.of(kinds)();
}

function answered(laboratory, line) {
    try {
        return laboratory.answer(line);
    } catch (refusal) {
        if (!(refusal instanceof Refusal)) throw refusal;
        return refusal.message;
    }
}

/** The lines that one stands for: `operate` for runs with presses of Start between them. */
function partsOf(line, laboratory, reply) {
    if (!line.startsWith("operate")) return [line];
    return laboratory.transcript().split("\n").slice(0, -1).slice(-1 - 2 * startsOf(reply));
}

/** How many orders a line performed, as its reply says. */
function performed(line, reply) {
    if (line.startsWith("go ")) return reply.includes("orders 1 ") ? 1 : 0;
    return Number(/^(?:ran|orders) (\d+) /m.exec(reply)?.[1] ?? 0);
}

/** A second laboratory, which does what was done before an order, and no more. */
function before(done, order) {
    const laboratory = new Laboratory(module);
    let left = order;
    for (const { line, orders } of done) {
        if (left < orders) {
            if (left > 0) answered(laboratory, `orders ${left}`);
            return laboratory;
        }
        answered(laboratory, line);
        left -= orders;
    }
    return laboratory;
}

const ASKED = [
    "transcript", "panel", "dump", "printed", "rules", "labels", "why 0003", "json state-data", "json tape-data", "json paper-data 0",
    "words 0000 24",
];
/** Lines that do something, each in a laboratory of its own. */
const DONE = ["trace 9", "back 2", "last"];

/** A session that does the lines of a transcript again. */
function again(transcript) {
    const there = new Laboratory(module);
    for (const line of transcript.split("\n").slice(0, -1)) answered(there, line);
    return there;
}

/** A session that did all that another one did, and then went to an order. */
function gone(laboratory, order) {
    const there = again(laboratory.transcript());
    there.to(order);
    return there;
}

/**
 * A session of lines by chance. A jump may begin within `go`, which is one line here and eight in a script, so that its order is not asked
 * for.
 */
function session(seed, lines = LINES) {
    const [by, laboratory, twin, done, held] = [chance(seed), new Laboratory(module), new Laboratory(module), [], new Set()];
    let count = 0;
    for (let at = 0; at < lines; at++) {
        for (const line of typed(by)) {
            for (const part of partsOf(line, laboratory, answered(laboratory, line))) {
                const orders = performed(part, answered(twin, part));
                if (part.startsWith("go ") && orders > 0) held.add(count);
                done.push({ line: part, orders });
                count += orders;
            }
        }
    }
    twin.close();
    return { by, laboratory, done, count, held };
}

test("a session's moments are those of a laboratory that never went further", () => {
    let [compared, started] = [0, 0];
    for (let seed = 1; seed <= SESSIONS; seed++) {
        const { by, laboratory, done, count, held } = session(seed);
        started += done.filter(({ line }, at) => line === "press start" && done[at + 1]?.line.startsWith("run ")).length;
        const [now, transcript] = [laboratory.answer("json state-data"), laboratory.transcript()];
        for (const order of [0, count, ...Array.from({ length: MOMENTS }, () => by.below(count + 1))].filter((one) => !held.has(one))) {
            const there = gone(laboratory, order);
            const others = [ASKED, ...DONE.map((line) => [line])].map((lines) => ({ lines, other: before(done, order) }));
            for (const { line, other } of others.flatMap(({ lines, other }) => lines.map((line) => ({ line, other })))) {
                assert.equal(
                    answered(laboratory, `at ${order} ${line}`), answered(other, line), `session ${seed}, order ${order}: ${line}`
                );
                compared += 1;
            }
            const never = before(done, order);
            for (const line of [...ASKED, ...DONE]) {
                assert.equal(answered(there, line), answered(never, line), `session ${seed}, gone to order ${order}: ${line}`);
            }
            for (const { other } of [...others, { other: never }, { other: there }]) other.close();
        }
        assert.throws(() => laboratory.answer(`at ${count + 1} panel`), ({ kind, detail }) => kind === "TooFar" && detail === count);
        assert.deepEqual([laboratory.answer("json state-data"), laboratory.transcript()], [now, transcript]);
        laboratory.close();
    }
    assert.ok(compared > 1000, `only ${compared} answers were compared`);
    assert.ok(started > 5, `Start was pressed between runs ${started} times`);
});

/** Conditions, each with whether an order meets it, by the laboratories before it and after it. */
function conditions(by, clock) {
    const wordIn = (laboratory, address) => laboratory.words(address, 1).get(address);
    const codesIn = (laboratory) => Number(/^printed (\d+)/.exec(laboratory.answer("printed"))[1]);
    const comes = (holds) => (before, after) => !holds(before) && holds(after);
    const addresses = Array.from({ length: 4 }, () => `00${String(by.below(24)).padStart(2, "0")}`);
    const times = 1 + by.below(Number(clock));
    return [
        ...addresses.map((address) => [`changed ${address}`, (before, after) => wordIn(before, address) !== wordIn(after, address)]),
        ...addresses.map((address) => [
            address, (before, after) => after.panel().status === "going" && after.panel().counter === address,
        ]),
        ["printed 1", comes((laboratory) => codesIn(laboratory) >= 1)],
        [`clock ${times}`, comes((laboratory) => laboratory.panel().clock >= times)],
    ];
}

/** The numbers of the orders of a session that meet each condition. */
function meeting(done, count, asked) {
    const met = asked.map(() => []);
    for (let order = 0; order < count; order++) {
        const [from, to] = [before(done, order), before(done, order)];
        to.answer("orders 1");
        for (const [at, [, meets]] of asked.entries()) if (meets(from, to)) met[at].push(order);
        from.close();
        to.close();
    }
    return met;
}

/** A laboratory brought to the order that is sought, and one that never went further, or did all where there is no such order. */
function compareSought({ done, count, transcript }, which, condition, order) {
    const [other, there] = [again(transcript), before(done, order ?? count)];
    const come = () => other.to({ [which]: condition });
    if (order === undefined) assert.throws(come, ({ kind, detail }) => kind === "NoHit" && detail === count);
    else assert.equal(come(), order, `to ${which} ${condition}`);
    for (const line of ASKED) assert.equal(answered(other, line), answered(there, line), `to ${which} ${condition}: ${line}`);
    other.close();
    there.close();
}

test("an order that is sought is the one that each order, looked at by itself, says", () => {
    let [found, searched] = [0, 0];
    for (let seed = 1; searched < SESSIONS; seed++) {
        const { by, laboratory, done, count, held } = session(seed, FEW);
        const [transcript, { clock }] = [laboratory.transcript(), laboratory.panel()];
        laboratory.close();
        if (held.size > 0 || count < 10 || count > 300) continue;
        searched += 1;
        const asked = conditions(by, clock);
        for (const [at, orders] of meeting(done, count, asked).entries()) {
            compareSought({ done, count, transcript }, "first", asked[at][0], orders[0]);
            compareSought({ done, count, transcript }, "last", asked[at][0], orders.at(-1));
            found += orders.length > 0 ? 1 : 0;
        }
    }
    assert.ok(found > SESSIONS, `only ${found} conditions were met`);
});

test("a laboratory goes to an order, and on from there", async () => {
    const laboratory = await Laboratory.open();
    for (const line of SOURCE) laboratory.answer(line);
    laboratory.load();
    const { orders } = laboratory.run(40);
    const other = laboratory.at(2);
    assert.equal(laboratory.to(2), 2);
    assert.deepEqual([laboratory.panel(), laboratory.transcript()], [other.panel(), other.transcript()]);
    assert.throws(() => laboratory.to(3), ({ kind, detail }) => kind === "TooFar" && detail === 2);
    assert.equal(laboratory.run(orders - 2).orders, orders - 2);
    assert.equal(laboratory.to({ first: "changed count" }), 2);
    assert.throws(() => laboratory.to({ last: "printed 99" }), ({ kind, detail }) => kind === "NoHit" && detail === 2);
    for (const wrong of [null, undefined, {}, "5", { first: 5 }, { next: "count" }, { first: "count", last: "count" }]) {
        assert.throws(() => laboratory.to(wrong), TypeError);
    }
    assert.throws(() => laboratory.to(-1), RangeError);
});

test("a laboratory of its own goes on from a moment", async () => {
    const laboratory = await Laboratory.open();
    for (const line of SOURCE) laboratory.answer(line);
    laboratory.load();
    laboratory.run(40);
    const there = laboratory.at(2);
    assert.deepEqual([there.panel().counter, there.numbers("count").size, laboratory.numbers("count").size], ["0002", 1, 1]);
    there.step();
    assert.deepEqual(there.panel(), laboratory.at(3).panel());
    const clocks = [...laboratory.moments(2)].map((moment) => moment.panel().clock);
    assert.equal(clocks.length, Math.floor(laboratory.lastRun.orders / 2) + 1);
    assert.deepEqual(clocks, [...clocks].sort((one, other) => Number(one - other)));
    assert.throws(() => laboratory.at(1000), ({ kind }) => kind === "TooFar");
    assert.throws(() => [...laboratory.moments(0)], RangeError);
});
