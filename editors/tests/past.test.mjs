// The way back beyond the steps that are kept: each moment of the past is the one that it was, and what was done later is not lost.
import assert from "node:assert/strict";
import { test } from "node:test";
import { Past } from "../debug/past.mjs";
import { linesIn } from "../../libraries/javascript/lines.mjs";
import { TextSession } from "../../libraries/javascript/text_session.mjs";
import { lastOf, isRefusal, runOf } from "../../libraries/javascript/replies.mjs";
import { Client, openSession } from "./client.mjs";
import { Chance } from "./random/chance.mjs";

const COUNTS = `start   h flag
        b count
loop    a one
        h count
        u loop
count   int 0 30
one     int 1 30
flag    int 7 30
        end start
`;
/** What brings a loop that counts into a machine and starts it. */
const BEGUN = ["put 0000 b 0010", "put 0001 a 0011", "put 0002 h 0010", "put 0003 u 0000", "put 0011 = 1", "press start"];
const stopped = async (client) => (await client.event("stopped")).description;
const valueOf = async (client, expression) => (await client.asks("evaluate", { expression, context: "watch" })).result;
const types = async (client, expression) => {
    await client.asks("evaluate", { expression, context: "repl" });
    return stopped(client);
};
const stateOf = async (client) => Promise.all(["@clock", "@counter", "@accumulator", "count", "flag"].map((it) => valueOf(client, it)));

/** A client whose program has performed `orders` orders. */
async function after(orders, options) {
    const client = new Client({ "/counts": COUNTS }, options);
    await client.launched({ program: "/counts", stopOnEntry: true });
    await stopped(client);
    if (orders > 0) await types(client, `run ${orders}`);
    return client;
}

test("a step back goes on where no more steps are kept", async () => {
    const client = await after(10_000);
    await types(client, "back 4096");
    assert.equal(await valueOf(client, "@kept"), "0");
    await client.asks("stepBack");
    assert.match(await stopped(client), /^a step back to /);
    assert.deepEqual(await stateOf(client), await stateOf(await after(5903)));
    assert.equal(await valueOf(client, "@kept"), "4095");
});

test("a run goes back to the order that changed a word in the beginning, and to a breakpoint there", async () => {
    const client = await after(30_000);
    const { dataId } = await client.asks("dataBreakpointInfo", { name: "flag" });
    await client.asks("setDataBreakpoints", { breakpoints: [{ dataId }] });
    await client.asks("reverseContinue");
    assert.equal(await stopped(client), "back to 0000 start, where a watched word is about to change");
    assert.deepEqual(await stateOf(client), await stateOf(await after(0)));
    await client.asks("continue");
    assert.match(await stopped(client), /flag/);
    await client.asks("setDataBreakpoints", { breakpoints: [] });
    const [point] = (await client.asks("setFunctionBreakpoints", { breakpoints: [{ name: "start" }] })).breakpoints;
    await types(client, "run 20000");
    await client.asks("reverseContinue");
    const stop = await client.event("stopped");
    assert.deepEqual([stop.description, stop.hitBreakpointIds], ["back to a breakpoint at 0000 start", [point.id]]);
    await client.asks("setFunctionBreakpoints", { breakpoints: [] });
    await types(client, "run 20000");
    await client.asks("reverseContinue");
    assert.equal(await stopped(client), "the end of the way back, at 0000 start: it hits no breakpoint");
    assert.deepEqual(await stateOf(client), await stateOf(await after(0)));
});

test("what an operator did later is taken back, told, and kept", async () => {
    const kept = [];
    const shelf = {
        keepSession: (text) => kept.push(text), putSessionAway: () => kept.push(null), keepSource() {}, dropSource() {}, trouble: null,
    };
    const client = await after(100, { shelf });
    for (const line of ["press manual", "put 0100 z", "press normal", "press start"]) await types(client, line);
    await types(client, "run 5000");
    await client.asks("reverseContinue");
    assert.match(await stopped(client), /^the end of the way back/);
    assert.deepEqual(await stateOf(client), await stateOf(await after(0)));
    const told = client.messages.filter(({ event, body }) => event === "output" && body.output.startsWith("taken back"));
    assert.deepEqual(told.map(({ body }) => body.output), ["taken back, since it was done later: press manual and 3 more\n"]);
    const away = kept.lastIndexOf(null);
    assert.match(kept[away - 1], /run 100\npress manual\nput 0100 00000000\npress normal\npress start\nrun 5000\n$/);
    assert.match(kept.at(-1), /orders 1\nback 1\n$/);
});

test("a long way back ends with a pause, and all is as before", async () => {
    const client = await after(3_000_000);
    await client.asks("setFunctionBreakpoints", { breakpoints: [{ name: "start" }] });
    const before = await stateOf(client);
    const gone = client.asks("reverseContinue");
    await client.asks("pause");
    await gone;
    assert.match(await stopped(client), /^a pause at \d{4}/);
    assert.deepEqual(await stateOf(client), before);
});

/** A session at random: what was done in it, and of each order on the way to its present which of all that were performed it is. */
function played(chance) {
    const session = new TextSession(openSession());
    const [lines, way] = [[], []];
    let performed = 0;
    const does = (line) => {
        lines.push(line);
        return session.answer(line);
    };
    const runs = (limit) => {
        const { orders } = runOf(does(`run ${limit}`));
        for (let order = 0; order < orders; order += 1) way.push(performed++);
    };
    const performs = (line) => {
        const reply = does(line);
        const orders = /^orders (\d+)/m.exec(reply)?.[1] ?? "0";
        for (let order = 0; order < Number(orders); order += 1) way.push(performed++);
    };
    const goesBack = (line, ordersOf) => {
        const reply = does(line);
        if (!isRefusal(reply)) way.length -= ordersOf(reply);
    };
    BEGUN.forEach(does);
    for (let deed = 0; deed < 30; deed += 1) chance.of([
        () => runs(chance.below(20)), () => runs(chance.below(3000)), () => runs(chance.below(6)),
        () => { const orders = chance.below(9); goesBack(`back ${orders}`, () => orders); },
        () => goesBack("last", (reply) => lastOf(reply).orders),
        () => does(`break 000${chance.below(6)}`), () => does("watch 0010"), () => does("drop 0"),
        () => ["press manual", `put 0011 = ${chance.below(9)}`, "press normal", "press start"].forEach(does),
        () => does(`press bp4 ${chance.of(["up", "down"])}`),
        () => performs(`orders ${chance.below(40)}`), () => performs("go 0000"),
    ])();
    return { session, lines, way };
}

test("each moment that is come back to is the one of the proved session", async () => {
    const chance = new Chance(1956);
    let compared = 0;
    for (let round = 0; round < 8; round += 1) {
        const { session, lines, way } = played(chance);
        const past = new Past(openSession, async () => {});
        await past.follow(linesIn(session.answer("transcript")), BEGUN.length);
        assert.equal(past.orders, way.length);
        for (let moment = 0; moment < 20 && way.length > 0; moment += 1) {
            const order = chance.below(way.length);
            const there = new TextSession((await past.openedAfter(order + 1)).opened);
            assert.equal(isRefusal(there.answer("back 1")), false);
            for (const asked of ["panel-data", "words 0000 24", "paper", "rules"]) {
                const told = asked === "rules" ? session.answer(asked) : session.answer(`at ${way[order]} ${asked}`);
                assert.equal(there.answer(asked), told, `${asked} at ${order} of ${lines.join("; ")}`);
                compared += 1;
            }
        }
    }
    assert.ok(compared > 400, `${compared} compared`);
});

test("the loader's orders are no part of the way back, and neither is a run that was refused", async () => {
    const source = ["source", ...COUNTS.trimEnd().split("\n"), "."];
    const lines = [...BEGUN, "run 10", "run 5 until", "press manual", ...source, "load", "orders 7"];
    const session = new TextSession(openSession());
    for (const line of lines) session.answer(line);
    const past = new Past(openSession, async () => {});
    await past.follow(linesIn(session.answer("transcript")), BEGUN.length);
    assert.equal(past.orders, 17);
    for (const order of [3, 9, 10, 12, 16]) {
        const there = new TextSession((await past.openedAfter(order + 1)).opened);
        assert.equal(isRefusal(there.answer("back 1")), false);
        assert.equal(there.answer("panel-data"), session.answer(`at ${order} panel-data`), `at ${order}`);
    }
});
