// What a client may ask besides: completion in the console, filters of exceptions, memory that changed, places without a line, and taking
// back a request.
import assert from "node:assert/strict";
import { test } from "node:test";
import { Client } from "./client.mjs";

const LOOP = "start   b count\n        a one\n        h count\n        u start\ncount   int 0 30\none     int 1 30\n        end start\n";
const OVER = "first   b half\n        a half\n        h sum\n        z\nhalf    frac .5\nsum     word 00000000\n        end first\n";
const stopped = (client) => client.event("stopped");
const typed = (client, expression) => client.asks("evaluate", { expression, context: "repl" });

test("the console completes commands, labels, buttons, files and the machine's state", async () => {
    const client = new Client({ "/loop": LOOP }, { fileNames: (begun) => ["lines.txt", "list/"].filter((name) => name.startsWith(begun)) });
    await client.launched({ program: "/loop", stopOnEntry: true });
    await stopped(client);
    const targets = async (text, column = text.length + 1) => (await client.asks("completions", { text, column })).targets;
    assert.deepEqual(
        await targets("tra"),
        [
            { label: "trace", text: "trace ", start: 1, length: 3 }, { label: "trace-data", text: "trace-data ", start: 1, length: 3 },
            { label: "transcript", text: "transcript ", start: 1, length: 3 },
        ]
    );
    assert.deepEqual((await targets("words c")).map(({ label, start, length }) => [label, start, length]), [["count", 7, 1]]);
    assert.deepEqual((await targets("words c one", 8)).map(({ label }) => label), ["count"]);
    assert.ok((await targets("press ")).some(({ label }) => label === "manual"));
    assert.deepEqual((await targets("do li")).map(({ label }) => label), ["lines.txt", "list/"]);
    assert.deepEqual(
        await targets("@accumulator-n"), [{ label: "@accumulator-number", text: "@accumulator-number", start: 1, length: 14 }]
    );
    await typed(client, "source");
    assert.deepEqual(await targets("tra"), []);
});

test("an overflow is a stop, or the machine is started again, as the client wants", async () => {
    const client = new Client({ "/over": OVER });
    const { exceptionBreakpointFilters: [filter] } = await client.asks("initialize");
    assert.deepEqual([filter.filter, filter.default], ["overflow", true]);
    const run = async (filters) => {
        if (filters !== null) await client.asks("setExceptionBreakpoints", { filters });
        await client.asks("launch", { program: "/over" });
        await client.asks("configurationDone");
        return (await stopped(client)).reason;
    };
    assert.deepEqual([await run(null), await run([]), await run(["overflow"])], ["exception", "halted stop", "exception"]);
    assert.deepEqual(
        (await client.asks("setExceptionBreakpoints", { filters: ["fly"] })).breakpoints,
        [{ verified: false, message: "there is no filter fly here" }]
    );
    await client.asks("restart", {});
    assert.equal((await stopped(client)).reason, "halted stop");
    await client.asks("restart", { arguments: { program: "/over", stopOnEntry: true } });
    await stopped(client);
    for (const place of ["0001", "0002", "0003"]) {
        await client.asks("next");
        assert.match((await stopped(client)).description, new RegExp(`^a step to ${place}`));
    }
});

test("a client that shows memory is told where it has changed", async () => {
    const client = new Client({ "/loop": LOOP });
    await client.launched({ program: "/loop", stopOnEntry: true }, [], { supportsMemoryEvent: true, supportsInvalidatedEvent: true });
    await stopped(client);
    const whole = { memoryReference: "0000", offset: 0, count: 16_384 };
    await client.asks("setExpression", { expression: "one", value: "= 2" });
    assert.deepEqual(await client.event("memory"), whole);
    await client.asks("writeMemory", { memoryReference: "one", data: "AAAAAA==" });
    assert.deepEqual(await client.event("memory"), whole);
    await typed(client, "press manual");
    assert.deepEqual(await client.event("memory"), whole);
    const silent = new Client({ "/loop": LOOP });
    await silent.launched({ program: "/loop", stopOnEntry: true });
    await stopped(silent);
    await silent.asks("setExpression", { expression: "one", value: "= 2" });
    await silent.asks("threads");
    assert.equal(silent.messages.some(({ event }) => event === "memory"), false);
});

test("a place that no line has is shown in its track, as the drum is then", async () => {
    const client = new Client({ "/loop": LOOP });
    await client.launched({ program: "/loop", stopOnEntry: true });
    await stopped(client);
    await typed(client, "press manual\nput 1203 u 0000\npress normal\ngo 1203");
    await stopped(client);
    const frame = async () => (await client.asks("stackTrace", { threadId: 1 })).stackFrames[0];
    const { name, source, line } = await frame();
    assert.deepEqual([name, source.name, line], ["1203  u 0000", "track 12", 4]);
    const { content } = await client.asks("source", { sourceReference: source.sourceReference });
    assert.equal(content.split("\n").length, 64);
    assert.equal(content.split("\n")[line - 1], "1203  000f0000  u 0000");
    const { breakpoints: [point] } = await client.asks(
        "setBreakpoints", { source: { name: source.name, sourceReference: source.sourceReference }, breakpoints: [{ line: 4 }] }
    );
    assert.deepEqual([point.verified, point.message], [false, "lines of the drum take no breakpoint: set one at an address"]);
    await client.asks("next");
    await stopped(client);
    assert.equal((await frame()).source.path, "/loop");
    await client.asks("stepBack");
    await stopped(client);
    assert.notEqual((await frame()).source.sourceReference, source.sourceReference);
});

test("a request that waits can be taken back, and a long run of the console ends at a pause", async () => {
    const client = new Client({ "/loop": LOOP });
    await client.launched({ program: "/loop", stopOnEntry: true });
    await stopped(client);
    const long = client.response("evaluate", { expression: "run 9999999999", context: "repl" });
    const waiting = client.response("evaluate", { expression: "words one 1", context: "watch" });
    const seq = client.lastSequence;
    await new Promise((resume) => { setTimeout(resume, 50); });
    await client.asks("cancel", { requestId: seq });
    const { success, message } = await waiting;
    assert.deepEqual([success, message], [false, "cancelled"]);
    assert.match((await long).body.result, /^ran \d+00000 limit$/);
    // one that has not begun ends as well
    const [first, second] = [0, 1].map(() => client.response("evaluate", { expression: "run 9999999999", context: "repl" }));
    await client.asks("pause");
    for (const ran of [first, second]) assert.match((await ran).body.result, /^ran \d+00000 limit$/);
    const again = client.response("evaluate", { expression: "run 9999999999", context: "repl" });
    await new Promise((resume) => { setTimeout(resume, 50); });
    await client.asks("pause");
    assert.match((await again).body.result, /^ran \d+00000 limit$/);
    assert.equal((await typed(client, "run 9")).result, "ran 9 limit");
    const before = client.messages.length;
    assert.match((await typed(client, "json rules-data\njson state-data")).result, /^\{"counter"/);
    assert.equal(client.messages.slice(before).some(({ event }) => event === "stopped"), false);
});

test("opening scopes and watches reads no transcript", async () => {
    const client = new Client({ "/loop": LOOP });
    await client.launched({ program: "/loop", stopOnEntry: true });
    await stopped(client);
    await typed(client, "run 2000");
    await stopped(client);
    const { Session } = await import("../../libraries/javascript/session.mjs");
    const { bytesFor } = Session.prototype;
    const lines = [];
    Session.prototype.bytesFor = function (line) {
        lines.push(new TextDecoder().decode(line));
        return bytesFor.call(this, line);
    };
    try {
        for (const scope of ["Registers", "Switches", "Tape", "Labels", "Kept steps"]) await client.scope(scope);
        for (const expression of [
            "count", "@counter", "words one 1", "why count",
        ]) await client.asks("evaluate", { expression, context: "watch" });
        await client.refused("evaluate", { expression: "nobody", context: "watch" });
    } finally {
        Session.prototype.bytesFor = bytesFor;
    }
    assert.deepEqual(lines.filter((line) => /^ *transcript/.test(line)), []);
    assert.doesNotMatch((await typed(client, "transcript")).result, /back|words|why|nobody|\u0001|\u0002/);
});
