import assert from "node:assert/strict";
import { test } from "node:test";
import { NoMemory, Session, bytesOf, textOf } from "../../libraries/javascript/session.mjs";
import { Client } from "./client.mjs";

const SUM = [
    "first   b two", "        a three", "        h sum", "        z", "two     int 2 30", "three   int 3 30", "sum     int 0 30",
    "        end first", "",
].join("\n");
const LOOP = [
    "start   b count", "        a one", "        h count", "        p =a", "        u start", "count   int 0 30", "one     int 1 30",
    "        end start", "",
].join("\n");
const files = { "/sum": SUM, "/loop": LOOP, "/faulty": " b none\n", "/tape": "12'\n", "/bad": "12A" };

const clientOf = (options) => new Client({ ...files }, options);

test("a program is loaded, and stops at a breakpoint, at its end, and one step further back", async () => {
    const client = clientOf();
    const [breakpoint] = await client.launched({ program: "/sum" }, [{ line: 2 }]);
    assert.deepEqual([breakpoint.verified, breakpoint.line, breakpoint.instructionReference], [true, 2, "0001"]);
    const stop = await client.event("stopped");
    assert.deepEqual([stop.reason, stop.hitBreakpointIds, stop.description], ["breakpoint", [breakpoint.id], "a breakpoint at 0001"]);
    const { stackFrames: [frame] } = await client.asks("stackTrace", { threadId: 1 });
    assert.deepEqual([frame.name, frame.line, frame.source.path, frame.instructionPointerReference], ["0001  a 0005", 2, "/sum", "0001"]);
    await client.asks("continue", { threadId: 1 });
    const end = await client.event("stopped");
    assert.deepEqual([end.reason, end.description], ["halted stop", "a stop order halted the machine: press start to continue"]);
    await client.asks("stepBack", { threadId: 1 });
    assert.equal((await client.event("stopped")).reason, "step");
    assert.equal((await client.asks("stackTrace", { threadId: 1 })).stackFrames[0].line, 4);
    await client.asks("next", { threadId: 1 });
    assert.equal((await client.event("stopped")).reason, "halted stop");
});

test("registers, switches, tape, labels and kept steps are scopes", async () => {
    const client = clientOf();
    await client.launched({ program: "/sum", tape: "/tape", switches: { transfer: "down" } });
    await client.event("stopped");
    const registers = await client.scope("Registers");
    assert.match(registers.of("accumulator").value, /^0000000f  5$/);
    assert.equal((await client.scope("Switches")).of("transfer").value, "down");
    assert.equal((await client.scope("Tape")).of("left").value, "12'");
    const labels = await client.scope("Labels");
    assert.match(labels.of("sum").value, /^0000000f  5 /);
    const { variables: why } = await client.asks("variables", { variablesReference: labels.of("sum").variablesReference });
    assert.equal(why.find(({ name }) => name === "by-order").value, "h 0006");
    const steps = await client.scope("Kept steps");
    assert.deepEqual(steps.variables.map(({ name }) => name), ["kept", "1 ago", "2 ago", "3 ago", "4 ago"]);
    assert.match(steps.of("2 ago").value, /^0002  h 0006/);
    assert.match((await client.scope("Registers")).of("accumulator").value, /^0000000f/);
});


test("a watch tells who wrote the word, and who wrote it before", async () => {
    const client = clientOf();
    await client.asks("initialize");
    await client.asks("launch", { program: "/loop" });
    const { dataId, accessTypes } = await client.asks("dataBreakpointInfo", { name: "count" });
    assert.deepEqual([dataId, accessTypes], ["0005", ["write"]]);
    const { breakpoints: [watch] } = await client.asks("setDataBreakpoints", { breakpoints: [{ dataId }] });
    await client.asks("configurationDone");
    const first = await client.event("stopped");
    assert.deepEqual([first.reason, first.hitBreakpointIds], ["data breakpoint", [watch.id]]);
    assert.match(first.description, /^0005 count: 00000002 .*put there by h 0005/);
    assert.doesNotMatch(first.text, /put there by/);
    await client.asks("continue");
    const second = await client.event("stopped");
    assert.match(second.description, /^0005 count: 00000004 .*put there by h 0005 .* 1 order ago; before it was/);
    assert.match(second.text, /^0005 count: 00000002 .*put there by h 0005/);
    assert.ok(client.output("console").endsWith(`${second.description}\nbefore that: ${second.text}\n`));
    assert.deepEqual(
        await client.asks("dataBreakpointInfo", { name: "nobody" }), { dataId: null, description: "nobody is no word of the drum" }
    );
});

test("a logpoint writes and goes on, and a hit count waits", async () => {
    const client = clientOf();
    const [log, count, bad] = await client.launched(
        { program: "/loop" },
        [
            { line: 2, logMessage: "count {count} at {@counter}, {nobody}" }, { line: 5, hitCondition: "3" },
            { line: 1, hitCondition: "often" },
        ]
    );
    assert.deepEqual([log.verified, count.verified, bad.verified], [true, true, false]);
    assert.match(bad.message, /write a number/);
    assert.deepEqual((await client.event("stopped")).hitBreakpointIds, [count.id]);
    const logged = client.output("console").split("\n");
    assert.equal(logged.length, 4);
    assert.match(logged[2], /^count 00000004 .* at 0001, \? 1 Form: nobody is not a label/);
    assert.equal(client.output("stdout"), "aaa");
});

test("a count of hits is a number, or one after a sign; and there are 64 rules", async () => {
    const client = clientOf();
    await client.launched({ program: "/loop", stopOnEntry: true });
    await client.event("stopped");
    const stopsOf = async (hitCondition) => {
        await client.asks("setFunctionBreakpoints", { breakpoints: [{ name: "start", hitCondition }] });
        await client.asks("restart", {});
        await client.event("stopped");
        await client.asks("continue");
        await client.event("stopped");
        return /  (\d+)  \./.exec((await client.scope("Labels")).of("count").value)[1];
    };
    assert.deepEqual(
        [await stopsOf("3"), await stopsOf("=2"), await stopsOf("==2"), await stopsOf(">3"), await stopsOf(">=3"), await stopsOf("%2")],
        ["3", "2", "2", "4", "3", "2"]
    );
    const many = Array.from({ length: 65 }, (_, at) => ({ name: `start+${at}` }));
    const { breakpoints } = await client.asks("setFunctionBreakpoints", { breakpoints: many });
    assert.deepEqual(breakpoints.map(({ verified }) => verified).filter((is) => !is).length, 1);
    assert.match(breakpoints[64].message, /^\? 5 Full/);
});

test("a breakpoint is moved to a line that makes a word, and set by label and by address", async () => {
    const client = clientOf();
    client.files["/gap"] = "; head\n\nstart   z\n        org 0100\nlater   z\n        end start\n; end\n";
    const set = await client.launched({ program: "/gap", stopOnEntry: true }, [{ line: 1 }, { line: 7 }]);
    assert.deepEqual(set.map(({ verified, line }) => [verified, line]), [[true, 3], [false, 7]]);
    assert.equal((await client.event("stopped")).reason, "entry");
    const { breakpoints: named } = await client.asks(
        "setFunctionBreakpoints", { breakpoints: [{ name: "later" }, { name: "later+1" }, { name: "nobody" }] }
    );
    assert.deepEqual(named.map(({ instructionReference }) => instructionReference), ["0100", "0101", undefined]);
    assert.match(named[2].message, /nobody is not a label/);
    const { breakpoints: [placed] } = await client.asks(
        "setInstructionBreakpoints", { breakpoints: [{ instructionReference: "0100", offset: 8 }] }
    );
    assert.equal(placed.instructionReference, "0102");
    const { breakpoints: [past] } = await client.asks(
        "setInstructionBreakpoints", { breakpoints: [{ instructionReference: "6363", offset: 4 }] }
    );
    assert.match(past.message, /6363\+1 is not on the drum/);
    await client.asks("setInstructionBreakpoints", { breakpoints: [{ instructionReference: "0100", offset: 8 }] });
    assert.deepEqual(
        (await client.asks("breakpointLocations", { source: { path: "/gap" }, line: 1, endLine: 9 })).breakpoints,
        [{ line: 3 }, { line: 5 }]
    );
    assert.match(
        (await client.asks("evaluate", { expression: "rules", context: "repl" })).result,
        /^rule 0 break 0000 start\nrule 1 break 0100 later\nrule 2 break 0101\nrule 3 break 0102$/
    );
    await client.asks("setFunctionBreakpoints", { breakpoints: [] });
    assert.equal(
        (await client.asks("evaluate", { expression: "rules", context: "repl" })).result, "rule 0 break 0000 start\nrule 1 break 0102"
    );
});

test("a run goes back to the last breakpoint, and then to the first order", async () => {
    const client = clientOf();
    const [point] = await client.launched({ program: "/loop" }, [{ line: 3 }]);
    await client.event("stopped");
    await client.asks("continue");
    await client.event("stopped");
    await client.asks("reverseContinue");
    assert.deepEqual((await client.event("stopped")).hitBreakpointIds, [point.id]);
    await client.asks("reverseContinue");
    const first = await client.event("stopped");
    assert.deepEqual([first.reason, first.description], ["entry", "the end of the way back, at 0000 start: it hits no breakpoint"]);
    for (const command of ["reverseContinue", "stepBack"]) {
        await client.asks(command);
        const { reason, description } = await client.event("stopped");
        assert.deepEqual([reason, description], ["entry", "the end of the way back, at 0000 start: the program begins here"], command);
    }
});

test("words, switches, registers, counter, mode and tape are set as the console can", async () => {
    const client = clientOf();
    await client.launched({ program: "/sum", stopOnEntry: true }, [{ line: 3 }]);
    await client.event("stopped");
    const labels = await client.scope("Labels");
    assert.match(
        (await client.asks("setVariable", { variablesReference: labels.variablesReference, name: "two", value: "= 20" })).value,
        /^00000028  .*  20  /
    );
    const registers = await client.scope("Registers");
    const set = async (name, value) => (await client.asks(
        "setVariable", { variablesReference: registers.variablesReference, name, value }
    )).value;
    assert.match(await set("accumulator", "= 7"), /^0000000q /);
    assert.match(await set("register", "b 0300"), /^00010300|^0001/);
    assert.match(await set("accumulator", "= 7"), /^0000000q/);
    assert.match(await set("counter", "three"), /^0005  three/);
    assert.match((await client.scope("Registers")).of("accumulator").value, /^0000000q/);
    assert.equal(await set("mode", "manual"), "manual");
    assert.match(await set("accumulator", "= 9"), /^00000012/);
    assert.equal(await set("mode", "oneop"), "oneop");
    assert.match(
        await client.refused("setVariable", { variablesReference: registers.variablesReference, name: "clock", value: "0" }),
        /^the console sets counter, accumulator, register, mode and the switches, not clock$/
    );
    assert.match(
        await client.refused("setVariable", { variablesReference: registers.variablesReference, name: "accumulator", value: "00000001" }),
        /^\? 1 Form/
    );
    const switches = await client.scope("Switches");
    assert.equal(
        (await client.asks("setVariable", { variablesReference: switches.variablesReference, name: "bp4", value: "down" })).value, "down"
    );
    const tape = await client.scope("Tape");
    assert.equal(
        (await client.asks("setVariable", { variablesReference: tape.variablesReference, name: "left", value: "12'" })).value, "12'"
    );
    assert.equal((await client.asks("setVariable", { variablesReference: tape.variablesReference, name: "left", value: "" })).value, "");
    assert.match((await client.asks("setExpression", { expression: "sum", value: ".5" })).value, /^40000000/);
    assert.equal((await client.asks("setExpression", { expression: "@sixbit", value: "down" })).value, "down");
    assert.match(await client.refused("setExpression", { expression: "nobody", value: "0" }), /not a label/);
});

test("the drum is read and written as bytes, and shown as instructions", async () => {
    const client = clientOf();
    await client.launched({ program: "/sum", stopOnEntry: true });
    await client.event("stopped");
    const bytesAt = async (given) => [...Buffer.from((await client.asks("readMemory", given)).data, "base64")];
    assert.deepEqual(await bytesAt({ memoryReference: "two", count: 8 }), [0, 0, 0, 4, 0, 0, 0, 6]);
    assert.deepEqual(await bytesAt({ memoryReference: "two", offset: 3, count: 2 }), [4, 0]);
    assert.deepEqual(
        await client.asks("readMemory", { memoryReference: "6363", offset: 4, count: 8 }), { address: "6363", unreadableBytes: 8 }
    );
    assert.equal((await client.asks("readMemory", { memoryReference: "6363", count: 8 })).unreadableBytes, 4);
    assert.deepEqual(
        await client.asks("writeMemory", { memoryReference: "two", offset: 3, data: Buffer.from([8, 0]).toString("base64") }),
        { bytesWritten: 2 }
    );
    assert.deepEqual(await bytesAt({ memoryReference: "two", count: 8 }), [0, 0, 0, 8, 0, 0, 0, 6]);
    assert.match(
        await client.refused("writeMemory", { memoryReference: "two", data: Buffer.from([0, 0, 0, 1]).toString("base64") }), /^\? 1 Form/
    );
    assert.match(
        await client.refused("writeMemory", { memoryReference: "6363", data: Buffer.alloc(8).toString("base64") }), /not all on the drum/
    );
    const { instructions } = await client.asks("disassemble", { memoryReference: "0000", instructionOffset: -1, instructionCount: 3 });
    assert.deepEqual(
        instructions.map(({ instruction, line, symbol }) => [instruction, line, symbol]),
        [["not on the drum", undefined, undefined], ["b 0004", 1, "first"], ["a 0005", 2, undefined]]
    );
    assert.equal(
        (await client.asks(
            "disassemble", { memoryReference: "6363", instructionCount: 3 }
        )).instructions.filter(({ instruction }) => instruction === "not on the drum").length,
        2
    );
    assert.match(await client.refused("readMemory", { memoryReference: "6464", count: 4 }), /6464 is not an address/);
});

test("a label past the drum says that it is, and the labels of a long source come at once", async () => {
    const client = clientOf();
    client.files["/past"] = " org 6363\nlast z\npast\n end last\n";
    client.files["/long"] = `${Array.from({ length: 4000 }, (_, at) => `l${at} z`).join("\n")}\n end l0\n`;
    await client.launched({ program: "/past", stopOnEntry: true });
    await client.event("stopped");
    assert.deepEqual(
        (await client.scope("Labels")).variables.map(({ name, value }) => [name, value]),
        [["last", "00000000  z 0000  0  .0000000000"], ["past", "? 1 Form: past is not on the drum"]]
    );
    await client.asks("restart", { arguments: { program: "/long", stopOnEntry: true } });
    await client.event("stopped");
    assert.equal((await client.scope("Labels")).variables.length, 4000);
});

test("a place is gone to, and the accumulator stays", async () => {
    const client = clientOf();
    await client.launched({ program: "/sum" }, [{ line: 2 }]);
    await client.event("stopped");
    const { targets: [target] } = await client.asks("gotoTargets", { source: { path: "/sum" }, line: 4 });
    assert.deepEqual([target.label, target.line], ["0003", 4]);
    await client.asks("goto", { threadId: 1, targetId: target.id });
    assert.equal((await client.event("stopped")).reason, "goto");
    assert.equal((await client.asks("stackTrace", { threadId: 1 })).stackFrames[0].line, 4);
    assert.match((await client.scope("Registers")).of("accumulator").value, /^00000004/);
    assert.deepEqual(await client.asks("gotoTargets", { source: { path: "/other" }, line: 4 }), { targets: [] });
});

test("expressions are labels, addresses, registers and lines that ask; the console takes every line", async () => {
    const client = clientOf();
    await client.launched({ program: "/sum", stopOnEntry: true });
    await client.event("stopped");
    const evaluated = async (expression, context) => (await client.asks("evaluate", { expression, context })).result;
    assert.match(await evaluated("two", "hover"), /^00000004  .*  2  /);
    assert.match(await evaluated("0005", "watch"), /^00000006/);
    assert.equal(await evaluated("@counter", "watch"), "0000");
    assert.equal(await evaluated("words two 1", "watch"), "0004 00000004");
    assert.match(await client.refused("evaluate", { expression: "run 1", context: "watch" }), /no address and no label/);
    assert.equal(await evaluated("run 1", "repl"), "ran 1 limit");
    assert.equal((await client.event("stopped")).reason, "console");
    assert.match(await client.refused("evaluate", { expression: "jump 0100", context: "repl" }), /^\? 1 Form: there is no such command/);
    assert.match(await evaluated("two", "repl"), /^00000004 .* 2 /);
    assert.match(await client.refused("evaluate", { expression: "jump", context: "repl" }), /jump is not a label/);
    assert.equal(await evaluated("source\nx z\n end x\n.", "repl"), "cells 1 start 0000");
    assert.match(await evaluated("transcript", "repl"), / end first\n\.\nload\nrun 1\njump 0100\nsource\nx z\n end x\n\.$/);
});

test("a stop for keys says so, and keys are typed in the console", async () => {
    const client = clientOf();
    client.files["/keys"] = " i 0000\n h 0010\n z\n end 0000\n";
    await client.launched({ program: "/keys" });
    const waiting = await client.event("stopped");
    assert.equal(waiting.reason, "waiting");
    assert.match(waiting.description, /^an input is waiting for codes: /);
    await client.asks("continue");
    assert.deepEqual(await client.event("stopped"), waiting);
    assert.match((await client.asks("evaluate", { expression: "type 5'", context: "repl" })).result, /^live 2 dead 0/);
    await client.event("stopped");
    await client.asks("continue");
    assert.equal((await client.event("stopped")).reason, "halted stop");
    assert.match((await client.asks("evaluate", { expression: "0010", context: "watch" })).result, /^00f00004/);
});

test("an overflow is an exception with the monitor's sentence", async () => {
    const client = clientOf();
    client.files["/over"] = " b half\n a half\n z\nhalf frac .5\n end 0000\n";
    await client.launched({ program: "/over" });
    const stop = await client.event("stopped");
    assert.equal(stop.reason, "exception");
    const { exceptionId, description } = await client.asks("exceptionInfo", { threadId: 1 });
    assert.deepEqual([exceptionId, description], ["halted overflow", stop.description]);
});

test("a run that does not end is paused, and one that prints for ever stops by itself", async () => {
    const client = clientOf();
    client.files["/ever"] = "start u start\n end start\n";
    client.files["/prints"] = "start p =a\n u start\n end start\n";
    await client.launched({ program: "/ever" });
    assert.match(await client.refused("stackTrace", { threadId: 1 }), /^stackTrace wants a machine at rest: pause stops it$/);
    assert.match(await client.refused("evaluate", { expression: "press manual", context: "repl" }), /only lines that ask are taken/);
    assert.match((await client.asks("evaluate", { expression: "labels", context: "repl" })).result, /^start 0000$/);
    await client.asks("pause", { threadId: 1 });
    assert.equal((await client.event("stopped")).reason, "pause");
    await client.asks("restart", { arguments: { program: "/prints" } });
    await client.event("continued");
    const stop = await client.event("stopped");
    assert.equal(stop.reason, "pause");
    assert.match(stop.description, /^2\d{4} codes were printed since the run began: continue lets it print on$/);
    assert.match(client.output("stdout"), /^a{20000,}$/);
});

test("a breakpoint at the first order stops the machine before it", async () => {
    const client = clientOf();
    const [log, point] = await client.launched({ program: "/loop" }, [{ line: 1, logMessage: "begins" }, { line: 1, hitCondition: "2" }]);
    assert.deepEqual((await client.event("stopped")).hitBreakpointIds, [point.id]);
    assert.equal(log.verified, true);
    assert.equal(client.output("console"), "begins\nbegins\n");
    await client.asks("continue");
    await client.asks("restart", {});
    assert.equal((await client.event("stopped")).reason, "pause");
    const [first] = (await client.asks("setBreakpoints", { source: { path: "/loop" }, breakpoints: [{ line: 1 }] })).breakpoints;
    await client.asks("pause");
    await client.event("stopped");
    await client.asks("restart", {});
    const { reason, hitBreakpointIds } = await client.event("stopped");
    assert.deepEqual([reason, hitBreakpointIds.length], ["breakpoint", 1]);
    assert.equal(first.verified, true);
});

test("a restart reads the source again, and sets the breakpoints again", async () => {
    const client = clientOf();
    const [{ id }] = await client.launched({ program: "/sum" }, [{ line: 3 }]);
    await client.event("stopped");
    client.files["/sum"] = `; moved\n; on\n${SUM}`;
    await client.asks("restart", {});
    const { breakpoint } = await client.event("breakpoint");
    assert.deepEqual([breakpoint.id, breakpoint.line, breakpoint.instructionReference], [id, 3, "0000"]);
    client.files["/sum"] = " b none\n";
    assert.match(await client.refused("restart", {}), /^\/sum: \? 9 Faults\nline 1 UnknownName\n/);
});

test("a program is put by hand; one that prints and stops goes on by itself where that is wanted", async () => {
    const client = clientOf();
    client.files["/hi"] = "start p =h\n z\n p =i\n z\n z\n end start\n";
    await client.launched({ program: "/hi", how: "put", operate: true }, []);
    assert.equal((await client.event("stopped")).reason, "halted stop");
    assert.equal(client.output("stdout"), "hi");
    assert.match((await client.asks("evaluate", { expression: "transcript", context: "repl" })).result, /\nput 0000 00083100\n/);
});

test("a line that is typed is shown anew, as the client takes that", async () => {
    const client = clientOf();
    await client.launched({ program: "/sum", stopOnEntry: true }, [], { supportsInvalidatedEvent: true, linesStartAt1: false });
    await client.event("stopped");
    await client.asks("evaluate", { expression: "run 1", context: "repl" });
    assert.deepEqual(await client.event("invalidated"), { areas: ["all"] });
    assert.equal((await client.asks("stackTrace", { threadId: 1 })).stackFrames[0].line, 1);
});

test("what is wrong is said, and the adapter goes on", async () => {
    const client = clientOf();
    assert.equal(await client.refused("threads"), "threads came before initialize");
    await client.asks("initialize");
    assert.equal(await client.refused("continue"), "continue wants a program: launch comes first");
    assert.equal(await client.refused("fly"), "there is no request fly here");
    assert.equal(await client.refused("constructor"), "there is no request constructor here");
    assert.match(await client.refused("attach"), /launch opens one/);
    for (const [launch, why] of [[
        {}, /^launch: program is to be the path of a source$/,
    ], [{ program: "/gone" }, /^\/gone: it cannot be opened$/], [
        { program: "/faulty" }, /^\/faulty: \? 9 Faults\nline 1 UnknownName\n +b none\n/,
    ],
        [{ program: "/sum", how: "fly" }, /how is to be load or put/],
        [{ program: "/sum", switches: { bp3: "up" } }, /switches is to be bp32, bp16, bp8, bp4, transfer, sixbit, each up or down/],
        [{ program: "/sum", tape: "/gone" }, /^\/gone: /],
        [{ program: "/sum", tape: "/bad" }, /^\? 13 File \/bad: the byte at place 2, /]]) assert.match(await client.refused("launch",
        launch), why);
    for (const message of [null, 3, {}, { type: "request" }, { type: "request", seq: 1, command: 5 }]) client.take(message);
    await client.asks("launch", { program: "/sum", noDebug: true });
    assert.equal(client.output("important").match(/a message is no request/g).length, 5);
    assert.deepEqual(
        (await client.asks("setBreakpoints", { source: { path: "/sum" }, breakpoints: [{ line: 1 }] })).breakpoints,
        [{ id: 1, verified: false, message: "this run has no debugger" }]
    );
    assert.match(await client.refused("stepOut"), /no calls to step out of/);
    assert.match(await client.refused("variables", { variablesReference: 99 }), /there are no variables 99/);
    assert.equal(await client.refused("setBreakpoints"), "setBreakpoints: source is to be an object");
    await client.asks("terminate");
    await client.event("terminated");
    assert.match(await client.refused("continue"), /launch comes first/);
});

test("what was done is kept whenever the machine stops, and when it is changed", async () => {
    const kept = [];
    const shelf = {
        keepSession: (text) => kept.push(text), putSessionAway: () => kept.push(null), keepSource: (lines) => kept.push(lines.length),
        dropSource: () => kept.push("dropped"),
    };
    const client = clientOf({ shelf });
    await client.launched({ program: "/sum" });
    await client.event("stopped");
    assert.match(kept.at(-1), /^source\n[^]*\n\.\nload\nrun 2000\n$/);
    await client.asks("setExpression", { expression: "sum", value: "= 1" });
    assert.match(kept.at(-1), /\nput 0006 00000002\n$/);
    await client.asks("evaluate", { expression: "source\n z", context: "repl" });
    assert.equal(kept.at(-1), 1);
    await client.asks("evaluate", { expression: " end\n.", context: "repl" });
    assert.equal(kept.at(-2), "dropped");
    const other = clientOf({ shelf: { ...shelf, trouble: "the disk is full" } });
    await other.launched({ program: "/sum", stopOnEntry: true });
    assert.equal(other.output("important"), "nothing of this session is kept: the disk is full\n");
});

test("memory that runs out ends the program, and another one can be launched", async () => {
    const client = clientOf();
    await client.launched({ program: "/sum", stopOnEntry: true });
    await client.event("stopped");
    const { bytesFor } = Session.prototype;
    Session.prototype.bytesFor = () => { throw new NoMemory("there is not enough memory for this line"); };
    assert.match(
        await client.refused("stackTrace", { threadId: 1 }),
        /^the laboratory's memory is used up after 0 printed codes: there is not enough memory for this line; what was done is kept, and restart begins anew$/
    );
    Session.prototype.bytesFor = bytesFor;
    await client.event("terminated");
    await client.asks("launch", { program: "/sum", stopOnEntry: true });
    Session.prototype.bytesFor = function (line) {
        return textOf(line) === "json state-data" ? { reply: bytesOf("nothing"), isRefused: false } : bytesFor.call(this, line);
    };
    await client.asks("configurationDone");
    assert.match((await client.event("stopped")).description, /^an error of the debug adapter itself: no records: "nothing"$/);
    Session.prototype.bytesFor = bytesFor;
    assert.equal((await client.asks("threads")).threads.length, 1);
});

test("whatever is asked, in whatever order, has an answer", async () => {
    const client = clientOf();
    await client.launched({ program: "/loop", stopOnEntry: true });
    const places = ["0000", "count", "6363", "6464", "", "none", "0005", "count+1"];
    let state = 1956;
    const below = (bound) => {
        state = (Math.imul(state, 1_103_515_245) + 12_345) >>> 0;
        return Math.floor((state / 2 ** 32) * bound);
    };
    const place = () => places[below(places.length)];
    const asked = [
        () => ["next", {}], () => ["stepBack", {}], () => ["reverseContinue", {}], () => ["stepIn", { granularity: "instruction" }],
        () => ["stackTrace", {}], () => ["scopes", {}], () => ["variables", { variablesReference: below(9) }],
        () => [
            "setVariable",
            {
                variablesReference: 1 + below(6),
                name: ["counter", "accumulator", "register", "mode", "one", "left", "bp4", "kept"][below(8)],
                value: ["0000", "= 3", "b 0002", "oneop", "down", "12'", "?"][below(7)],
            },
        ],
        () => ["setExpression", { expression: place(), value: "= 9" }],
        () => ["readMemory", { memoryReference: place(), offset: below(20) - 10, count: below(40) }],
        () => ["writeMemory", { memoryReference: place(), offset: below(4), data: "AAAAAgAA" }],
        () => ["disassemble", { memoryReference: place(), instructionOffset: below(20) - 10, instructionCount: below(30) }],
        () => ["gotoTargets", { source: { path: "/loop" }, line: below(12) }], () => ["goto", { targetId: [0, 1, 9999][below(3)] }],
        () => [
            "evaluate",
            {
                expression: [
                    "run 3", "press manual", "press oneop", "press normal", "type 12'", "new", "break count", "drop 0", "trace 2", "turn 5",
                    "source\n z", " end\n.", "panel",
                ][below(13)],
                context: "repl",
            },
        ],
        () => ["evaluate", { expression: place(), context: "watch" }],
        () => ["setFunctionBreakpoints", { breakpoints: [{ name: place() }] }],
        () => ["setDataBreakpoints", { breakpoints: [{ dataId: place(), hitCondition: ["1", ">2", "x"][below(3)] }] }],
        () => [
            "setBreakpoints",
            { source: { path: "/loop" }, breakpoints: [{ line: below(12) }, { line: below(12), logMessage: "{@accumulator}" }] },
        ],
        () => ["pause", {}], () => ["exceptionInfo", {}], () => ["restart", {}], () => ["continue", {}],
    ];
    for (let at = 0; at < 400; at += 1) {
        const [command, given] = asked[below(asked.length)]();
        const { success, message = "" } = await client.response(command, given);
        assert.ok(success || !/^(Type|Reference|Reply|Range)Error/.test(message), `${command} ${JSON.stringify(given)}: ${message}`);
    }
});
