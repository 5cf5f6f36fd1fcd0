// Stops, the way back, parameters, and files: what each is told as, and where it is looked for.
import assert from "node:assert/strict";
import { spawn } from "node:child_process";
import { mkdirSync, mkdtempSync, rmSync, symlinkSync, writeFileSync } from "node:fs";
import { tmpdir } from "node:os";
import { join } from "node:path";
import { test } from "node:test";
import { fileURLToPath } from "node:url";
import { Framing, framed } from "../framing.mjs";
import { Client } from "./client.mjs";

const LOOP = "start   b count\n        a one\n        h count\nloop    u start\ncount   int 0 30\none     int 1 30\n        end start\n";
const stopped = async (client) => (await client.event("stopped")).description;

test("a stop is described as what it is, with its place", async () => {
    const client = new Client({ "/loop": LOOP });
    await client.launched({ program: "/loop", stopOnEntry: true }, [{ line: 4 }]);
    assert.equal(await stopped(client), "before the first order, at 0000 start");
    await client.asks("next");
    assert.equal(await stopped(client), "a step to 0001");
    await client.asks("continue");
    assert.equal(await stopped(client), "a breakpoint at 0003 loop");
    await client.asks("stepBack");
    assert.equal(await stopped(client), "a step back to 0002");
    await client.asks("evaluate", { expression: "press oneop", context: "repl" });
    assert.equal(await stopped(client), "a line of the console, at 0002");
    await client.asks("evaluate", { expression: "press normal", context: "repl" });
    await stopped(client);
    await client.asks("setBreakpoints", { source: { path: "/loop" }, breakpoints: [] });
    await client.asks("continue");
    await client.asks("pause");
    assert.match(await stopped(client), /^a pause at \d{4}( start| loop)?$/);
    await client.asks("goto", { targetId: 3 });
    assert.equal(await stopped(client), "a jump to 0003 loop");
});

test("a machine in another mode is started again by a step and by a run", async () => {
    const client = new Client({ "/loop": LOOP });
    await client.launched({ program: "/loop", stopOnEntry: true }, [{ line: 4 }]);
    await stopped(client);
    for (const command of ["next", "continue"]) {
        await client.asks("evaluate", { expression: "press manual", context: "repl" });
        await stopped(client);
        await client.asks(command);
        assert.match(await stopped(client), /^a step to 0001$|^a breakpoint at 0003 loop$/);
    }
    await client.asks("evaluate", { expression: "press oneop", context: "repl" });
    await stopped(client);
    await client.asks("next");
    assert.match(await stopped(client), /^a step to |press start to continue$|: press/);
});

test("what can be gone back over is counted in orders, and its end is no refusal", async () => {
    const client = new Client({ "/loop": LOOP });
    await client.launched({ program: "/loop", how: "put", stopOnEntry: true });
    await stopped(client);
    const orders = Number((await client.scope("Kept steps")).of("kept").value);
    assert.equal((await client.asks("evaluate", { expression: "@kept", context: "watch" })).result, String(orders));
    assert.equal((await client.scope("Registers")).of("kept").value, String(orders));
    for (let at = 0; at < orders; at += 1) {
        await client.asks("stepBack");
        assert.match(await stopped(client), /^a step back to /);
    }
    for (const command of ["stepBack", "reverseContinue"]) {
        await client.asks(command);
        assert.match(await stopped(client), /^the end of the way back, at \d{4}( start)?: the program begins here$/);
    }
    assert.equal((await client.scope("Kept steps")).of("kept").value, "0");
    await client.asks("evaluate", { expression: "press manual\nput 0100 z", context: "repl" });
    await stopped(client);
    assert.equal((await client.scope("Kept steps")).of("kept").value, "0");
});

test("the registers show how many orders can be gone back over, and how many steps are kept beside", async () => {
    const client = new Client({ "/loop": LOOP });
    await client.launched({ program: "/loop", how: "put", stopOnEntry: true });
    await stopped(client);
    const registers = await client.scope("Registers");
    const [orders, steps] = ["kept", "kept-steps"].map((name) => Number(registers.of(name).value));
    assert.ok(orders <= 1 && steps > 2, `${orders} orders, ${steps} steps`);
});

test("parameters are checked where they come in, and no mistake is told in words of JavaScript", async () => {
    const client = new Client({ "/loop": LOOP });
    await client.launched({ program: "/loop", stopOnEntry: true });
    await stopped(client);
    const wrong = [
        ["setBreakpoints", undefined, "source is to be an object"],
        ["setBreakpoints", { source: {}, breakpoints: [{}] }, "breakpoints[0].line is to be a whole number"],
        ["setBreakpoints", { source: { path: 3 } }, "source.path is to be a text"],
        ["setFunctionBreakpoints", {}, "breakpoints is to be a list"],
        ["setFunctionBreakpoints", { breakpoints: [null] }, "breakpoints[0] is to be an object"],
        ["setInstructionBreakpoints", { breakpoints: [{}] }, "breakpoints[0].instructionReference is to be a text"],
        ["setDataBreakpoints", { breakpoints: [{ dataId: null }] }, "breakpoints[0].dataId is to be a text"],
        ["evaluate", {}, "expression is to be a text"], ["setExpression", { expression: "one" }, "value is to be a text"],
        ["variables", {}, "variablesReference is to be a whole number that is not negative"],
        ["setVariable", { variablesReference: 1, name: 3, value: "" }, "name is to be a text"],
        ["readMemory", { memoryReference: "0000", count: -1 }, "count is to be a whole number from 0 to 1048576"],
        ["readMemory", { memoryReference: "0000", count: 1e9 }, "count is to be a whole number from 0 to 1048576"],
        ["writeMemory", { memoryReference: "0000", data: "?" }, "data is to be bytes in base 64"],
        ["disassemble", { memoryReference: "0000", instructionCount: 1e12 }, "instructionCount is to be a whole number from 0 to 65536"],
        ["gotoTargets", { line: 1 }, "source is to be an object"],
        ["goto", {}, "targetId is to be a whole number"], ["breakpointLocations", { source: {} }, "line is to be a whole number"],
        ["dataBreakpointInfo", {}, "name is to be a text"],
        ["completions", { text: "" }, "column is to be a whole number that is not negative"],
        ["initialize", { linesStartAt1: "yes" }, "linesStartAt1 is to be true or false"],
        ["restart", { arguments: { program: 3 } }, "arguments.program is to be the path of a source"],
        ["setExceptionBreakpoints", {}, "filters is to be a list"], ["launch", [], "all of it is to be an object"],
    ];
    for (const [command, given, message] of wrong) assert.equal(await client.refused(command, given), `${command}: ${message}`);
    assert.equal((await client.asks("readMemory", { memoryReference: "0000", offset: null, count: 4 })).address, "0000");
    for (const command of ["stackTrace", "scopes", "threads", "exceptionInfo"]) await client.asks(command, null);
});

test("the tape of a launch is looked for beside the source, and links and other spellings lead to the same file", async () => {
    const folder = mkdtempSync(join(tmpdir(), "stops-"));
    mkdirSync(join(folder, "sub"));
    writeFileSync(join(folder, "loop.source"), LOOP);
    writeFileSync(join(folder, "numbers.txt"), "12'\n");
    symlinkSync(join(folder, "loop.source"), join(folder, "linked.source"));
    const child = spawn(
        "node", [fileURLToPath(new URL("../lgp30-debug-adapter.mjs", import.meta.url))],
        { cwd: join(folder, "sub"), stdio: ["pipe", "pipe", "inherit"], env: { ...process.env, XDG_STATE_HOME: folder } }
    );
    const messages = [];
    let wake = () => {};
    const framing = new Framing((message) => { messages.push(message); wake(); }, assert.fail);
    child.stdout.on("data", (bytes) => framing.push(bytes));
    let sequence = 0;
    const asks = async (command, given) => {
        const seq = ++sequence;
        child.stdin.write(framed({ seq, type: "request", command, arguments: given }));
        for (;;) {
            const found = messages.find((message) => message.request_seq === seq);
            if (found !== undefined) return found;
            await new Promise((resume) => { wake = resume; });
        }
    };
    await asks("initialize", { adapterID: "lgp30" });
    const launched = await asks("launch", { program: join(folder, "linked.source"), tape: "numbers.txt", stopOnEntry: true });
    assert.equal(launched.success, true, launched.message);
    for (const path of [
        join(folder, "loop.source"), join(folder, "linked.source"), join(folder, "sub/../loop.source"), `${folder}/./loop.source`,
    ]) {
        const { body: { breakpoints: [{ verified, message }] } } = await asks(
            "setBreakpoints", { source: { path }, breakpoints: [{ line: 2 }] }
        );
        assert.equal(verified, true, message);
        assert.equal((await asks("gotoTargets", { source: { path }, line: 2 })).body.targets.length, 1, path);
    }
    assert.equal(
        (await asks(
            "setBreakpoints", { source: { path: join(folder, "numbers.txt") }, breakpoints: [{ line: 2 }] }
        )).body.breakpoints[0].message,
        `the program is ${join(folder, "linked.source")}`
    );
    assert.equal((await asks("evaluate", { expression: "rules", context: "repl" })).body.result, "rule 0 break 0001");
    assert.equal((await asks("evaluate", { expression: "tape-data", context: "repl" })).body.result, "passed \nleft 12'");
    await asks("disconnect");
    await new Promise((resume) => { child.on("exit", resume); });
    rmSync(folder, { recursive: true });
});
