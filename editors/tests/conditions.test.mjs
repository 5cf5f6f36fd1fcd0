// Conditions of breakpoints: what holds at the stop, as the monitor reads both sides; and what cannot be had.
import assert from "node:assert/strict";
import { test } from "node:test";
import { Client } from "./client.mjs";

const LOOP = [
    "start   b count", "        a one", "        h count", "        b half", "        s eighth", "        h half", "        b coarse",
    "        s unit", "        h coarse", "        p =a", "        u start", "count   int -3 30", "one     int 1 30", "half    frac .5",
    "eighth  frac .125", "coarse  int 2 10", "unit    int 1 10", "pointer b count", "plain   word 00000004", "        end start", "",
].join("\n");

/** What the loop has counted where a breakpoint with a condition stops the machine first. */
async function stopsWhere(condition, line = 11, more = {}) {
    const client = new Client({ "/loop": LOOP });
    const [point] = await client.launched({ program: "/loop" }, [{ line, condition, ...more }]);
    assert.equal(point.verified, true, point.message);
    const stop = await client.event("stopped");
    return { client, stop, count: await countIn(client), point };
}

/** What stands in `count` now. */
async function countIn(client) {
    const { result } = await client.asks("evaluate", { expression: "numbers count 1", context: "watch" });
    return Number(result.split(/ +/).at(-1));
}

test("whole numbers are compared with their sign, by label and by address", async () => {
    for (const [condition, count] of [
        ["count == 2", 2], ["count==2", 2], ["count > -1", 0], ["count >= -1", -1], ["count != -2", -1], ["0011 == 3", 3],
        ["count == 0000000j", 6], ["count == = 4", 4], ["count < 0", -2], ["count <= -2", -2],
    ]) {
        assert.equal((await stopsWhere(condition)).count, count, condition);
    }
});

test("a value is read as the line of its word is: fractions, and whole numbers at another point", async () => {
    for (const [condition, count] of [
        ["half == .25", -1], ["half < 0.0", 2], ["half < .3", -1], ["half >= -.5", -2], ["coarse == 0", -1], ["coarse < -1", 1],
        ["coarse == -1", 0], ["half == 0", 1],
    ]) {
        assert.equal((await stopsWhere(condition)).count, count, condition);
    }
});

test("fields of the state and lines that ask are compared as well", async () => {
    for (const [condition, count] of [
        ["@counter == 0010", -2], ["@counter == start+10", -2], ["@accumulator == = 1 10", -2], ["@accumulator == 00000000", -1],
        ["@mode == normal", -2], ["@mode != manual", -2], ["@clock > 40000", null], ["words count 1 == 0011 00000002", 1],
        ["words count 1 != 0011 wwwwwwwk", -2], ["@transfer == up", -2],
    ]) {
        const { count: is } = await stopsWhere(condition);
        if (count !== null) assert.equal(is, count, condition);
    }
});

test("a condition comes before the count of hits and before a log, and holds on the way back too", async () => {
    assert.equal((await stopsWhere("count > 0", 11, { hitCondition: "3" })).count, 3);
    const { client } = await stopsWhere("count == 6");
    await client.asks("setBreakpoints", { source: { path: "/loop" }, breakpoints: [{ line: 11, condition: "count == 3" }] });
    await client.asks("reverseContinue");
    const { reason, description } = await client.event("stopped");
    assert.deepEqual([reason, description], ["breakpoint", "back to a breakpoint at 0010"]);
    assert.equal(await countIn(client), 3);
    await client.asks("setBreakpoints", { source: { path: "/loop" }, breakpoints: [] });
    await client.asks("setDataBreakpoints", { breakpoints: [{ dataId: "count", condition: "count == 1" }] });
    await client.asks("reverseContinue");
    assert.equal((await client.event("stopped")).description, "back to 0002, where a watched word is about to change");
    assert.equal(await countIn(client), 0);
    await client.asks("setDataBreakpoints", { breakpoints: [{ dataId: "count", condition: "count == 5" }] });
    await client.asks("continue");
    assert.equal((await client.event("stopped")).reason, "data breakpoint");
    assert.equal(await countIn(client), 5);
    await client.asks("setDataBreakpoints", { breakpoints: [] });
    await client.asks(
        "setBreakpoints",
        {
            source: { path: "/loop" },
            breakpoints: [{ line: 11, condition: "count == 7", logMessage: "{count}" }, { line: 11, condition: "count == 8" }],
        }
    );
    await client.asks("continue");
    await client.event("stopped");
    assert.match(client.output("console").split("\n").at(-2), / {2}7 {2}/);
});

test("what cannot be had is not verified, with a reason", async () => {
    const client = new Client({ "/loop": LOOP });
    await client.launched({ program: "/loop", stopOnEntry: true });
    await client.event("stopped");
    const told = async (condition) => {
        const { breakpoints: [{ verified, message }] } = await client.asks(
            "setBreakpoints", { source: { path: "/loop" }, breakpoints: [{ line: 1, condition }] }
        );
        assert.equal(verified, false, condition);
        return message;
    };
    for (const condition of ["count", "count ==", "== 5", "count = 5", "often"]) assert.match(
        await told(condition), /is no condition: write what is asked, a sign ==, !=, <, <=, > or >=, and a value, as in sum == 5$/
    );
    assert.match(await told("nobody == 1"), /nobody is not a label/);
    assert.match(await told("count == many"), /many/);
    assert.match(await told("count == 5 6 7"), /^\? 1 Form/);
    assert.match(await told("@fly == 1"), /^the machine's state has no fly/);
    assert.match(await told("@mode < normal"), /wants two numbers$/);
    assert.match(await told("run 1 == 1"), /no address and no label/);
    assert.deepEqual((await client.asks("evaluate", { expression: "rules", context: "repl" })).result, "");
    assert.equal(
        (await client.asks(
            "setFunctionBreakpoints", { breakpoints: [{ name: "start", condition: "count == 1" }] }
        )).breakpoints[0].verified,
        true
    );
});
