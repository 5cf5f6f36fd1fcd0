// What an expression names in the debugger: words by their labels and addresses first, and the machine's state after @.
import assert from "node:assert/strict";
import { test } from "node:test";
import { Client } from "./client.mjs";

/** Labels that are also names of the machine's state, or commands. */
const NAMES = [
    "start   b counter", "        a tape", "        h counter", "        z", "counter int 7 30", "tape    int 1 30", "kept    int 2 30",
    "status  int 3 30", "mode    int 4 30", "clock   int 5 30", "panel   int 6 30", "        end start", "",
].join("\n");

async function stopped(more = [], launch = {}) {
    const client = new Client({ "/names": NAMES });
    await client.launched({ program: "/names", stopOnEntry: true, ...launch }, more);
    await client.event("stopped");
    const evaluated = async (expression, context = "watch") => (await client.asks("evaluate", { expression, context })).result;
    return { client, evaluated };
}

test("a label comes before a name of the state, wherever one asks", async () => {
    const { client, evaluated } = await stopped();
    for (const context of ["hover", "watch", "repl"]) {
        for (const [name, value] of [["counter", 7], ["tape", 1], ["kept", 2], ["status", 3], ["mode", 4], ["clock", 5]]) {
            if (context === "repl" && name === "tape") continue;
            assert.match(await evaluated(name, context), new RegExp(`  ${value}  `), `${name} ${context}`);
        }
    }
    assert.match(await evaluated("panel"), / {2}6 {2}/);
    assert.match(await evaluated("panel", "repl"), /^counter 0000 accumulator/);
    const labels = await client.scope("Labels");
    assert.deepEqual(["counter", "tape"].map((name) => labels.of(name).evaluateName), ["0004", "0005"]);
    for (const { value, evaluateName } of labels.variables) assert.equal(await evaluated(evaluateName), value);
});

test("a label that is a name of the state too is set as a word, and the machine does not jump", async () => {
    const { client, evaluated } = await stopped();
    assert.match((await client.asks("setExpression", { expression: "counter", value: "= 3" })).value, /^00000006 .* 3 /);
    assert.equal(await evaluated("@counter"), "0000");
    assert.match(await evaluated("0004"), /^00000006/);
    assert.equal((await client.asks("setExpression", { expression: "@counter", value: "0003" })).value, "0003");
    assert.equal((await client.asks("stackTrace", { threadId: 1 })).stackFrames[0].instructionPointerReference, "0003");
});

test("a logpoint writes the label, and after @ the state; a watch is at the label alone", async () => {
    const { client } = await stopped([{ line: 3, logMessage: "{counter} {@counter}" }]);
    await client.asks("continue");
    await client.event("stopped");
    assert.equal(client.output("console"), "0000000q  7  .0000000065 0002\n");
    assert.equal((await client.asks("dataBreakpointInfo", { name: "counter" })).dataId, "0004");
    const registers = await client.scope("Registers");
    assert.equal(
        (await client.asks("dataBreakpointInfo", { variablesReference: registers.variablesReference, name: "counter" })).dataId, null
    );
    assert.equal((await client.asks("dataBreakpointInfo", { name: "@counter" })).dataId, null);
});

test("each field of the state is told as a text, by the name that its variable has", async () => {
    const { client, evaluated } = await stopped();
    for (const scope of ["Registers", "Switches"]) {
        for (const { name, value, evaluateName } of (await client.scope(scope)).variables) {
            if (name === "live") continue;
            assert.equal(evaluateName, `@${name}`);
            assert.equal(value.split("  ")[0], await evaluated(evaluateName));
        }
    }
    for (const name of [
        "@clock", "@kept", "@tape", "@accumulator-number", "@live-start", "@transfer",
    ]) assert.equal(typeof await evaluated(name), "string", name);
    assert.match(
        await client.refused("evaluate", { expression: "@fly", context: "watch" }), /^the machine's state has no fly: it has counter, /
    );
    assert.match(
        await client.refused("setExpression", { expression: "sixbit", value: "up" }), /sixbit is not a label.*; @sixbit is the machine's$/
    );
    assert.match(
        await client.refused("evaluate", { expression: "accumulator", context: "watch" }),
        /accumulator is not an address.*; @accumulator is the machine's$/
    );
});

test("the switches show what is live now", async () => {
    const { client } = await stopped();
    assert.match((await client.scope("Switches")).of("live").value, /^normal oneop manual( |$)/);
});
