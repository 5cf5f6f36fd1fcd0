// The controller with the proved monitor: with the module, where that is there,
// and with the native program, crates/lgp30m/out/lgp30m, where ./prove lgp30m has made it.
import assert from "node:assert/strict";
import { existsSync, readFileSync, readdirSync } from "node:fs";
import { dirname, join } from "node:path";
import { test } from "node:test";
import { fileURLToPath } from "node:url";
import { Controller } from "../controller.mjs";
import { linesIn } from "../lines.mjs";
import { LIMITS } from "../memory_budget.mjs";
import { recordsOf } from "../../libraries/javascript/replies.mjs";
import { NoMemory } from "../../libraries/javascript/session.mjs";
import { ModuleLink } from "../module_link.mjs";
import { NativeLink } from "./native.mjs";
import { withoutReasons } from "./replies.mjs";

const top = join(dirname(fileURLToPath(import.meta.url)), "../..");
const program = process.env.MONITOR ?? join(top, "crates/lgp30m/out/lgp30m");
const module = join(top, "libraries/javascript/lgp_c_region.wasm");
const exampleNamed = (name) => readFileSync(join(top, `examples/${name}.txt`), "utf8");
const names = readdirSync(join(top, "examples"), { recursive: true })
    .map(String)
    .filter((name) => name.endsWith(".txt"))
    .map((name) => name.slice(0, -".txt".length));
const LINKS = [
    { name: "module", isThere: existsSync(module), open: () => new ModuleLink(module) },
    { name: "program", isThere: existsSync(program), open: () => new NativeLink(program) },
];

/** Opens a laboratory over a link for a test, and ends it. */
const live = (name, body, links = LINKS) => {
    for (const { name: by, isThere, open } of links) test(`${name}, by the ${by}`, { skip: !isThere }, async () => {
        const link = open();
        try {
            const laboratory = new Controller(link);
            await laboratory.open();
            assert.equal(laboratory.notice, null);
            await body(laboratory, link);
        } finally {
            await link.end();
        }
    });
};

live("what is live is what the monitor says at each look", async (laboratory) => {
    const after = async (...lines) => {
        await laboratory.say(...lines);
        return [...laboratory.live].join(" ");
    };
    assert.equal(await after(), "normal oneop manual start clear fill");
    assert.equal(await after("press manual"), "normal oneop manual clear fill read keys");
    assert.equal(await after("press oneop"), "normal oneop manual start clear fill execute");
    assert.equal(await after("press normal", "put 0000 i", "press start"), "normal oneop manual");
    assert.equal(await after("orders 1"), "normal oneop manual compute read keys stop");
});

live("an action is under way until its change is told: what is known before that may be partly old", async (laboratory) => {
    await laboratory.say("put 0000 b 0010", "put 0001 u 0000", "press start");
    const seen = [];
    laboratory.addEventListener("change", () => seen.push(["change", laboratory.isActing]));
    await laboratory.step(1, true, ({ order }) => seen.push([order, laboratory.isActing]));
    await laboratory.say("no such command");
    assert.deepEqual([seen, laboratory.isActing], [[["b 0010", true], ["change", false], ["change", false]], false]);
});

live("which orders use a word is what the monitor says of its operations", async (laboratory, link) => {
    const letters = [..."zbyridnmpeuthcas"];
    const waits = new Map(
        recordsOf(await link.ask("json operations-data")).map((record) => [record.get("operation"), record.get("waits") === "yes"])
    );
    assert.deepEqual(letters.map((letter) => laboratory.usesWord(letter)), letters.map((letter) => waits.get(letter)));
    assert.deepEqual(letters.filter((letter) => laboratory.wordOf(`${letter} 0020`) === null).join(""), "ziput");
    assert.deepEqual(
        ["b 0050 table+1", "-t 0007", "word 0000001f", "halted stop", ""].map((text) => laboratory.wordOf(text)),
        ["0050", null, null, null, null]
    );
    await laboratory.say("put 0000 b 0050", "put 0001 u 0000", "press start");
    assert.equal(laboratory.operand, "0050");
    await laboratory.step();
    assert.deepEqual([laboratory.operand, laboratory.accounts.at(-1).word], [null, "0050"]);
    await laboratory.step();
    assert.deepEqual([laboratory.operand, laboratory.accounts.at(-1).word], ["0050", null]);
});

live("a step is told, gone back over and performed again", async (laboratory) => {
    await laboratory.openScript("self-modifying", exampleNamed("self-modifying"));
    await laboratory.step(4);
    assert.deepEqual([laboratory.panel.clock, laboratory.writerOf("0009").at, laboratory.history.behind], [274n, "0005", 4]);
    assert.equal(laboratory.rows.length, 5);
    await laboratory.back(1);
    assert.deepEqual([laboratory.panel.clock, laboratory.accounts.length, laboratory.history.ahead], [181n, 3, 1]);
    await laboratory.forward(1);
    assert.deepEqual([laboratory.panel.clock, laboratory.accounts.length, laboratory.history.ahead], [274n, 4, 0]);
});

live("further back than steps are kept", async (laboratory) => {
    await laboratory.say("put 0000 u 0000", "press start");
    await laboratory.run(6000);
    assert.equal(laboratory.history.behind, 6000);
    await laboratory.back(6000);
    assert.deepEqual(
        [laboratory.history.behind, laboratory.history.ahead, laboratory.notice, laboratory.panel.clock], [0, 6000, null, 0n]
    );
});

live("a run in portions ends where the machine rests", async (laboratory) => {
    await laboratory.openScript("sine", exampleNamed("arithmetic/sine"));
    const { end } = await laboratory.run();
    assert.deepEqual([end, laboratory.panel.status], ["rest", "halted overflow"]);
    assert.ok(laboratory.printed.count > 0);
});

live("going somewhere is undone and done again action by action", async (laboratory) => {
    await laboratory.say("put 0100 b 0050", "go 0100");
    await laboratory.step(1);
    const { clock } = laboratory.panel;
    await laboratory.back(2);
    assert.equal(laboratory.panel.status, "executing");
    await laboratory.forward(2);
    assert.deepEqual([laboratory.panel.clock, laboratory.panel.status], [clock, "going"]);
});

live("the order at the register is the one that is in it", async (laboratory) => {
    await laboratory.say("put 0000 b 0004", "put 0001 u 0000", "put 0004 h 0100", "press start");
    await laboratory.step();
    assert.equal(laboratory.orderInRegister, "b 0004");
    await laboratory.say("press manual", "press fill");
    assert.deepEqual([laboratory.panel.register, laboratory.orderInRegister], ["000j0100", null]);
    await laboratory.say("press normal", "press start");
    await laboratory.step();
    assert.equal(laboratory.orderInRegister, "u 0000");
    await laboratory.back(1);
    assert.deepEqual([laboratory.panel.register, laboratory.orderInRegister], ["000j0100", null]);
    await laboratory.openScript("told and filled", "put 0000 b 0004\nput 0004 h 0100\npress start\ntrace 1\npress manual\npress fill\n");
    await laboratory.scriptLines(Infinity);
    assert.deepEqual([laboratory.panel.register, laboratory.orderInRegister], ["000j0100", null]);
});

/** Goes back by this many orders and forward again: nothing is lost. */
async function thereAndBack(laboratory, orders) {
    const { panel, history: { behind } } = laboratory;
    await laboratory.back(orders);
    assert.equal(laboratory.history.ahead, orders);
    await laboratory.forward(orders);
    assert.deepEqual([laboratory.panel, laboratory.history.behind, laboratory.history.ahead], [panel, behind, 0]);
}

live("nothing is lost where someone went somewhere in between", async (laboratory) => {
    await laboratory.say("put 0000 u 0000", "put 0100 b 0050", "put 0101 u 0100", "press start");
    await laboratory.step(2);
    await laboratory.say("go 0100");
    await thereAndBack(laboratory, 1);
    await thereAndBack(laboratory, 3);
    await laboratory.step(4);
    for (const orders of [1, 4, 5, 6, 7]) await thereAndBack(laboratory, orders);
    await laboratory.back(7);
    for (let ahead = 6; ahead >= 0; ahead -= 1) {
        await laboratory.forward(1);
        assert.equal(laboratory.history.ahead, ahead);
    }
});

live("each example gives its stored replies, where all its lines are asked at once", async (laboratory, link) => {
    for (const name of names) {
        await link.anew();
        assert.equal(
            withoutReasons(await link.askAll(linesIn(exampleNamed(name)))),
            readFileSync(join(top, `examples/${name}.expected`), "utf8"),
            name
        );
    }
});

live("what the examples do is undone and done again", async (laboratory, link) => {
    for (const name of names) {
        await laboratory.openScript(name, exampleNamed(name));
        await laboratory.scriptLines(Infinity);
        const drum = await link.ask("dump");
        await thereAndBack(laboratory, Math.min(9, laboratory.history.behind));
        await thereAndBack(laboratory, Math.min(2000, laboratory.history.behind));
        assert.equal(await link.ask("dump"), drum, name);
    }
});

live("nothing is lost where a rule hits on the way", async (laboratory) => {
    await laboratory.say("put 0000 b 0050", "put 0001 h 0051", "put 0002 u 0000", "press start");
    await laboratory.step(9);
    await laboratory.say("break 0001", "watch 0051");
    await laboratory.back(9);
    await laboratory.forward(9);
    assert.deepEqual([laboratory.history.behind, laboratory.history.ahead, laboratory.panel.counter], [9, 0, "0000"]);
    await laboratory.run(200);
});

live("a put by a name is performed again where it was", async (laboratory) => {
    await laboratory.assemble("a z\nb word 00000002\n end");
    await laboratory.say("put 0000 u 0000", "press start", "run 2", "press manual", "put b b b", "press normal", "press start", "run 2");
    await laboratory.assemble(" z\n z\na z\nb word 00000002\n end");
    await laboratory.back(4);
    await laboratory.forward(4);
    assert.deepEqual(laboratory.words.slice(0, 4).map(({ order }) => order), ["u 0000", "b 0001", "z 0000", "z 0000"]);
});

live("a run asks when much has been printed", async (laboratory) => {
    await laboratory.say("put 0000 p =h", "put 0001 p =i", "put 0002 u 0000", "press start");
    const { end } = await laboratory.run();
    assert.deepEqual([end, laboratory.notice], ["printed", { kind: "printedMuch", count: laboratory.printed.count }]);
    assert.ok(laboratory.printed.count >= LIMITS.asksAfter && laboratory.printed.count < LIMITS.codes);
    const before = laboratory.printed.count;
    await laboratory.run();
    assert.equal(laboratory.notice.count, laboratory.printed.count - before);
    await laboratory.back(10);
    assert.equal(laboratory.notice, null);
});

live("before memory ends nothing more is begun, and all can be saved", async (laboratory, link) => {
    await laboratory.say("put 0000 p =h", "put 0001 p =i", "put 0002 u 0000", "press start");
    for (let runs = 0; runs < 100 && laboratory.notice?.kind !== "usedUp"; runs += 1) await laboratory.run();
    assert.equal(laboratory.notice.kind, "usedUp");
    assert.ok(laboratory.printed.count <= LIMITS.codes && laboratory.printed.count > 0.9 * LIMITS.codes);
    const sent = link.sent.length;
    for (const action of [
        () => laboratory.step(), () => laboratory.run(), () => laboratory.say("run 1"), () => laboratory.command("press manual"),
        () => laboratory.assemble(" z"),
    ]) {
        await action();
        assert.equal(laboratory.notice.kind, "usedUp");
    }
    assert.ok(link.sent.slice(sent).every((line) => /^(paper|json (state-data|look|show-data|why-data|rules-data))/.test(line)));
    assert.match(await laboratory.transcript(), /^put 0000 00083100\n/);
    assert.equal(await laboratory.say("words 0000 1"), "0000 00083100\n");
    const { behind } = laboratory.history;
    await laboratory.back(5);
    assert.deepEqual([laboratory.notice, laboratory.history.behind, laboratory.history.ahead], [null, behind - 5, 5]);
    await laboratory.new();
    assert.deepEqual([laboratory.notice.kind, laboratory.printed.count, laboratory.lost], ["before", 0, []]);
    await laboratory.say("put 0000 = 1");
    assert.equal(laboratory.notice, null);
}, LINKS.slice(0, 1));

live("a new laboratory and an example offer the lines of the one before, where someone has done something there", async (laboratory) => {
    await laboratory.new();
    assert.equal(laboratory.notice, null);
    await laboratory.say("put 0050 = 3", "source", " z");
    await laboratory.new();
    assert.equal(laboratory.notice.kind, "before");
    assert.match(laboratory.notice.lines, /put 0050 00000006\nsource\n z\n\.\n$/);
    await laboratory.openScript("self-modifying", exampleNamed("self-modifying"));
    assert.equal(laboratory.notice, null);
    await laboratory.openScript("first-run", exampleNamed("first-run"));
    assert.equal(laboratory.notice, null);
    await laboratory.scriptLines(1);
    await laboratory.step();
    await laboratory.openScript("self-modifying", exampleNamed("self-modifying"));
    assert.equal(laboratory.notice.kind, "before");
    await laboratory.step();
    assert.equal(laboratory.notice, null);
    await laboratory.say("new");
    assert.equal(laboratory.notice.kind, "before");
    await laboratory.openForShow("message", exampleNamed("message"));
    assert.equal(laboratory.notice, null);
    await laboratory.new();
    assert.equal(laboratory.notice, null);
});

live("so do lines, and the page's own questions stand in no script", async (laboratory) => {
    const comment = `; ${"x".repeat(4000)}`;
    await laboratory.say("put 0050 = 3", ...Array(800).fill(comment));
    assert.equal(laboratory.notice.kind, "usedUp");
    assert.match(await laboratory.transcript(), /^put 0050 00000006\n; xx/);
    await laboratory.say("new");
    await laboratory.say(comment);
    assert.equal(laboratory.notice, null);
});

live("a script has what the reader did: no look, no row of the drum, no ring of costs and no account that was asked for again stands in it", async (laboratory, link) => {
    await laboratory.say("put 0000 b 0050", "put 0001 a 0050", "put 0002 z 0000", "break 0100", "press start");
    await laboratory.step();
    await laboratory.showAt("0050");
    await laboratory.askCosts("0050");
    await laboratory.why("0000");
    await laboratory.say("trace 1");
    await laboratory.say("profile 1");
    await laboratory.say("words 0050 1");
    assert.notEqual(laboratory.profile, null);
    const script = await laboratory.transcript();
    assert.equal(
        script, "put 0000 000100j8\nput 0001 000q00j8\nput 0002 00000000\nbreak 0100\npress start\nrun 1\nrun 1\nrun 1\nwords 0050 1\n"
    );
    assert.ok((await link.ask("transcript")).length > script.length);
    assert.deepEqual(laboratory.lines.slice(4), ["press start", "json trace-data 1", "trace 1", "profile 1", "words 0050 1"]);
    const { clock } = laboratory.panel;
    await laboratory.openSaved("saved", script);
    assert.deepEqual([laboratory.panel.clock, laboratory.performed], [clock, 3]);
});

live("a run that prints asks after 20,000 codes, however fast it prints", async (laboratory) => {
    for (const words of [
        ["p =h", "u 0000"], ["p =h", "b 0000", "b 0000", "b 0000", "u 0000"], ["b 0000", ...Array(30).fill("b 0000"), "p =h", "u 0000"],
    ]) {
        await laboratory.new();
        await laboratory.say(...words.map((word, at) => `put ${String(at).padStart(4, "0")} ${word}`), "press start");
        await laboratory.run();
        const { notice: { kind, count } } = laboratory;
        assert.equal(kind, "printedMuch");
        assert.ok(count >= LIMITS.asksAfter && count < 1.05 * LIMITS.asksAfter, `${count}`);
    }
}, LINKS.slice(0, 1));

live("a laboratory is restored by its lines, a source that is open and a half-done script with it", async (laboratory) => {
    await laboratory.openScript("self-modifying", exampleNamed("self-modifying"));
    await laboratory.step(3);
    await laboratory.run(5);
    await laboratory.back(1);
    await laboratory.say("source", " b 0050");
    const { lines, script, history: { behind } } = laboratory;
    const saved = { lines: lines.join("\n"), script: { ...script } };
    await laboratory.new();
    assert.deepEqual([laboratory.script, laboratory.panel.clock], [null, 0n]);
    await laboratory.restore(saved);
    assert.deepEqual(
        [laboratory.lines, laboratory.openSource, laboratory.script, laboratory.history.behind], [lines, [" b 0050"], saved.script, behind]
    );
    await laboratory.say(".", "new");
    assert.equal(laboratory.script, null);
});

live("a line that could print or tell more than memory holds is not begun", async (laboratory) => {
    await laboratory.say("put 0000 p =h", "put 0001 u 0000", "press start");
    for (const [line, most] of [
        ["profile 1000001", LIMITS.codes], ["trace 20000", LIMITS.told], [" drum  20000 ", LIMITS.told],
        ["json trace-data 10001", LIMITS.told], ["profile-data 1000001", LIMITS.codes],
    ]) {
        await laboratory.say(line);
        assert.deepEqual(laboratory.notice, { kind: "tooMany", line, most });
    }
    assert.equal(laboratory.panel.clock, 0n);
    await laboratory.new();
    await laboratory.say("put 0000 u 0000", "press start", "run 900000", "run 900000");
    assert.deepEqual([laboratory.notice, laboratory.history.behind], [null, 1_800_000]);
});

live("a line that runs for long is done in portions, and what is left of a script's is kept", async (laboratory, link) => {
    await laboratory.say("put 0000 u 0000", "press start");
    assert.equal(await laboratory.say("run 3000000"), "ran 3000000 limit\n");
    assert.deepEqual(
        [laboratory.notice, laboratory.history.behind, laboratory.talk.at(-1)],
        [null, 3_000_000, { line: "run 3000000", reply: "ran 3000000 limit\n" }]
    );
    await laboratory.openScript("prints", "put 0000 p =h\nput 0001 u 0000\npress start\nrun 3000000\nput 0000 z 0000\n");
    await laboratory.scriptLines(Infinity);
    const { notice, printed: { count }, script } = laboratory;
    assert.deepEqual([notice, script.at, script.lines[3]], [{ kind: "printedMuch", count }, 3, `run ${3_000_000 - 2 * count}`]);
    await laboratory.scriptLines(1);
    assert.deepEqual([script.at, script.lines[3]], [3, `run ${3_000_000 - 2 * laboratory.printed.count}`]);
    assert.ok(laboratory.printed.count >= count + LIMITS.asksAfter);
    await laboratory.new();
    await laboratory.say("put 0000 b 0000", "put 0001 u 0000", "break 0001", "press start");
    assert.equal(await laboratory.say("run 3000000"), "ran 1 rule 0\n");
    assert.equal(laboratory.notice.kind, "rule");
}, LINKS.slice(0, 1));

live("where memory ends in spite of it, the lines are kept until they are put away", async (laboratory, link) => {
    const answer = link.ask.bind(link);
    link.ask = async (line) => {
        if (line === "; the end") throw new NoMemory("none");
        return answer(line);
    };
    await laboratory.say("put 0050 = 3", "go 0000", "; the end");
    assert.deepEqual([laboratory.notice.kind, laboratory.lost], ["noMemory", ["put 0050 = 3\ngo 0000\n; the end"]]);
    await laboratory.say("words 0050 1", "; the end");
    assert.deepEqual(laboratory.lost.slice(1), ["words 0050 1\n; the end"]);
    await laboratory.step();
    assert.equal(laboratory.lost.length, 2);
    await laboratory.putAway();
    assert.deepEqual(laboratory.lost, []);
});

live("what is loaded is what is written", async (laboratory) => {
    await laboratory.assemble(" b 0002\n z\n end 0000\n");
    await laboratory.load(" h 0002\n z\n end 0000\n");
    assert.deepEqual([laboratory.words[0].order, laboratory.notice], ["h 0002", null]);
    await laboratory.load(" b none\n end\n");
    assert.deepEqual([laboratory.words[0].order, laboratory.notice.kind, laboratory.assembled.faults.length], ["h 0002", "notLoaded", 1]);
    await laboratory.load(" b none\n end\n");
    assert.equal(laboratory.notice.kind, "notLoaded");
    await laboratory.new();
    await laboratory.load(" a 0002\n end 0000\n");
    assert.equal(laboratory.words[0].order, "a 0002");
});

live("a stop by a rule names the rule, and whose it is", async (laboratory) => {
    await laboratory.openScript("square-root", exampleNamed("square-root"));
    await laboratory.run();
    assert.deepEqual(laboratory.notice, { kind: "rule", number: 0, rule: "watch 0011 guess", isOfScript: true });
    await laboratory.command("drop 0", "break 0000+1");
    assert.deepEqual(laboratory.rules, ["break 0001"]);
    await laboratory.new();
    await laboratory.say("put 0000 u 0001", "put 0001 u 0000", "break 0001", "press start");
    await laboratory.run();
    assert.deepEqual(laboratory.notice, { kind: "rule", number: 0, rule: "break 0001", isOfScript: false });
});

live("a rule stops a walk and a profile in sight", async (laboratory) => {
    await laboratory.say("put 0000 u 0001", "put 0001 u 0000", "break 0001", "press start");
    const stop = { kind: "rule", number: 0, rule: "break 0001", isOfScript: false };
    await laboratory.step();
    assert.deepEqual(laboratory.notice, stop);
    await laboratory.step();
    assert.equal(laboratory.notice, null);
    await laboratory.command("profile 9");
    assert.deepEqual([laboratory.notice, laboratory.profile.orders], [stop, 1]);
    await laboratory.back(1);
    await laboratory.forward(1);
    assert.equal(laboratory.notice, null);
    await laboratory.command("press manual", "profile 9");
    assert.deepEqual(laboratory.notice, { kind: "atRest" });
    await laboratory.openScript("square-root", exampleNamed("square-root"));
    await laboratory.scriptLines(1);
    assert.deepEqual([laboratory.notice, laboratory.talk.at(-1).reply], [null, "ran 7 rule 0\n"]);
});

live("each example stands before something that goes on", async (laboratory) => {
    for (const name of names) for (const open of ["openScript", "openForShow"]) {
        await laboratory[open](name, exampleNamed(name));
        const { live: names, way: { kind }, history: { behind } } = laboratory;
        assert.ok(["start", "go"].includes(kind), name);
        assert.equal(names.has("start"), kind === "start", name);
        if (kind === "start") await laboratory.command("press start");
        await laboratory.step();
        assert.equal(laboratory.history.behind, behind + 1, name);
        if (open === "openForShow") assert.deepEqual(laboratory.rules, [], name);
    }
});

live("the way on from where a machine stands", async (laboratory) => {
    const way = async (...lines) => {
        await laboratory.new();
        await laboratory.say(...lines);
        return laboratory.way;
    };
    assert.deepEqual(await way(), { kind: "start" });
    assert.deepEqual(await way("press start"), { kind: "go" });
    assert.deepEqual(await way("press manual"), { kind: "mode", mode: "normal" });
    assert.deepEqual(await way("put 0000 i", "press start", "run 9"), { kind: "keys" });
});

live("a source with faults, and one without", async (laboratory) => {
    assert.deepEqual((await laboratory.assemble(" b none\n z\n")).faults, [{ line: 1, kind: "UnknownName" }, { line: 3, kind: "NoEnd" }]);
    assert.equal((await laboratory.assemble(" b 0002\n z\n end 0000\n")).cells, 2);
    await laboratory.command("load");
    assert.equal(laboratory.words[0].order, "b 0002");
});

live("in an open source there is no looking, and its lines are shown", async (laboratory) => {
    await laboratory.say("source");
    await laboratory.say(" z");
    await laboratory.say(" end");
    assert.deepEqual(laboratory.openSource, [" z", " end"]);
    assert.equal(await laboratory.say("."), "cells 1 start none\n");
    assert.deepEqual([laboratory.openSource, laboratory.source, laboratory.assembled.cells], [null, " z\n end", 1]);
});

live("while a source is open nothing but a typed line goes into it", async (laboratory) => {
    await laboratory.say("put 0050 = 3", "source", "ten z");
    const actions = [
        ["step"], ["run"], ["back", 1], ["forward", 1], ["command", "press start"], ["assemble", " z"], ["load", " z"], ["why", "0050"],
        ["showAt", "0050"],
        ["transcript"], ["scriptLines", 1]
    ];
    for (const [name, ...values] of actions) {
        assert.equal(await laboratory[name](...values), undefined, name);
        assert.equal(laboratory.notice?.kind, "sourceIsOpen", name);
    }
    assert.deepEqual(laboratory.openSource, ["ten z"]);
    await laboratory.say(" end", ".");
    assert.deepEqual([laboratory.notice, laboratory.assembled.cells, laboratory.labels.get("0000")], [null, 1, ["ten"]]);
    assert.match(await laboratory.transcript(), /put 0050 00000006\nsource\nten z\n end\n\.\n/);
    await laboratory.say("source");
    await laboratory.new();
    assert.deepEqual([laboratory.openSource, laboratory.panel.clock], [null, 0n]);
});

live("what a row says of its word is what why says", async (laboratory) => {
    await laboratory.openScript("self-modifying", exampleNamed("self-modifying"));
    await laboratory.step(4);
    assert.deepEqual(laboratory.writerOf("0009"), { order: "y 0009", at: "0005", clock: 181n, lost: "a 0000" });
    await laboratory.run(12);
    assert.ok(laboratory.writerOf("0009").clock > 181n);
    assert.match((await laboratory.why("0009")).lines[0], new RegExp(`put there by y 0009 at 0013, clock ${laboratory.writerOf("0009").clock},`));
    await laboratory.say("press manual", "put 0009 a 0000");
    assert.equal(laboratory.writerOf("0009"), null);
    assert.match((await laboratory.why("0009")).lines[0], /put there by hand/);
});

live("an order that stores the word that is there has not changed it", async (laboratory) => {
    await laboratory.say("put 0000 b 0004", "put 0001 h 0005", "put 0002 h 0005", "put 0004 = 3", "press start");
    await laboratory.step(3);
    assert.deepEqual([laboratory.accounts.at(-1).stored.address, laboratory.writerOf("0005").at], ["0005", "0001"]);
});

live("what a line of the reader tells in columns, the page shows as well", async (laboratory) => {
    await laboratory.say("put 0000 b 0003", "put 0001 h 0004", "put 0002 u 0000", "put 0003 = 4", "press start");
    const reply = await laboratory.say("trace 2");
    assert.deepEqual([reply, laboratory.talk.at(-1)], [laboratory.talk.at(-1).reply, { line: "trace 2", reply }]);
    assert.match(reply, /^ {2}clock {2}at [^]*\nran 2 limit\n$/);
    const [bring, hold] = laboratory.accounts;
    assert.deepEqual([laboratory.accounts.length, bring.order, bring.after, hold.stored.after.number], [2, "b 0003", "00000008", 4]);
    assert.deepEqual([laboratory.panel.clock, laboratory.history.behind], [165n, 2]);
    await laboratory.say("profile 3");
    assert.deepEqual(
        [laboratory.profile.orders, laboratory.profile.times, laboratory.profile.places.length],
        [3, Number(laboratory.panel.clock) - 165, 3]
    );
    await laboratory.say("profile 5000");
    assert.deepEqual([laboratory.profile, laboratory.history.behind], [null, 5005]);
    await laboratory.step();
    assert.deepEqual(laboratory.talk.at(-1), { line: "json trace-data 1", reply: "ran 1 limit\n" });
});

live("the last orders are the last ones, or none", async (laboratory) => {
    const untold = [
        () => laboratory.run(5), () => laboratory.say("orders 2"), () => laboratory.say("run 2"), () => laboratory.say("profile 2"),
        () => laboratory.say("go 0000"),
    ];
    for (const action of untold) {
        await laboratory.openScript("self-modifying", exampleNamed("self-modifying"));
        await laboratory.step(3);
        assert.deepEqual([laboratory.accounts.length, laboratory.rows.length > 0], [3, true]);
        await action();
        assert.deepEqual([laboratory.accounts, laboratory.rows], [[], []], String(action));
        await laboratory.step(2);
        assert.equal(laboratory.accounts.length, 2);
    }
    await laboratory.say("back 1");
    assert.deepEqual([laboratory.accounts.length, laboratory.rows], [1, []]);
});

live("rules are kept by their numbers", async (laboratory) => {
    await laboratory.say("break 0100", "watch 0009", "break 0200", "drop 1");
    assert.deepEqual(laboratory.rules, ["break 0100", "break 0200"]);
});

live("what is saved leads to the same place", async (laboratory) => {
    await laboratory.openScript("matches", exampleNamed("games/matches"));
    await laboratory.step(30);
    const { panel } = laboratory;
    await laboratory.openScript("saved", await laboratory.transcript());
    await laboratory.scriptLines(Infinity);
    assert.deepEqual(laboratory.panel, panel);
});

/** A loop of two orders that brings a word and goes on, and in it a rule. */
const LOOP = ["put 0000 b 0003", "put 0001 u 0000", "put 0003 = 4", "break 0001", "watch 0003", "press start"];

/** The panel, all words, what is printed and the rules, and where the orders done lead back to: what a question must not change. */
async function standOf(laboratory, link, orders) {
    const asked = ["panel", "dump", "printed", "rules", "live"];
    const here = await link.askAll(asked);
    const there = await link.askAll([`back ${orders}`, ...asked, ...asked.slice(0, 2), `orders ${orders}`]);
    return [here, there, laboratory.panel, laboratory.history.behind, laboratory.history.ahead];
}

live("what a word would have cost is asked of the last orders, and the machine and its rules are as they were", async (laboratory, link) => {
    await laboratory.say(...LOOP);
    await laboratory.run();
    await laboratory.run();
    await laboratory.step(3);
    const { orders, sum } = { orders: laboratory.history.behind, sum: Number(laboratory.panel.clock) };
    const before = await standOf(laboratory, link, orders);
    const accounts = laboratory.accounts.length;
    await laboratory.askCosts("0003");
    const { costs } = laboratory;
    assert.deepEqual(
        [costs.orders, costs.times, costs.address, costs.kind, costs.refusal, costs.sectors.length], [orders, sum, "0003", "free", null, 64]
    );
    assert.equal(costs.sectors.find(({ isOwn }) => isOwn).times - costs.sectors.find(({ isBest }) => isBest).times, costs.saved);
    assert.deepEqual(await standOf(laboratory, link, orders), before);
    assert.equal(laboratory.accounts.length, accounts);
    await laboratory.say("press manual");
    assert.equal(laboratory.costs, null);
    await laboratory.openScript("saved", await laboratory.transcript());
    await laboratory.scriptLines(Infinity);
    assert.deepEqual([laboratory.panel.clock, laboratory.rules], [BigInt(sum), ["break 0001", "watch 0003"]]);
});

live("of a long run the orders are asked for that are kept, and of none that is said", async (laboratory) => {
    await laboratory.say("put 0000 b 0000", "put 0001 a 0003", "put 0002 u 0000", "press start");
    await laboratory.askCosts("0003");
    assert.deepEqual(
        [laboratory.costs.kind, laboratory.costs.address, laboratory.costs.reason],
        ["none", null, "no order waited for it or stood there, so its sector makes no difference"]
    );
    await laboratory.run(6000);
    const { panel } = laboratory;
    for (const [address, kind] of [["0003", "free"], ["0005", "unnamed"], ["0002", "performed"], ["0000", "performed"]]) {
        await laboratory.askCosts(address);
        assert.deepEqual([laboratory.costs.orders, laboratory.costs.address, laboratory.costs.kind], [4096, address, kind]);
    }
    await laboratory.say("words 0000 1");
    assert.deepEqual([laboratory.panel, laboratory.history.behind], [panel, 6000]);
    await laboratory.say("press manual", "put 0003 = 5", "press normal", "press start");
    await laboratory.askCosts("0003");
    assert.equal(laboratory.costs.kind, "none");
    await laboratory.run(10);
    await laboratory.back(4);
    await laboratory.askCosts("0003");
    assert.deepEqual([laboratory.costs.orders, laboratory.history.ahead], [6, 4]);
});

live("a line that asks what a word would have cost is a run, and shows it", async (laboratory) => {
    await laboratory.say(...LOOP.slice(0, 3), "press start");
    await laboratory.say("optimum 10 0003");
    assert.deepEqual([laboratory.costs.orders, laboratory.costs.address, laboratory.history.behind], [10, "0003", 10]);
    await laboratory.say("optimum 10");
    assert.deepEqual([laboratory.costs, laboratory.history.behind], [null, 20]);
    await laboratory.say("optimum 2000000 0003");
    assert.deepEqual([laboratory.notice.kind, laboratory.history.behind], ["tooMany", 20]);
    await laboratory.say("optimum 5 none");
    assert.deepEqual([laboratory.notice.kind, laboratory.costs], ["Form", null]);
    await laboratory.openScript("told", `${LOOP.slice(0, 3).join("\n")}\npress start\noptimum 4 0003\n`);
    assert.deepEqual([laboratory.script.at, laboratory.history.behind], [4, 0]);
});

live("the last orders of a run are told after it, where that is wanted, and nothing of that is in the transcript", async (laboratory) => {
    await laboratory.openScript("self-modifying", exampleNamed("self-modifying"));
    laboratory.wantsLast = true;
    const before = await laboratory.transcript();
    await laboratory.run(5);
    assert.deepEqual(laboratory.accounts.map(({ at }) => at), ["0000", "0001", "0004", "0005", "0006"]);
    await laboratory.say("break 0009", "break 0012");
    await laboratory.run();
    await laboratory.run();
    const { panel: { counter, clock }, accounts, rules } = laboratory;
    assert.deepEqual(
        [counter, accounts.at(-1).at, accounts.length, rules.map((rule) => rule.slice(0, 10))],
        ["0012", "0011", 10, ["break 0009", "break 0012"]]
    );
    assert.equal(accounts.at(-1).clock + BigInt(accounts.at(-1).sum), clock);
    await laboratory.say("drop 0", "drop 0");
    await laboratory.run();
    assert.equal(laboratory.accounts.length, 12);
    assert.equal((await laboratory.transcript()).replace(/^run \d+\n/gm, ""), `${before}break 0009\nbreak 0012\ndrop 0\ndrop 0\n`);
});

live("after runs with a press of Start between them the orders of the last one are told", async (laboratory) => {
    laboratory.wantsLast = true;
    await laboratory.say("put 0000 p =h", "put 0001 z", "put 0002 p =i", "put 0003 z", "press start");
    await laboratory.operate();
    assert.deepEqual([laboratory.printed.text, laboratory.panel.status], ["hi", "halted stop"]);
    assert.deepEqual([laboratory.history.unbroken, laboratory.accounts.length], [1, 1]);
});

live("the whole drum is asked once for each state", async (laboratory, link) => {
    await laboratory.say("put 0100 00000004");
    const { drum } = { drum: await laboratory.drum() };
    assert.deepEqual([drum.length, drum[64], drum[0]], [4096, "00000004", "00000000"]);
    assert.equal(await laboratory.drum(), drum);
    await laboratory.say("put 0000 00000002");
    assert.equal((await laboratory.drum())[0], "00000002");
    // a source that is being opened takes none of the questions
    const [, asked] = await Promise.all([laboratory.say("source", " z"), laboratory.drum()]);
    assert.deepEqual([laboratory.openSource, asked?.length ?? null, await laboratory.drum()], [[" z"], 4096, null]);
    await laboratory.say(" end", ".");
    assert.deepEqual(laboratory.assembled.faults, []);
    assert.doesNotMatch(await laboratory.transcript(), /numbers/);
}, LINKS.slice(0, 1));

live("how much was loaded, and by how many orders, is known until an order is performed", async (laboratory) => {
    const source = " h 0002\n z\n end 0000\n";
    await laboratory.load(source);
    assert.equal(laboratory.talk.at(-1).reply, "loaded 33\n");
    assert.deepEqual(laboratory.loading, { words: 2, orders: 33 });
    await laboratory.command("press start");
    assert.deepEqual(laboratory.loading, { words: 2, orders: 33 });
    await laboratory.step(1);
    assert.equal(laboratory.loading, null);
    await laboratory.back(1);
    assert.equal(laboratory.loading, null);
    await laboratory.assemble(" q");
    await laboratory.say("load");
    assert.deepEqual(laboratory.loading, { words: 2, orders: 33 });
    await laboratory.command("press start");
    await laboratory.run();
    assert.equal(laboratory.loading, null);
    await laboratory.load(source);
    await laboratory.new();
    assert.equal(laboratory.loading, null);
});

live("how long the orders took that are counted is known without what the loading took before them", async (laboratory) => {
    await laboratory.say("source", "first b two", " a two", " z", "two int 2 30", " end first", ".", "load");
    const loaded = laboratory.panel.clock;
    assert.ok(loaded > 10_000n);
    await laboratory.run(9);
    assert.deepEqual([laboratory.begunAt, laboratory.history.behind], [loaded, 3]);
    await laboratory.back(3);
    assert.equal(laboratory.begunAt, loaded);
    await laboratory.say("new");
    assert.equal(laboratory.begunAt, 0n);
});

live("the source that was loaded is known until a new laboratory is opened", async (laboratory) => {
    await laboratory.load(" z\n end 0000");
    assert.equal(laboratory.loaded, " z\n end 0000");
    await laboratory.assemble(" q");
    await laboratory.say("load");
    assert.equal(laboratory.loaded, " z\n end 0000");
    await laboratory.new();
    assert.equal(laboratory.loaded, null);
});

live("what is pressed while a run goes on is done between two of its portions, and the run goes on", async (laboratory, link) => {
    await laboratory.say("put 0000 u 0000", "press start");
    const [ask, presses, done] = [link.ask.bind(link), { 2: "press bp32 down", 4: "press manual" }, []];
    let portions = 0;
    link.ask = (line) => {
        portions += line.startsWith("run ") ? 1 : 0;
        if (line.startsWith("run ") && portions in presses) {
            laboratory.command(presses[portions]).then(() => done.push(presses[portions], laboratory.panel.down.bp32));
        }
        return ask(line);
    };
    const { orders, end } = await laboratory.run(100_000_000);
    assert.deepEqual([end, portions, done], ["rest", 5, ["press bp32 down", true, "press manual", true]]);
    assert.ok(orders >= 4 * 20_000, `${orders}`);
    assert.match(laboratory.lines.join("\n"), /run \d+\nrun \d+\npress bp32 down\nrun \d+\nrun \d+\npress manual\nrun \d+$/);
});

live("what is pressed while a run goes on is told at once as awaited, until it is done", async (laboratory, link) => {
    await laboratory.say("put 0000 u 0000", "press start");
    const [ask, told] = [link.ask.bind(link), []];
    const note = () => told.push([laboratory.awaited.join(), laboratory.panel.down.bp32]);
    let portions = 0;
    link.ask = (line) => {
        portions += line.startsWith("run ") ? 1 : 0;
        if (line.startsWith("run ") && portions === 2) {
            laboratory.addEventListener("change", note);
            laboratory.command("press bp32 down")
                .then(() => laboratory.removeEventListener("change", note))
                .then(note)
                .then(() => laboratory.command("press manual"));
        }
        return ask(line);
    };
    await laboratory.run(100_000_000);
    assert.deepEqual([told[0], told.at(-1), laboratory.awaited], [["press bp32 down", false], ["", true], []]);
});

live("a run to the next print ends soon after it; where nothing is printed it says so", async (laboratory) => {
    await laboratory.say("put 0000 b 0050", "put 0001 p 4600", "put 0002 u 0001", "put 0050 = 3", "press start");
    assert.deepEqual([await laboratory.runToPrint(1000), laboratory.printed.count > 0, laboratory.performed <= 100], [true, true, true]);
    await laboratory.new();
    await laboratory.say("put 0000 u 0000", "press start");
    assert.deepEqual([await laboratory.runToPrint(200), laboratory.performed], [false, 200]);
});
