// A typed `operate` is a run, as the page shows and counts it, and Run goes by it where that is wanted: with the replies of the fake
// worker, and with those of
// the module, where that is there.
import assert from "node:assert/strict";
import { existsSync } from "node:fs";
import { test } from "node:test";
import { fileURLToPath } from "node:url";
import { Controller } from "../controller.mjs";
import { linesIn, setUp } from "../lines.mjs";
import { LIMITS, MemoryBudget } from "../memory_budget.mjs";
import { startsOf } from "../../libraries/javascript/replies.mjs";
import { ModuleLink } from "../module_link.mjs";

const module = fileURLToPath(new URL("../../libraries/javascript/lgp_c_region.wasm", import.meta.url));

const worker = { last: "", postMessage({ reply }) { this.last = reply; } };
globalThis.self = worker;
await import("./fake_worker.mjs");

/** A laboratory over the fake worker, which has answered some lines. */
async function after(...lines) {
    const ask = async (line) => {
        worker.onmessage({ data: { lines: [line] } });
        return worker.last;
    };
    const askAll = async (all) => (await Promise.all(all.map(ask))).join("");
    const laboratory = new Controller({ opened: Promise.resolve(), ask, askAll });
    await laboratory.open();
    await laboratory.say(...lines);
    return laboratory;
}

test("operate counts as a run where it has not pressed Start; else, where none tells the orders before that, those after it can be gone back over", async () => {
    for (const [line, behind] of [["operate 1", 8], ["operate 100", 2]]) {
        const { history, notice } = await after("run 7", "press start", line);
        assert.deepEqual([history.behind, notice], [behind, null], line);
    }
    const { talk } = await after("operate 100");
    assert.deepEqual(talk.at(-1), { line: "operate 100", reply: "ran 2 rest\n        started again at a z after a p: 2\n" });
});

test("how often Start was pressed", () => {
    assert.deepEqual(["ran 2 rest\n", "ran 2 rest\n        started again at a z after a p: 17\n"].map(startsOf), [0, 17]);
});

test("a script is set up as far as its first operate", () => {
    assert.equal(setUp(["put 0000 z", "press start", "operate 100", "printed"]), 2);
});

test("operate may perform as many runs as its orders, and one more: what memory holds is as much", () => {
    const budget = new MemoryBudget();
    const most = budget.mostIn("operate 1000");
    assert.deepEqual(
        [most, budget.mostIn(`operate ${most}`), most * (most + 1) <= LIMITS.codes, (most + 1) * (most + 2) > LIMITS.codes],
        [999, null, true, true]
    );
});

test("operate by the module: each of its orders is gone back over, and performed again", { skip: !existsSync(module) }, async () => {
    const laboratory = new Controller(new ModuleLink(module));
    await laboratory.open();
    await laboratory.say("put 0000 p =h", "put 0001 z", "put 0002 p =i", "put 0003 z", "put 0004 z", "press start", "operate 100");
    assert.deepEqual([laboratory.printed.text, laboratory.history.behind, laboratory.panel.counter], ["hi", 5, "0005"]);
    for (const [orders, counter] of [[1, "0004"], [2, "0003"], [4, "0001"], [5, "0000"]]) {
        await laboratory.back(orders);
        assert.deepEqual([laboratory.history.ahead, laboratory.panel.counter], [orders, counter]);
        await laboratory.forward(orders);
        assert.deepEqual([laboratory.history.behind, laboratory.panel.counter, laboratory.printed.text], [5, "0005", "hi"]);
    }
    await laboratory.goTo(1);
    await laboratory.goTo(3);
    assert.deepEqual([laboratory.history.behind, laboratory.history.ahead, laboratory.panel.counter], [3, 2, "0003"]);
});

/** A laboratory over the module that has answered some lines, and its link. */
async function overModule(...lines) {
    const link = new ModuleLink(module);
    const laboratory = new Controller(link);
    await laboratory.open();
    await laboratory.say(...lines);
    return { laboratory, link };
}

/** What was sent for a run. */
const runsIn = ({ sent }) => sent.filter((line) => /^(run|operate)/.test(line));

const TWO = ["put 0000 p =h", "put 0001 z", "put 0002 p =i", "put 0003 z", "put 0004 z", "press start"];

test("Run halts at a z after a p, and by operate it goes on to the end", { skip: !existsSync(module) }, async () => {
    const { laboratory, link } = await overModule(...TWO);
    await laboratory.run();
    assert.deepEqual(
        [laboratory.printed, laboratory.panel.status, laboratory.panel.counter], [{ count: 1, text: "h" }, "halted stop", "0002"]
    );
    assert.deepEqual([laboratory.lastRun.starts, laboratory.talk.at(-1)], [0, { line: "run", reply: "ran 2 rest\n" }]);
    await laboratory.operate();
    assert.deepEqual([laboratory.printed, laboratory.panel.counter, laboratory.notice], [{ count: 2, text: "hi" }, "0005", null]);
    const { orders, starts, end } = laboratory.lastRun;
    assert.deepEqual([orders, starts, end], [1, 2, "rest"]);
    assert.deepEqual(laboratory.talk.at(-1), { line: "operate", reply: "ran 1 rest\n        started again at a z after a p: 2\n" });
    assert.deepEqual(runsIn(link), ["run 20000", "run 20000", "operate 100"]);
    const script = linesIn(await laboratory.transcript());
    assert.deepEqual(
        script.filter((line) => /^(run|press)/.test(line)),
        ["press start", "run 20000", "run 20000", "run 100", "press start", "run 100", "press start", "run 100"]
    );
});

test("by operate a machine at rest is told, and the orders of a run without a start can be gone back over", { skip: !existsSync(module) }, async () => {
    const { laboratory } = await overModule("put 0000 b 0002", "put 0001 z", "press start");
    await laboratory.operate();
    assert.deepEqual(
        [laboratory.notice, laboratory.history.behind, laboratory.talk.at(-1)], [null, 2, { line: "operate", reply: "ran 2 rest\n" }]
    );
    await laboratory.operate();
    assert.deepEqual([laboratory.notice, laboratory.history.behind], [{ kind: "atRest" }, 2]);
});

test("a rule stops a run by operate between two prints", { skip: !existsSync(module) }, async () => {
    const { laboratory } = await overModule(...TWO, "break 0003");
    await laboratory.operate();
    assert.deepEqual(
        [laboratory.notice, laboratory.panel.counter], [{ kind: "rule", number: 0, rule: "break 0003", isOfScript: false }, "0003"]
    );
    await laboratory.command("drop 0");
    await laboratory.operate();
    assert.deepEqual([laboratory.notice, laboratory.printed.text], [null, "hi"]);
});

const ENDLESS = ["put 0000 p =h", "put 0001 z", "put 0002 u 0000", "press start"];

test("a run by operate that prints much asks whether to go on", { skip: !existsSync(module) }, async () => {
    const { laboratory, link } = await overModule(...ENDLESS);
    const { end } = await laboratory.operate();
    assert.deepEqual([end, laboratory.notice], ["printed", { kind: "printedMuch", count: laboratory.printed.count }]);
    assert.ok(laboratory.printed.count >= LIMITS.asksAfter && laboratory.printed.count < LIMITS.asksAfter + 2000);
    assert.ok(runsIn(link).slice(1).every((line) => /^operate \d{3}$/.test(line)), runsIn(link).join());
    assert.equal(laboratory.lastRun.starts, laboratory.printed.count - 1);
});

test("a run by operate is stopped after its portion, and a long way between two prints is run in larger ones", { skip: !existsSync(module) }, async () => {
    // 0003 counts 5000 down between two prints
    const loop = [
        "put 0000 b 0020", "put 0001 h 0021", "put 0002 b 0021", "put 0003 s 0022", "put 0004 h 0021", "put 0005 t 0007", "put 0006 u 0002",
        "put 0007 p =h", "put 0008 z", "put 0009 u 0000",
    ];
    const { laboratory, link } = await overModule(...loop, "put 0020 = 5000", "put 0022 = 1", "press start");
    laboratory.addEventListener("change", () => { if (laboratory.progress?.starts > 2) laboratory.stop(); });
    const { starts } = await laboratory.operate();
    assert.ok(starts > 2 && laboratory.printed.count >= starts, `${starts}`);
    assert.match(laboratory.talk.at(-1).reply, /^ran \d+ until stopped\n {8}started again at a z after a p: \d+\n$/);
    assert.ok(runsIn(link).some((line) => /^run \d{5,}$/.test(line)), runsIn(link).join());
    assert.equal(laboratory.notice, null);
});

test("the paper is the monitor's, where that has it", async () => {
    assert.deepEqual((await after("run 1")).printed, { count: 6, text: "ab\nc d" });
});
