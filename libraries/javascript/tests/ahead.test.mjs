// What lies ahead of a place that was gone back to.
import assert from "node:assert/strict";
import { test } from "node:test";
import { Ahead, goesBack } from "../ahead.mjs";

const LEFT = "put 0000 u 0000\nrun 9\n";

/** After `back 3` and `back 2`. */
function goneBack() {
    const ahead = new Ahead();
    ahead.answered("back", ["3"], "clock 50\n", LEFT, `${LEFT}back 3\n`);
    ahead.answered("back", ["2"], "clock 30\n", `${LEFT}back 3\n`, `${LEFT}back 3\nback 2\n`);
    return ahead;
}

test("three commands go back", () => {
    assert.deepEqual(["back", "last", "to", "run", "at"].filter(goesBack), ["back", "last", "to"]);
});

test("nothing lies ahead where nothing was gone back over, or was refused", () => {
    const ahead = new Ahead();
    assert.match(ahead.refusalAt("", null), /^nothing was gone back over/);
    ahead.answered("back", ["9"], "? 7 TooFar 2: only this many orders are kept\n", LEFT, LEFT);
    assert.match(ahead.refusalAt(LEFT, null), /^nothing was gone back over/);
});

test("what was gone back over in parts lies ahead as a whole", () => {
    const ahead = goneBack();
    const here = `${LEFT}back 3\nback 2\n`;
    assert.equal(ahead.refusalAt(here, 4), null);
    assert.deepEqual(ahead.way(4), { lines: ["put 0000 u 0000", "run 9"], line: "back 1" });
    assert.deepEqual([5, 9, null].map((orders) => ahead.way(orders).line), [null, null, null]);
    ahead.went(`${LEFT}back 1\n`, 4);
    assert.deepEqual(ahead.way(1), { lines: ["put 0000 u 0000", "run 9"], line: null });
    ahead.went(LEFT, 1);
    assert.match(ahead.refusalAt(LEFT, null), /^nothing was gone back over/);
});

test("an order that was gone to is one of a number", () => {
    const ahead = new Ahead();
    ahead.answered("to", ["last", "0000"], "order 4 clock 30\n", LEFT, "put 0000 u 0000\norders 4\n");
    assert.equal(ahead.way(3).line, "to 7");
    ahead.went("put 0000 u 0000\norders 7\n", 3);
    assert.equal(ahead.way(1).line, "to 8");
    assert.equal(ahead.way(null).line, null);
});

test("a rule's order counts, and both ways together have no number", () => {
    const ahead = new Ahead();
    ahead.answered("last", [], "back 2 rule 0\n", LEFT, `${LEFT}last\n`);
    assert.equal(ahead.way(1).line, "back 1");
    ahead.answered("to", ["1"], "order 1 clock 9\n", `${LEFT}last\n`, "put 0000 u 0000\norders 1\n");
    assert.match(ahead.refusalAt("put 0000 u 0000\norders 1\n", 1), /^back and to were both used/);
    assert.equal(ahead.refusalAt("put 0000 u 0000\norders 1\n", null), null);
    assert.deepEqual(ahead.way(null), { lines: ["put 0000 u 0000", "run 9"], line: null });
});

test("what was done since then is said", () => {
    const ahead = goneBack();
    assert.equal(ahead.refusalAt(`${LEFT}back 3\nback 2\npress start\n`, null), "something else was done since then: press start");
    assert.equal(ahead.refusalAt("", null), "something else was done since then");
});
