import assert from "node:assert/strict";
import { test } from "node:test";
import { barsOf, placed, untoldOf } from "../views/timeline.mjs";

const account = (clock, fields = {}) => (
    { clock, order: "b 0020", at: "0004", find: 24, take: 1, seek: 15, act: 1, stored: null, ...fields }
);
const told = (bars) => bars.map(({ kind, from, times }) => [kind, from, times]);

test("a told order has a bar for each phase, and what was not told one bar up to it and after it", () => {
    assert.deepEqual(
        told(barsOf([account(10n)], 60n)),
        [["untold", 0, 10], ["find", 10, 24], ["take", 34, 1], ["seek", 35, 15], ["act", 50, 1], ["untold", 51, 9]]
    );
    assert.deepEqual(told(barsOf([account(0n), account(50n)], 91n)).filter(([kind]) => kind === "untold"), [["untold", 41, 9]]);
    assert.deepEqual(told(barsOf([], 60n)), [["untold", 0, 60]]);
    assert.deepEqual(told(barsOf([account(0n, { find: 0, take: 0 })], 16n)), [["seek", 0, 15], ["act", 15, 1]]);
});

test("an order that was rewritten is marked where that was done", () => {
    const word = (digits) => ({ digits, order: null });
    const stored = { address: "0009", before: word("000q0000"), after: word("000q0100") };
    assert.deepEqual(told(barsOf([account(0n, { order: "y 0009", stored })], 41n)).at(-1), ["rewritten", 41, 0]);
});

test("what was not told has a third of the line at most, where something was told", () => {
    const bars = [
        { kind: "untold", from: 0, times: 9000 },
        { kind: "find", from: 9000, times: 30 },
        { kind: "rewritten", from: 9030, times: 0 },
        { kind: "act", from: 9030, times: 10 },
    ];
    assert.deepEqual(placed(bars, 100).map(({ from, width }) => [from, width].map(Math.round)), [[0, 30], [30, 53], [83, 0], [83, 18]]);
    assert.deepEqual(placed([{ kind: "untold", from: 0, times: 10 }], 100), [{ kind: "untold", from: 0, width: 100 }]);
    assert.deepEqual(placed(bars.slice(0, 2), 1000, false).map(({ width }) => Math.round(width)), [24, 976]);
    assert.deepEqual(
        placed([{ kind: "untold", from: 0, times: 10 }, { kind: "act", from: 10, times: 90 }], 100).map(({ width }) => Math.round(width)),
        [10, 90]
    );
});

test("the orders that were not told are counted as far as they can be", () => {
    assert.equal(untoldOf({ history: { behind: 42 } }, 12), 30);
    assert.equal(untoldOf({ history: { behind: 0 } }, 3), 0);
});
