import assert from "node:assert/strict";
import { test } from "node:test";

globalThis.document ??= {};
const { rowsOf, usedBy } = await import("../views/map.mjs");

const account = (fields) => ({ at: "0000", order: "b 0050", word: "0050", stored: null, ...fields });

test("a word is used as the accounts tell it, and the last use counts", () => {
    const used = usedBy([
        account({}),
        account({ at: "0001", order: "h 0050", stored: { address: "0050" } }),
        account({ at: "0002", order: "u 0000", word: null }),
        account({ at: null, order: "z 0050", word: null }),
    ]);
    assert.deepEqual(used.get("0050"), { performed: 0, read: 1, written: 1, kind: "written", ago: 2 });
    assert.deepEqual(used.get("0000"), { performed: 1, read: 0, written: 0, kind: "performed", ago: 3 });
    assert.deepEqual([...used.keys()], ["0000", "0050", "0001", "0002"]);
});

test("tracks with words are higher, and all have room", () => {
    const rows = rowsOf(Array.from({ length: 64 }, (unused, track) => track < 2), 300);
    assert.deepEqual([rows[0].height, rows[2].top], [16, 32]);
    assert.ok(Math.abs(rows[63].top + rows[63].height - 300) < 0.01);
    const low = rowsOf(Array.from({ length: 64 }, (unused, track) => track < 2 || track === 63), 96);
    assert.ok(low.every(({ height }) => height >= 0.75) && low[0].height === 16 && Math.abs(low[63].top + low[63].height - 96) < 0.01);
    const full = rowsOf(Array(64).fill(true), 200);
    assert.ok(full.every(({ height }) => height === 200 / 64));
});
