// Word times as turns of the drum: as the monitor cuts them off, and in the singular where there is one.
import assert from "node:assert/strict";
import { test } from "node:test";
import { textsIn, turnsOf } from "../words.mjs";

test("turns are cut off after one digit, and one turn is no turns", () => {
    const [en, de] = ["en", "de"].map((code) => textsIn(code));
    assert.deepEqual(
        [2910, 7727, 64, 68, 0, 32].map((times) => turnsOf(times, en)),
        ["45.4 turns", "120.7 turns", "1 turn", "1 turn", "0 turns", "0.5 turns"]
    );
    assert.deepEqual([2910, 68].map((times) => turnsOf(times, de)), ["45,4 Umdrehungen", "1 Umdrehung"]);
});
