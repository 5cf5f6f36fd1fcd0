// The Flexowriter as numbers: each key strikes its own code, the holes are the code's, and the carriage stands above the next column.
import assert from "node:assert/strict";
import { test } from "node:test";
import { ActionHistory } from "../action_history.mjs";
import { KEY_ROWS, SPACE, STOP, carriageAt, columnOf, columnsIn, holesOf, keyOf, piecesOf, stateOf, textOnPaper } from "../flexowriter.mjs";
import { codesOf } from "../../libraries/javascript/replies.mjs";

const keys = [...KEY_ROWS.flatMap(([row]) => [...row]), SPACE, STOP];

test("each key strikes one code, and each code with a sign has one key", () => {
    assert.equal(new Set(keys).size, keys.length);
    for (const key of keys) assert.equal(keyOf(codesOf(key)[0].code), key);
    const struck = Array.from({ length: 64 }, (unused, code) => keyOf(code)).filter((sign) => sign !== null);
    assert.deepEqual(struck.sort(), [...keys].sort());
    assert.equal(keyOf(16), null);
});

test("the holes of a code are its bits, the lowest first", () => {
    for (let code = 0; code < 64; code += 1) {
        assert.equal(holesOf(code).reduce((sum, isHole, bit) => sum + (isHole ? 2 ** bit : 0), 0), code);
    }
});

test("it reads while codes are to pass, waits where keys are live, and was typed at before the next print", () => {
    const rests = { coming: 0, isReading: false, isLive: false, isTyped: false };
    assert.equal(stateOf(rests), "idle");
    assert.equal(stateOf({ ...rests, isTyped: true }), "idle");
    assert.equal(stateOf({ ...rests, isLive: true }), "waiting");
    assert.equal(stateOf({ ...rests, isLive: true, isTyped: true }), "typed");
    for (const reads of [{ coming: 3 }, { isReading: true }]) assert.equal(stateOf({ ...rests, isLive: true, ...reads }), "reading");
});

test("the next column is that after the last sign, in a line that is broken where it is full", () => {
    assert.deepEqual(
        ["", "good", "good\n", "good\nda", "0123456789", "01234567890"].map((text) => columnOf(text, 10)), [0, 4, 0, 2, 10, 1]
    );
});

test("carriage and guide together stand above the next column, and the carriage stays within its room", () => {
    for (const room of [0, 20, 75, 500]) for (let column = 0; column <= 30; column += 1) {
        const { shift, guide } = carriageAt({ column, columns: 30, width: 9, room });
        // from the sheet's middle, which has moved by the shift, the column lies where it would without
        assert.ok(Math.abs(guide - (shift + column * 9 - 135)) < 1);
        assert.ok(Math.abs(shift) <= Math.min(room, 135) + 1e-9);
    }
    assert.deepEqual([0, 30].map((column) => carriageAt({ column, columns: 30, width: 9, room: 500 }).guide), [0, 0]);
    assert.deepEqual([columnsIn(346, 9, 36), columnsIn(10, 9, 36)], [26, 12]);
});

test("what was typed stands between what was printed, where it was typed", () => {
    assert.deepEqual(piecesOf("12\n30", []), [{ printed: "12\n30" }]);
    assert.deepEqual(
        piecesOf("12\n30", [{ at: 3, keys: "1" }, { at: 3, keys: "8'" }]),
        [{ printed: "12\n" }, { typed: "18'", isLine: true }, { printed: "30" }]
    );
    assert.deepEqual(
        piecesOf("ab", [{ at: 1, keys: "x" }, { at: 2, keys: "y" }]),
        [{ printed: "a" }, { typed: "x", isLine: false }, { printed: "b" }, { typed: "y", isLine: false }]
    );
    assert.equal(textOnPaper(piecesOf("12\n30", [{ at: 3, keys: "18'" }])), "12\n18\n30");
    assert.equal(textOnPaper(piecesOf("you take ", [{ at: 9, keys: "2'" }])), "you take 2");
    // what was gone back over is not on the paper any more
    assert.deepEqual(piecesOf("", [{ at: 2, keys: "y" }]), []);
});

test("what was typed is gone after a way back, there again after the way on, and stays where its orders are forgotten", () => {
    const history = new ActionHistory();
    history.orders(2);
    history.line("type 12'", false, 4);
    history.orders(3);
    const typed = [{ at: 4, keys: "12'" }];
    assert.deepEqual(history.typed, typed);
    history.back(4);
    assert.deepEqual(history.typed, []);
    history.orders(1, true);
    history.line("type 12'", true, 4);
    assert.deepEqual(history.typed, typed);
    history.clear();
    assert.deepEqual(history.typed, typed);
    history.begin();
    assert.deepEqual(history.typed, []);
});
