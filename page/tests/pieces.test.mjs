// Pieces of paper: their rows, what two of them share, what types a row again, and what is kept of those that were torn off.
import assert from "node:assert/strict";
import { test } from "node:test";
import { Pieces, copyOf, differing, inView, rowsOf, sideBySide, typedAgain } from "../pieces.mjs";

const shown = (rows) => rows.map(({ text, isTyped }) => ({ text, isTyped }));
const printed = (...texts) => texts.map((text) => ({ text, isTyped: false }));

test("a paper is rows, what was typed at the beginning of a line has one of its own, and a long line goes on in the next row", () => {
    assert.deepEqual(rowsOf("", []), []);
    assert.deepEqual(shown(rowsOf("12\n30\n", [])), printed("12", "30"));
    assert.deepEqual(
        shown(rowsOf("12\n30", [{ at: 3, keys: "1000 '" }, { at: 3, keys: "-0059'" }])),
        [...printed("12"), { text: "1000  -0059", isTyped: true }, ...printed("30")]
    );
    assert.deepEqual(shown(rowsOf("you take 2\n", [{ at: 9, keys: "2'" }])), printed("you take 22"));
    assert.deepEqual(shown(rowsOf("", [{ at: 0, keys: "7'" }])), [{ text: "7", isTyped: true }]);
    assert.deepEqual(rowsOf("x".repeat(250), []).map(({ text }) => text.length), [100, 100, 50]);
    assert.deepEqual(
        rowsOf(`${"x".repeat(101)}\n30\n31`, [{ at: 102, keys: "7'" }]).map(({ text, returns }) => [text.length, returns]),
        [[100, 0], [1, 0], [1, 1], [2, 1], [2, 2]]
    );
    assert.equal(copyOf([{ text: "7", isTyped: true }, ...printed("12")], "typed"), "‹typed› 7\n12\n");
});

test("a row is typed again as its numbers, each with a conditional stop", () => {
    assert.deepEqual(typedAgain({ text: "1000 -0059 -0058  0240" }), ["1000'", "-0059'", "-0058'", "0240'"]);
    assert.deepEqual(typedAgain({ text: "good day" }), []);
});

test("rows that begin with the same number stand side by side, and the first that differs is told", () => {
    const [left, right] = [
        printed("1000 1", "1025 2", "1050 3", "1100 9"),
        [...printed("1725 0"), { text: "1000 1", isTyped: true }, ...printed("1000 1", "1025 4", "1075 5", "1100 9")],
    ];
    const { pairs, shared, differs } = sideBySide(left, right);
    assert.deepEqual([shared, differs], [3, "1025"]);
    assert.deepEqual(
        pairs.map(([one, other]) => [one?.text ?? null, other?.text ?? null]),
        [
            [null, "1725 0"], [null, "1000 1"], ["1000 1", "1000 1"], ["1025 2", "1025 4"], ["1050 3", null], [null, "1075 5"],
            ["1100 9", "1100 9"],
        ]
    );
    assert.deepEqual(pairs.map(([row]) => row).filter((row) => row !== null), left);
    assert.deepEqual(pairs.map(([, row]) => row).filter((row) => row !== null), right);
    assert.deepEqual(differing("0261", "0262"), [{ text: "026", isOther: false }, { text: "1", isOther: true }]);
});

test("of two thousand rows few are nodes", () => {
    for (let top = 0; top < 44_000; top += 997) {
        const { first, end } = inView({ top, height: 800, row: 22, count: 2000 });
        assert.ok(end - first < 140 && first * 22 <= top && end * 22 >= Math.min(top + 800, 44_000));
    }
});

/** A place for one text. */
const place = () => {
    let kept = null;
    return { of: () => kept, keep: (text) => { kept = text; } };
};

test("a piece that is torn off is kept with what was typed on it, and the paper in the machine is empty then", () => {
    const pieces = new Pieces(place());
    assert.equal(pieces.tear("", [], "10:40"), undefined);
    assert.equal(pieces.tear("12\n", [{ at: 3, keys: "7'" }], "10:41"), null);
    assert.deepEqual(pieces.all, {
        torn: 3, typedTorn: 1, pieces: [{ number: 1, at: "10:41", text: "12\n", typed: [{ at: 3, keys: "7'" }] }],
    });
    assert.deepEqual(pieces.rest("12\n", [{ at: 3, keys: "7'" }]), { text: "", typed: [] });
    assert.deepEqual(pieces.rest("12\n30", [{ at: 3, keys: "7'" }, { at: 5, keys: "8'" }]), { text: "30", typed: [{ at: 2, keys: "8'" }] });
    // a machine that has printed less is another one, or has gone back
    assert.deepEqual(pieces.rest("1", []), { text: "1", typed: [] });
    pieces.anew();
    assert.deepEqual(pieces.rest("12\n30", []), { text: "12\n30", typed: [] });
    assert.equal(pieces.all.pieces.length, 1);
});

test("no more than twelve pieces are kept, and the oldest is given back", () => {
    const pieces = new Pieces(place());
    let text = "";
    for (let piece = 1; piece <= 13; piece += 1) {
        text += `${piece}\n`;
        assert.equal(pieces.tear(text, [], "")?.number ?? null, piece === 13 ? 1 : null);
    }
    assert.deepEqual(pieces.all.pieces.map(({ number }) => number), [2, 3, 4, 5, 6, 7, 8, 9, 10, 11, 12, 13]);
});
