// What the monitor says of a source, line by line.
import assert from "node:assert/strict";
import { readFileSync } from "node:fs";
import { test } from "node:test";
import { ReplyError } from "../replies.mjs";
import { Session, compiled } from "../session.mjs";
import { Source, typedSource } from "../source.mjs";

const module = compiled(readFileSync(new URL("../lgp_c_region.wasm", import.meta.url)));

/** What a session says of lines. */
function readOf(lines) {
    const session = new Session(module);
    for (const line of typedSource(lines)) session.answer(line);
    return new Source(session.answer("json source-data"));
}

test("the words of a source, with their columns, places and digits", () => {
    const source = readOf(["start b one ; take", "only", "one frac .1", " end start"]);
    assert.deepEqual(source.line(1), {
        line: 1, label: [0, 5], operation: [6, 7], operands: [[8, 11]], comment: [12, 18], declared: 3, place: "0000", digits: "00010004",
        fault: null,
    });
    assert.deepEqual([source.line(2).place, source.line(2).digits, source.line(5)], ["0001", null, undefined]);
    assert.deepEqual(source.words.map(({ line, place }) => [line, place]), [[1, "0000"], [3, "0001"]]);
    assert.deepEqual([source.lineAt("0001").line, source.lineAt("0002")], [3, undefined]);
    assert.deepEqual([source.faultCount, source.faulty()], [0, []]);
    assert.equal(source.lines.length, 4);
});

test("faults, each with its columns, and the lines beside them", () => {
    const source = readOf(["a b none", "a z", ".", " frac .5"]);
    assert.deepEqual(
        source.faulty().map(({ line, fault }) => [line, fault.kind, fault.at, fault.first]),
        [[1, "UnknownName", [4, 8], null], [2, "LabelTwice", [0, 1], 1], [3, "BadLabel", [0, 2], null], [5, "NoEnd", null, null]]
    );
    assert.deepEqual([source.faultCount, source.faulty(2).length, source.line(4).digits], [4, 2, "40000000"]);
});

test("a reply that says nothing of a source", () => {
    assert.deepEqual(new Source("").lines, []);
    assert.throws(() => new Source("? 1 Form\n"), ReplyError);
    assert.throws(() => new Source("line 1\nlabel\n"), ReplyError);
});
