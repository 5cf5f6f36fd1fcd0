import assert from "node:assert/strict";
import { test } from "node:test";
import {
    Checked, Checker, askedAt, columnOf, hasEndLine, isTold, labelsIn, likest, namedIn, operationsWith, sentenceOf, tokensOf,
} from "../language.mjs";
import { LANGUAGES, textsIn } from "../words.mjs";
import { ModuleLink } from "../module_link.mjs";

const FAULTY = [
    "start   b one       ; take", "        a tow", "\tq\t12", "        h sum ä", "one     word 1", "two     word 00000002", "   ^^",
    "        end start",
];

test("a line is divided into label, operation, operands and comment", () => {
    const kinds = (line) => tokensOf(line).map(({ kind, from, text }) => `${kind} ${from} ${text}`);
    assert.deepEqual(
        kinds("one  int 5 30 ; five"), ["label 0 one", "operation 5 int", "operand 9 5", "operand 11 30", "comment 14 ; five"]
    );
    assert.deepEqual(kinds("\tb x;y"), ["operation 1 b", "operand 3 x;y"]);
    assert.deepEqual(kinds("; all"), ["comment 0 ; all"]);
    assert.deepEqual([kinds(""), kinds("one")], [[], ["label 0 one"]]);
    assert.deepEqual(["start   b one", "        a two", "   ", "one"].map(columnOf), [8, 8, 3, 0]);
});

test("a word is completed where an operation or a name may stand", () => {
    assert.deepEqual(askedAt("one  wo", 7), { kind: "operation", from: 5, text: "wo" });
    assert.deepEqual(askedAt(" b t", 4), { kind: "operand", from: 3, text: "t" });
    assert.deepEqual(askedAt(" b ", 3), { kind: "operand", from: 3, text: "" });
    for (const [line, column] of [["one", 3], ["", 0], [" b x ; y", 8], [" word 0", 7], [" p =a", 5]]) {
        assert.equal(askedAt(line, column), null, line);
    }
    assert.deepEqual(operationsWith("e", LANGUAGES.en).map(({ name }) => name), ["e", "end"]);
    assert.equal(operationsWith("", LANGUAGES.de).length, 22);
    assert.deepEqual(labelsIn(FAULTY).map(({ name, line }) => [name, line]), [["start", 1], ["one", 5], ["two", 6]]);
});

test("a name that is like another one is found", () => {
    assert.equal(likest("tow", ["one", "two"]), "two");
    assert.equal(likest("adress", ["address", "add"]), "address");
    assert.deepEqual([likest("x", []), likest("loop", ["one", "two"])], [null, null]);
});

const MODULE = new URL("../../libraries/javascript/lgp_c_region.wasm", import.meta.url);

const checkerOf = (made) => new Checker(() => {
    made.push(new ModuleLink(MODULE));
    return made.at(-1);
});

test("faults come with the columns that the monitor marks, and with what would be right", async () => {
    const said = await checkerOf([]).ask(FAULTY.join("\n"));
    assert.equal(said.isRight, false);
    assert.deepEqual(said.faults.map(({ line, kind, from, to }) => [line, kind, FAULTY[line - 1].slice(from, to)]), [
        [2, "UnknownName", "tow"], [3, "UnknownOrder", "q"], [4, "BadByte", "ä"], [5, "BadOperand", "1"], [7, "UnknownOrder", "^^"]]);
    const sentences = said.faults.map((fault) => (
        sentenceOf(fault, FAULTY[fault.line - 1], ["start", "one", "two"], textsIn("en")).sentence
    ));
    assert.deepEqual(sentences.slice(0, 2), [
        "no line has that label; perhaps two", "there is no such operation; use one of the sixteen letters, or -t org word frac int end",
    ]);
    assert.match(sentences[3], /; eight digits, the last one even$/);
    assert.deepEqual([said.wordOf(1), said.lineAt("0000")], [{ place: "0000", digits: "00010008" }, 1]);
    assert.deepEqual([said.placeOf(2), said.wordOf(2), said.lineAt("0001")], ["0001", null, null]);
});

test("a source without faults has its listing", async () => {
    const said = await checkerOf([]).ask("; head\nstart b one\n org 0100\none word 00000002\n end start");
    assert.deepEqual([said.isRight, said.cells, said.start], [true, 2, "0000"]);
    assert.deepEqual(
        [said.wordOf(1), said.wordOf(2), said.wordOf(4)],
        [null, { place: "0000", digits: "00010100" }, { place: "0100", digits: "00000002" }]
    );
    assert.deepEqual([said.lineAt("0100"), said.lineAt("0001")], [4, null]);
});

test("a line with a label alone has a place and no word", async () => {
    const said = await checkerOf([]).ask("start\n z\n end start");
    assert.deepEqual(
        [said.isRight, said.placeOf(1), said.wordOf(1), said.wordOf(2)], [true, "0000", null, { place: "0000", digits: "00000000" }]
    );
});

test("a point alone ends no source, and a missing end is a fault after the last line", async () => {
    const said = await checkerOf([]).ask(" z\n.\n z");
    assert.deepEqual(said.faults.map(({ line, kind }) => [line, kind]), [[2, "BadLabel"], [4, "NoEnd"]]);
});

test("a laboratory that fails gives no answer, and another one is opened", async () => {
    const made = [];
    const checker = checkerOf(made);
    assert.equal((await checker.ask(" end")).isRight, true);
    made[0].askAll = () => Promise.reject(new Error("no memory"));
    assert.equal(await checker.ask(" end"), null);
    assert.equal((await checker.ask(" end")).isRight, true);
    assert.equal(made.length, 2);
});

test("every kind of fault that the monitor knows has its sentence", () => {
    for (const { faultKinds, rightFor, rightOperand } of Object.values(LANGUAGES)) {
        for (const kind of Object.keys(faultKinds)) {
            assert.ok(["MissingOperand", "BadOperand", "UnknownName"].includes(kind) || rightFor[kind] !== undefined, kind);
        }
        assert.ok(rightOperand.order.length > 0);
    }
    assert.deepEqual(
        new Checked("? 9 Faults\nline 1 NoEnd\n", '{"line":1,"fault":"NoEnd"}\n').faults, [{ line: 1, kind: "NoEnd", from: 0, to: 0 }]
    );
    assert.equal(new Checked("? 11 TooLong: no\n", "").refusal.kind, "TooLong");
});

test("a fault says what was meant where the line tells that: a comment without its blank, and a label that is set in", async () => {
    const lines = ["start   z", "        loop  h start", "        end start; note"];
    const said = await checkerOf([]).ask(lines.join("\n"));
    const sentences = (code) => said.faults.map((fault) => sentenceOf(fault, lines[fault.line - 1], ["start"], textsIn(code)).sentence);
    assert.deepEqual(sentences("en"), [
        "there is no such operation; a label begins in the first column", "one operand too many; a comment has a blank before its ;",
    ]);
    assert.match(sentences("de")[1], /vor dem ; einer Bemerkung steht ein Leerzeichen$/);
    const other = await checkerOf([]).ask("start   q 0050\n        end start 5");
    assert.deepEqual(
        other.faults.map((fault) => (
            sentenceOf(fault, ["start   q 0050", "        end start 5"][fault.line - 1], ["start"], textsIn("en")).sentence.split("; ")[1]
        )),
        ["use one of the sixteen letters, or -t org word frac int end", "a comment begins with ;"]
    );
});

test("nobody is blamed for the line in work, nor for what may still come, until a run is wanted", () => {
    const told = (fault, now) => isTold(fault, { inWork: null, hasEnd: true, isAsked: false, ...now });
    const [name, form] = [{ line: 2, kind: "UnknownName" }, { line: 2, kind: "BadOperand" }];
    assert.deepEqual(
        [
            told(name, {}),
            told(name, { inWork: 2 }),
            told(name, { hasEnd: false }),
            told(name, { hasEnd: false, isAsked: true }),
            told(name, { inWork: 2, isAsked: true }),
        ],
        [true, false, false, true, true]
    );
    assert.deepEqual(
        [told(form, { hasEnd: false }), told(form, { inWork: 2 }), told({ line: 3, kind: "NoEnd" }, { hasEnd: false })],
        [true, false, false]
    );
    assert.deepEqual([hasEndLine(["start z", " end start"]), hasEndLine(["start z ; end", "end z"])], [true, false]);
});

test("a word is completed by labels that are still to come as well, but not by the one that is being written", () => {
    const lines = ["start   b zero", "        u loop", "loop    a ta", "        word 12345678", "        int five", "        h 0050"];
    assert.deepEqual(namedIn(lines, 2).map(({ name }) => name), ["zero"]);
    assert.deepEqual(namedIn(lines, 0).map(({ name }) => name), ["ta"]);
});
