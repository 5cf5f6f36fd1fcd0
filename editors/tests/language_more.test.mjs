// What a client may ask of the language server besides, what it must not send, and what takes long.
import assert from "node:assert/strict";
import { test } from "node:test";
import { Session, textOf } from "../../libraries/javascript/session.mjs";
import { Laboratory } from "../language/laboratory.mjs";
import { openSession } from "./client.mjs";
import { Editor, SUM, URI, range } from "./language_client.mjs";

const VERSIONED = { capabilities: { workspace: { workspaceEdit: { documentChanges: true } } } };

test("word times are those of an order that a line declares, and not of a number that could be one", () => {
    const editor = new Editor(
        [
            "first   b two", "        h two", "        z", "two     int 32768 30", "three   word 00010010", "four    frac .5",
            "five    p =a",
            "        -t first", "        end first", "",
        ].join("\n")
    );
    const times = (before) => /Word times/.test(editor.at("hover", before).contents.value);
    const lines = editor.text.split("\n");
    const ofLine = (at) => times([...lines.slice(0, at), lines[at].slice(0, 8)].join("\n"));
    assert.deepEqual([0, 1, 2, 3, 4, 5, 6, 7].map(ofLine), [true, true, true, false, false, false, true, true]);
    assert.equal(times("first   b t"), false);
    assert.match(editor.at("hover", "first   b t").contents.value, /`0003 {2}00010000 {2}b 0000 {2}32768 {2}/);
});

test("ranges and positions that are none are refused, and the text stays", async () => {
    const editor = new Editor(SUM);
    const textDocument = { uri: URI };
    for (const [method, more, why] of [
        ["hover", {}, "position is to be an object"],
        ["hover", { position: { line: -1, character: 0 } }, "position.line is to be a whole number that is not negative"],
        ["hover", { position: { line: 0, character: 1.5 } }, "position.character is to be a whole number that is not negative"],
        ["inlayHint", { range: range(2, 0, 0, 1) }, "range is to be a range that ends where it begins, or later"],
        ["codeAction", { range: range(0, 5, 4) }, "range is to be a range that ends where it begins, or later"],
        ["rename", { position: { line: 0, character: 11 } }, "newName is to be a text"],
        ["rangeFormatting", {}, "range is to be an object"],
        ["codeAction", { range: range(0, 0, 1), context: { only: "quickfix" } }, "context.only is to be a list"],
    ]) assert.deepEqual(editor.refused(`textDocument/${method}`, { textDocument, ...more }), { code: -32602, message: why }, method);
    assert.deepEqual(
        editor.refused("textDocument/hover", { textDocument: {} }),
        { code: -32602, message: "textDocument.uri is to be a text that is not empty" }
    );
    assert.deepEqual(editor.refused("textDocument/hover"), { code: -32602, message: "textDocument is to be an object" });
    for (const [change, why] of [
        [{ range: range(1, 0, 0, 0), text: "x" }, "contentChanges[0].range is to be a range that ends where it begins, or later"],
        [{ range: range(0, -1, 0), text: "x" }, "contentChanges[0].range.start.character is to be a whole number that is not negative"],
        [{ text: 5 }, "contentChanges[0].text is to be a text"],
    ]) {
        editor.change(change);
        assert.equal(editor.messages.at(-1).params.message, `textDocument/didChange: ${why}`);
        editor.version -= 1;
    }
    assert.deepEqual(await editor.faults(), []);
    assert.equal(editor.of("documentSymbol").length, 4);
});

test("an operation's operands are shown while they are written", () => {
    const editor = new Editor("x int 5 30\n b \n z ; note\n frac\n fly \n end x\n");
    const shown = (before) => {
        const help = editor.at("signatureHelp", before);
        return help === null
            ? null
            : [
                help.signatures[0].label, help.activeParameter,
                help.signatures[0].parameters.map(({ label: [from, to] }) => help.signatures[0].label.slice(from, to)),
            ];
    };
    const whole = "int 5 30  takes a whole number and the place of its point";
    assert.deepEqual(shown("x int 5"), [whole, 0, ["5", "30"]]);
    assert.deepEqual(shown("x int 5 3"), [whole, 1, ["5", "30"]]);
    assert.deepEqual(shown("x int 5 30\n b "), ["b 0300  takes ttss, LABEL or *", 0, ["0300"]]);
    for (const before of [
        "x", "x int", "x int 5 30\n b \n z ; n", "x int 5 30\n b \n z ; note\n frac\n fly ",
    ]) assert.equal(shown(before), null, before);
});

test("an action names its fault, the first one is preferred, and edits are of a version where a client takes that", async () => {
    const editor = new Editor(" p x\n end\n", VERSIONED);
    const [first, second] = await editor.actions(range(0, 0, 9));
    assert.deepEqual([first.isPreferred, second.isPreferred, first.title, second.title], [true, undefined, "Put in =", "Put in ;"]);
    assert.deepEqual(first.diagnostics, await editor.faults());
    assert.deepEqual([first.edit.changes, first.edit.documentChanges[0].textDocument], [undefined, { uri: URI, version: 1 }]);
    editor.change({ text: SUM });
    const { documentChanges: [{ textDocument, edits }] } = editor.at("rename", "first   b tw", { newName: "pair" });
    assert.deepEqual([textDocument, edits.length], [{ uri: URI, version: 2 }, 2]);
    const plain = new Editor(SUM);
    assert.deepEqual(Object.keys(plain.at("rename", "first   b tw", { newName: "pair" })), ["changes"]);
});

test("a fault has a link to what is said of its kind, where there is one", async () => {
    const editor = new Editor(" b none\n end\n", {}, (kind) => `file:///FORMATS.md#${kind}`);
    assert.deepEqual((await editor.faults()).map(({ codeDescription }) => codeDescription), [{ href: "file:///FORMATS.md#UnknownName" }]);
    assert.equal((await new Editor(" b none\n end\n").faults())[0].codeDescription, undefined);
});

test("places and digits are shown beside lines or not, as a client has it set", () => {
    const hints = (editor) => editor.of("inlayHint", { range: range(0, 0, 0, 9) }).length;
    const editor = new Editor(SUM, { initializationOptions: { inlayHints: false } });
    assert.equal(hints(editor), 0);
    editor.tells("workspace/didChangeConfiguration", { settings: { lgp30: { inlayHints: true } } });
    assert.equal(hints(editor), 7);
    editor.tells("workspace/didChangeConfiguration", { settings: null });
    assert.equal(hints(editor), 7);
});

/** The sources that sessions are given while a deed is done, by how they are given. */
async function readingsOf(deed) {
    const count = { lines: 0, files: 0 };
    const { bytesFor, tell } = Session.prototype;
    Session.prototype.bytesFor = function (line) {
        if (textOf(line) === "source") count.lines += 1;
        return bytesFor.call(this, line);
    };
    Session.prototype.tell = function (what, ...bytes) {
        if (what === "found") count.files += 1;
        return tell.call(this, what, ...bytes);
    };
    try {
        await deed();
    } finally {
        Object.assign(Session.prototype, { bytesFor, tell });
    }
    return count;
}

test("what mends a line of a long source is found by few readings, once, and others have their turn between two lines", async () => {
    const lines = Array.from({ length: 3898 }, (_, at) => `l${at}     b l${(7 * at) % 3898} ; a comment`);
    for (const at of [100, 101, 102]) lines[at] = `l${at}     b l1 take it from there ; ${at}`;
    const editor = new Editor(`${[...lines, "        end l0"].join("\n")}\n`);
    assert.equal((await editor.faults()).length, 3);
    const asked = async () => assert.equal((await editor.actions(range(100, 0, 1))).length, 1);
    await asked();
    const other = await readingsOf(() => editor.actions(range(101, 0, 1)));
    assert.ok(other.lines === 0 && other.files <= 2, JSON.stringify(other));
    assert.deepEqual(await readingsOf(asked), { lines: 0, files: 0 });
    editor.change({ range: range(500, 0, 0), text: "" });
    const all = editor.later(
        "textDocument/codeAction", { textDocument: { uri: URI }, range: range(0, 0, 0, 3000), context: { diagnostics: [] } }
    );
    const id = editor.lastId;
    assert.match(editor.at("hover", "l0     b").contents.value, /^\*\*b\*\*/);
    editor.tells("$/cancelRequest", { id });
    assert.deepEqual((await all).error, { code: -32800, message: "cancelled" });
    editor.tells("$/cancelRequest", { id: 12345 });
});

test("the rules of the language come from the monitor's tables", () => {
    const laboratory = new Laboratory(openSession);
    assert.deepEqual(laboratory.signs, ["=", ".", "; "]);
    assert.equal(laboratory.ending, "end");
    assert.deepEqual([...laboratory.operations.keys()].filter((name) => !laboratory.takesName(name)), ["word", "frac", "int", "org"]);
    const { bytesFor } = Session.prototype;
    Session.prototype.bytesFor = function (line) {
        const answer = bytesFor.call(this, line);
        const told = textOf(answer.reply).replace('"example":"p =a"', '"example":"p !a"').replace(
            '"mended":" z/ end"', '"mended":" z/ stop"'
        );
        return { ...answer, reply: new TextEncoder().encode(told) };
    };
    const other = new Laboratory(openSession);
    const is = [other.signs, other.ending];
    Session.prototype.bytesFor = bytesFor;
    assert.deepEqual(is, [["!", ".", "; "], "stop"]);
});

test("a source is read as a file with the same faults", () => {
    const laboratory = new Laboratory(openSession);
    let state = 1956;
    const below = (bound) => {
        state = (Math.imul(state, 1_103_515_245) + 12_345) >>> 0;
        return Math.floor((state / 2 ** 32) * bound);
    };
    const pieces = [
        "b ", "two", "\n", "\r\n", "\r", "\t", " ", ";", "z", "end", "\u00e4", ".", "\n.\n", "word 00000002", "frac .5", "=", "a z\n",
        "org 0100\n", "\r\r\n", "line 3 BadByte", "\nx ",
    ];
    for (let round = 0; round < 300; round += 1) {
        const lines = Array.from(
            { length: below(14) }, () => pieces[below(pieces.length)]
        ).join("").split("\n").map((line) => new TextEncoder().encode(line));
        const wanted = laboratory.read(lines).faulty().map(({ line, fault }) => [line, fault.kind]);
        assert.deepEqual([...laboratory.faultsIn(lines)], wanted);
    }
    assert.equal(laboratory.faultsIn([new Uint8Array(5000).fill(59)]), null);
});
