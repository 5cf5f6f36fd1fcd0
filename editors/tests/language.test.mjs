import assert from "node:assert/strict";
import { test } from "node:test";
import { Editor, SUM, URI, edited, range } from "./language_client.mjs";

test("faults are told as one types, each with its columns and what would be right", async () => {
    const editor = new Editor(SUM.replace("b two", "b tow").replace("h sum", "h"));
    const shown = (faults) => faults.map(({ code, range: { start, end }, message }) => [
        code, start.line, start.character, end.character, message,
    ]);
    assert.deepEqual(shown(await editor.faults()), [
        ["UnknownName", 0, 10, 13, "no line has this label; perhaps two is meant"],
        ["MissingOperand", 2, 8, 9, "an operand is missing; h takes ttss, LABEL or *"]]);
    editor.change({ range: range(0, 11, 13), text: "wo" });
    assert.deepEqual(shown(await editor.faults()).map(([code]) => code), ["MissingOperand"]);
    editor.change({ range: range(2, 9, 9), text: " sum" }, { range: range(6, 0, 0), text: "two     z\n" });
    const [twice] = await editor.faults();
    assert.deepEqual([twice.code, twice.relatedInformation[0].location.range], ["LabelTwice", range(4, 0, 3)]);
    editor.change({ text: SUM });
    assert.deepEqual(await editor.faults(), []);
    editor.tells("textDocument/didClose", { textDocument: { uri: URI } });
    assert.deepEqual(editor.messages.at(-1).params, { uri: URI, diagnostics: [] });
});

test("columns are those of UTF-16, over tabs, carriage returns, and bytes that are no text", async () => {
    const editor = new Editor("\tb\t\u{1d49c}x ; \u00e4\r\n h no\rne\r\nx\ud800 z\r\n b none\r\n end\r\n");
    const faults = await editor.faults();
    assert.deepEqual(faults.map(({ code, range: { start, end } }) => [code, start, end]), [
        ["BadByte", { line: 0, character: 3 }, { line: 0, character: 5 }],
        ["BadByte", { line: 1, character: 5 }, { line: 2, character: 0 }],
        ["BadByte", { line: 3, character: 1 }, { line: 3, character: 2 }],
        ["UnknownName", { line: 4, character: 3 }, { line: 4, character: 7 }]]);
});

test("a line with a point alone is a fault of its own, and a missing end is one after the last line", async () => {
    const editor = new Editor(" z\n.\n z");
    assert.deepEqual(
        (await editor.faults()).map(({ code, range: { start, end } }) => [code, start.line, start.character, end.character]),
        [["BadLabel", 1, 0, 1], ["NoEnd", 2, 2, 2]]
    );
    editor.change({ text: "" });
    assert.deepEqual((await editor.faults()).map(({ code, range: at }) => [code, at]), [["NoEnd", range(0, 0, 0)]]);
});

test("a pointer shows what an order does, its word, its place, and what it waits", () => {
    const editor = new Editor(SUM);
    const { contents: { value }, range: at } = editor.at("hover", "first   b");
    assert.match(
        value, /^\*\*b\*\* ttss, LABEL or \*\n\nbrings the word into the accumulator, as in `b 0300`\n\n`0000 {2}00010010 {2}b 0004 /
    );
    assert.match(value, /\nWord times: find \(by the order before\), take 1, seek 35, act 1; then 0001: find 36$/);
    assert.match(
        editor.at("hover", "first   b two           ; bring\n        a").contents.value,
        /\nWord times: find 36 \(after 0000\), take 1, seek 35, act 1; then 0002: find 36$/
    );
    assert.deepEqual(at, range(0, 8, 9));
    assert.match(editor.at("hover", "first   b t").contents.value, /^\*\*two\*\*, line 5: `two     int 2 30`\n\n`0004 {2}00000004 .* 2 /);
    assert.match(editor.at("hover", "fir").contents.value, /^\*\*first\*\*\n\n`0000 /);
    assert.equal(editor.at("hover", "first   b two       "), null);
    assert.equal(editor.at("hover", "first   b two           ; br"), null);
});

test("operations and labels complete a word, where one of them may be", () => {
    const editor = new Editor(`${SUM}x \n b \n int \n; c\n\nlab b th`);
    const names = (before) => editor.at("completion", before).map(({ label }) => label);
    assert.equal(names(`${SUM}x `).length, 22);
    assert.deepEqual(names(`${SUM}x \n b `).slice(0, 3), ["first", "two", "three"]);
    assert.deepEqual(names(`${SUM}x \n b \n int `), []);
    for (const before of ["", "x", "x \n b \n int \n; c", "x \n b \n int \n; c\n"]) assert.deepEqual(names(SUM + before), [], before);
    const [, , three] = editor.at("completion", `${SUM}x \n b \n int \n; c\n\nlab b th`);
    assert.deepEqual([three.textEdit.newText, three.textEdit.range, three.documentation], ["three", range(13, 6, 8), "three   int 3 30"]);
    const put = editor.at("completion", "first   b").find(({ label }) => label === "put");
    assert.equal(put, undefined);
    const bring = editor.at("completion", "first   b").find(({ label }) => label === "b");
    assert.deepEqual([bring.detail, bring.documentation], ["ttss, LABEL or *", "brings the word into the accumulator, as in b 0300"]);
});

test("a label is found where it is declared, and wherever it is named", () => {
    const editor = new Editor(SUM.replace("a three", "a two+1"));
    const before = "first   b two           ; bring\n        a tw";
    assert.deepEqual(editor.at("definition", before), { uri: URI, range: range(4, 0, 3) });
    const places = (isDeclared) => editor.at(
        "references", before, { context: { includeDeclaration: isDeclared } }
    ).map(({ range: { start, end } }) => [
        start.line, start.character, end.character,
    ]);
    assert.deepEqual(places(true), [[4, 0, 3], [0, 10, 13], [1, 10, 13]]);
    assert.deepEqual(places(false), [[0, 10, 13], [1, 10, 13]]);
    assert.deepEqual(editor.at("documentHighlight", before).map(({ kind }) => kind), [3, 1, 1]);
    assert.equal(editor.at("definition", "first   b"), null);
    assert.deepEqual(
        editor.of("documentSymbol").map(({ name, detail }) => [name, detail]),
        [["first", "0000 00010010"], ["two", "0004 00000004"], ["three", "0005 00000006"], ["sum", "0006 00000000"]]
    );
});

test("a label gets another name, unless a word or a fault would be another one", () => {
    const editor = new Editor(SUM);
    const before = "first   b tw";
    assert.deepEqual(editor.at("prepareRename", before), { range: range(0, 10, 13), placeholder: "two" });
    assert.equal(editor.at("prepareRename", "first   b"), null);
    const { changes: { [URI]: edits } } = editor.at("rename", before, { newName: "pair" });
    assert.equal(edited(SUM, edits.sort((one, other) => one.range.start.line - other.range.start.line)), SUM.replaceAll("two", "pair"));
    const refused = (newName) => editor.refused(
        "textDocument/rename", { textDocument: { uri: URI }, position: { line: 0, character: 11 }, newName }
    );
    assert.match(refused("three").message, /^three: an earlier line has the same label; /);
    assert.match(refused("2nd").message, /^2nd: the label is not in the right form; /);
    assert.match(refused("a b").message, /^a b: /);
    assert.equal(
        editor.refused("textDocument/rename", { textDocument: { uri: URI }, position: { line: 3, character: 8 }, newName: "x" }).message,
        "there is no label here"
    );
    const alone = new Editor(" z\n end\nlast");
    assert.match(
        alone.refused("textDocument/rename", { textDocument: { uri: URI }, position: { line: 2, character: 2 }, newName: "" }).message,
        /^: the words would be others than before$/
    );
});

test("place and digits are beside each line, as in a listing; of other lines than the faulty one too", () => {
    const editor = new Editor(SUM);
    const hints = editor.of("inlayHint", { range: range(0, 0, 0, 2) });
    assert.deepEqual(
        hints.map(({ position, label }) => [position.line, position.character, label]),
        [[0, 0, "0000 00010010"], [1, 0, "0001 000q0014"], [2, 0, "0002 000j0018"]]
    );
    editor.change({ text: SUM.replace("a three", "a tree").replace("\nsum", "\nonly\nsum") });
    assert.deepEqual(editor.of("inlayHint", { range: range(0, 0, 0, 9) }).map(({ position, label }) => [position.line, label]), [
        [0, "0000 00010010"], [2, "0002 000j0018"], [3, "0003 00000000"], [4, "0004 00000004"], [5, "0005 00000006"],
        [7, "0006 00000000"]]);
    assert.deepEqual(
        editor.of("documentSymbol").slice(-2).map(({ name, detail }) => [name, detail]), [["only", "0006"], ["sum", "0006 00000000"]]
    );
});

test("the words of a source have their types", () => {
    const editor = new Editor(" b two ; x\n\ntwo z\n end\n");
    assert.deepEqual(
        editor.of("semanticTokens/full").data, [0, 1, 1, 1, 0, 0, 2, 3, 2, 0, 0, 4, 3, 4, 0, 2, 0, 3, 0, 1, 0, 4, 1, 1, 0, 1, 1, 3, 1, 0]
    );
});

test("a source is put into columns, and no word is another one", () => {
    const loose = [
        " z  a  b\t c;d ; e", "first b   two ; bring", "\ta\tthree", " h sum;x", "   ; alone", "", "  ", "toolonglabel b two",
        "longlabe b two;", " word \u00e4", " z", "sum z ;end", " end first", "",
    ].join("\n");
    const editor = new Editor(loose);
    const laid = [
        "        z a b c;d       ; e", "first   b two           ; bring", "        a three", "        h sum;x", "   ; alone", "", "",
        "toolonglabel b two", "longlabe b two;", " word \u00e4", "        z", "sum     z               ;end", "        end first", "",
    ].join("\n");
    assert.equal(edited(loose, editor.of("formatting")), laid);
    assert.deepEqual(
        editor.of("rangeFormatting", { range: range(0, 0, 0, 0) }).map(({ newText }) => newText), ["        z a b c;d       ; e"]
    );
    editor.change({ text: laid });
    assert.deepEqual(editor.of("formatting"), []);
});

test("a source without its end line is put into columns too, also where its last line is blanks alone", () => {
    for (const [loose, laid] of [
        ["a1 z\n ", "a1      z\n"], ["a1   z\n        ", "a1      z\n"], ["a1 z\n\t", "a1      z\n"], ["a1 z\r\n  ", "a1      z\r\n"],
        ["a1 z", "a1      z"], [" b none\n\n  ", "        b none\n\n"],
    ]) {
        const editor = new Editor(loose);
        assert.equal(edited(loose, editor.of("formatting")), laid, JSON.stringify(loose));
    }
});

test("what mends a fault is given where fixes are wanted, and not where other actions are", async () => {
    const editor = new Editor(" frac 5\n end\n");
    const given = async (only) => (await editor.actions(
        range(0, 0, 9), { diagnostics: [], ...(only === undefined ? {} : { only }) }
    )).length;
    for (const only of [undefined, ["quickfix"], [""], ["refactor", "quickfix"]]) assert.equal(await given(only), 1, String(only));
    for (const only of [
        ["refactor"], ["source.organizeImports"], ["source.fixAll"], ["quickfix.other"], [],
    ]) assert.equal(await given(only), 0, String(only));
});

test("a sign that is missing is put in, where that mends the line", async () => {
    const mended = async (text) => {
        const editor = new Editor(text);
        return (await editor.actions(range(0, 0, 0, 99))).map(({ title, edit }) => [title, edited(text, edit.changes[URI])]);
    };
    assert.deepEqual(await mended(" frac 5\n end\n"), [["Put in .", " frac .5\n end\n"]]);
    assert.deepEqual(await mended(" p x\n end\n"), [["Put in =", " p =x\n end\n"], ["Put in ;", " p ; x\n end\n"]]);
    assert.deepEqual(await mended(" b 0300 take it\n end\n"), [["Put in ;", " b 0300 ; take it\n end\n"]]);
    assert.deepEqual(await mended(" int 5 30 take it\n end\n"), [["Put in ;", " int 5 30 ; take it\n end\n"]]);
    assert.deepEqual(await mended("b 0300\n end\n"), [["Put a blank before the operation", " b 0300\n end\n"]]);
    assert.deepEqual(await mended(" b tow\ntwo z\n end\n"), [["Change it to two", " b two\ntwo z\n end\n"]]);
    assert.deepEqual(await mended("go z"), [["Put in the end line", "go z\n        end go\n"]]);
    assert.deepEqual(await mended(" z\n"), [["Put in the end line", " z\n        end\n"]]);
    assert.deepEqual(await mended(" word 3\n end\n"), []);
});

test("a source that is too long says so, and the server goes on", async () => {
    const editor = new Editor(`; ${"x".repeat(4096)}\n end\n`);
    assert.deepEqual((await editor.faults()).map(({ code, range: { start } }) => [code, start.line]), [["TooLong", 0]]);
    assert.match(
        editor.refused("textDocument/hover", { textDocument: { uri: URI }, position: { line: 0, character: 0 } }).message, /bytes/
    );
    const line = " b 0300 ; a line of this source, thirty\n";
    editor.change({ text: line.repeat(1_048_576 / line.length + 1) });
    assert.deepEqual((await editor.faults()).map(({ code }) => code), ["TooLong"]);
    const whole = `${line.repeat(Math.floor(1_048_570 / line.length))}`;
    editor.change({ text: `${whole} end\n` });
    assert.deepEqual((await editor.faults()).map(({ code }) => code).filter((code) => code !== "InLoader" && code !== "PastEnd"), []);
    editor.change({ text: SUM });
    assert.deepEqual(await editor.faults(), []);
});

test("of very many faults the first thousand are shown", async () => {
    assert.equal((await new Editor(" fly\n".repeat(1500)).faults()).length, 1000);
});

test("what is wrong is said, and the server goes on", async () => {
    const editor = new Editor();
    assert.equal(editor.refused("textDocument/hover", {}).code, -32002);
    for (const message of [null, 3, {}, { id: 777 }]) {
        editor.take(message);
        assert.equal(editor.messages.at(-1).error.code, -32600);
    }
    editor.asks("initialize", {});
    assert.equal(editor.refused("initialize", {}).code, -32600);
    assert.equal(editor.refused("textDocument/fly", {}).code, -32601);
    assert.equal(editor.refused("constructor", {}).code, -32601);
    editor.tells("$/cancelRequest", { id: 1 });
    assert.deepEqual(
        editor.refused("textDocument/hover", { textDocument: { uri: "file:///gone" }, position: { line: 0, character: 0 } }),
        { code: -32602, message: "file:///gone is not open" }
    );
    assert.equal(editor.refused("textDocument/hover").code, -32602);
    editor.tells("textDocument/didChange", {});
    assert.match(editor.messages.at(-1).params.message, /^textDocument\/didChange: /);
    editor.open(SUM);
    assert.deepEqual(await editor.faults(), []);
    editor.asks("shutdown");
    assert.equal(editor.refused("textDocument/hover", {}).code, -32600);
});

/** Numbers from a seed, each below a bound. */
function numbersFrom(seed) {
    let state = seed;
    return (bound) => {
        state = (Math.imul(state, 1_103_515_245) + 12_345) >>> 0;
        return Math.floor((state / 2 ** 32) * bound);
    };
}

test("whatever is written, in whatever pieces, every question has an answer, and the faults are those of the whole text", async () => {
    const below = numbersFrom(1956);
    const pieces = [
        "b ", "two", "\n", "\r\n", "\r", "\t", " ", ";", "z", "end", "\u00e4", "\u{1d49c}", "\ud800", ".", "\n.\n", "word 00000002",
        "frac .5", "=", "a z\n", "org 0100\n", "int 1 30",
    ];
    const editor = new Editor(SUM);
    let { text } = editor;
    for (let edit = 0; edit < 150; edit += 1) {
        const lines = text.split(/\r\n|\n|\r/);
        const [line, last] = [below(lines.length), below(lines.length)].sort((one, other) => one - other);
        const [from, to] = [below(lines[line].length + 1), line === last ? 0 : below(lines[last].length + 1)];
        const at = { start: { line, character: from }, end: line === last ? { line, character: from } : { line: last, character: to } };
        const piece = pieces[below(pieces.length)];
        const isWide = below(4) === 0 && last - line < 3;
        editor.change({ range: isWide ? at : { start: at.start, end: at.start }, text: piece });
        const starts = [0, ...Array.from(text.matchAll(/\r\n|\n|\r/g), ({ 0: end, index }) => index + end.length)];
        text = text.slice(0, starts[line] + from) + piece + text.slice(
            isWide ? starts[at.end.line] + at.end.character : starts[line] + from
        );
        const position = { line: below(lines.length), character: below(30) };
        for (const method of [
            "hover", "completion", "definition", "references", "documentHighlight", "prepareRename",
        ]) editor.asks(`textDocument/${method}`, { textDocument: { uri: URI }, position });
        for (const method of ["documentSymbol", "semanticTokens/full", "formatting"]) editor.of(method);
        editor.of("inlayHint", { range: { start: position, end: position } });
        await editor.actions({ start: position, end: position });
    }
    assert.deepEqual(await editor.faults(), await new Editor(text).faults());
});
