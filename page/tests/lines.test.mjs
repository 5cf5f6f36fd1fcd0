// What a script says of itself, and a script without the lines that only ask.
import assert from "node:assert/strict";
import { test } from "node:test";
import { commandIn, commentsIn, headOf, withoutQuestions } from "../lines.mjs";

const questions = new Set(["panel", "words", "show", "printed", "dump", "list"]);

test("the command of a line is its first word", () => {
    assert.deepEqual(["run 9", "  words 0000 1", "panel\tx", "", "  "].map(commandIn), ["run", "words", "panel\tx", "", ""]);
});

test("a script without the lines that only ask", () => {
    const cases = [
        ["", ""],
        ["panel\nput 0000 b 0001\nwords 0000 1\n", "put 0000 b 0001\n"],
        ["  show 0000 16  \n; panel\n\nrun 1\nprinted", "; panel\n\nrun 1\n"],
        ["panels\npanel\tx\npanel\r\ndump\r\r\n", "panels\npanel\tx\ndump\r\r\n"],
        ["source\npanel z\n list\n .\n.\nlist\n", "source\npanel z\n list\n .\n.\n"],
        [" source \r\npanel\n.\r\npanel\n", " source \r\npanel\n.\r\n"],
        ["source x\npanel\n.\n", "source x\n.\n"],
        ["source\t\npanel\n", "source\t\n"],
        ["source\npanel\n", "source\npanel\n"],
    ];
    for (const [script, short] of cases) assert.equal(withoutQuestions(script, questions), short, JSON.stringify(script));
});

test("the title of a script is its first sentence: a point within a number or the name of a file ends none", () => {
    const cases = [
        ["; One. Two.", "One"],
        ["; A machine that\n; knows 3.25. More", "A machine that knows 3.25"],
        ["; The words of a.txt by itself.\n; More", "The words of a.txt by itself"],
        ["; No end", ""],
        ["panel", ""],
    ];
    for (const [script, title] of cases) assert.equal(headOf(script).title, title, script);
});

test("a script tells what a word is for, in the comment before its put that begins with its address", () => {
    const lines = [
        "; 0004  b 0020   bring the word. And more",
        "put 0004 00010050",
        "; 0005  y 0009   store address: the order changes",
        "put 0006 00020024",
        "; a word",
        "put 0007 00000002",
        "; 0008  17",
        "put 0008 00000022",
        "put 0009 b 0020",
    ];
    assert.deepEqual(
        [...commentsIn(lines)],
        [["0004", { digits: "00010050", comment: "bring the word" }], ["0008", { digits: "00000022", comment: "17" }]]
    );
});
