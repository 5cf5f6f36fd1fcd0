// Help at a terminal: each command with an example that is not refused, each group and card on one screen.
import assert from "node:assert/strict";
import { readFileSync } from "node:fs";
import { test } from "node:test";
import { OWN } from "../own.mjs";
import { Help } from "../help.mjs";
import { commandsOf } from "../replies.mjs";
import { Session, compiled } from "../session.mjs";
import { TextSession } from "../text_session.mjs";

const module = compiled(readFileSync(new URL("../lgp_c_region.wasm", import.meta.url)));
const open = () => new TextSession(new Session(module, 2 ** 22));
const openBeside = () => {
    const recorded = open();
    return { type: async (line) => recorded.answer(line), close: async () => {} };
};

const asked = open();
const help = new Help(async (line) => asked.answer(line), OWN, openBeside);
const names = [...commandsOf(asked.answer("commands")).keys(), ...OWN.keys()];
const groups = ["machine", "accounts", "look", "rules", "source", "files", "session", "programs", "terminal"];

test("help names each command, and each group has one screen", async () => {
    const overview = await help.about();
    const words = overview.join(" ").split(/ +/);
    assert.deepEqual(names.filter((name) => !words.includes(name)), []);
    for (const lines of [overview, await help.about("orders"), ...(await Promise.all(groups.map((group) => help.about(group))))]) {
        assert.ok(lines.length <= 24, `${lines.length} lines: ${lines[0]}`);
        assert.deepEqual(lines.filter((line) => line.length > 80), []);
    }
});

test("each form of a command is in a line of its own, as it is typed", async () => {
    const forms = async (command) => (await help.about(command)).filter((line) => line.startsWith(command));
    assert.deepEqual(
        await forms("put"), ["put ttss WORD", "put ttss FRACTION", "put ttss = NUMBER", "put ttss = NUMBER POINT", "put ttss OPERATION"]
    );
    assert.deepEqual([await forms("transcript"), await forms("panel")], [["transcript", "transcript FILE"], ["panel"]]);
    assert.deepEqual((await help.about("change")).slice(0, 2), ["change ttss WORD", "and each other form of put"]);
});

/** The commands whose example opens something, ends the session, or says something of this computer's files. */
const WITHOUT = ["source", "quit", "exit", "finish", "when", "edit", "sessions", "resume", "forward", "past", "alias", "unalias", "undisplay"];

test("each command has an example that is not refused, with a reply but where it opens something or names a file", async () => {
    for (const name of names) {
        const lines = await help.about(name);
        assert.deepEqual(lines.filter((line) => /^ *\? \d/.test(line)), [], name);
        const place = lines.findIndex((line) => line.startsWith("    > "));
        assert.ok(place >= 0, name);
        const hasReply = (lines[place + 1] ?? "").startsWith("    ");
        assert.equal(hasReply, !WITHOUT.includes(name) && !/\.(txt|bin)$/.test(lines[place]), lines.join("\n"));
    }
});

const AFTER = {
    "    after the lines that help example shows:": [], "    after the lines that help example shows, and press manual:": ["press manual"],
};

test("an example is exact for the lines that are said to come before it", async () => {
    const before = (await help.about("example")).slice(1).map((line) => line.slice(4));
    for (const name of commandsOf(asked.answer("commands")).keys()) {
        const lines = await help.about(name);
        const place = lines.findIndex((line) => line.startsWith("    > "));
        if (OWN.has(name) || ["go", "trace"].includes(name) || !lines[place + 1]?.startsWith("    ")) continue;
        const session = open();
        for (const line of lines[place - 1] in AFTER ? [...before, ...AFTER[lines[place - 1]]] : []) session.answer(line);
        const reply = session.answer(lines[place].slice(6)).replace(/\n$/, "").split("\n");
        const end = lines.indexOf("", place) < 0 ? lines.length : lines.indexOf("", place);
        const shown = lines.slice(place + 1, end).map((line) => line.slice(4));
        assert.deepEqual(shown, reply.length > 8 ? [...reply.slice(0, 8), ".."] : reply, name);
    }
});

test("at a terminal go and trace are shown as the terminal shows them", async () => {
    assert.match((await help.about("go")).join("\n"), /> go 0000\n    started: 0000 going$/);
    const narrow = new Help(async (line) => asked.answer(line), OWN, openBeside, () => true);
    const lines = await narrow.about("trace");
    assert.match(lines.join("\n"), /sum accumulator\n/);
    assert.deepEqual(lines.filter((line) => line.length > 84), []);
    assert.match((await help.about("trace")).join("\n"), /sum  accumulator\n/);
});

test("short words, operations, faults, and what an address is have help", async () => {
    for (const [word, wanted] of [
        ["s", /^s is short for step\n/],
        ["c", /short for run\n[^]*the operation c;/],
        ["b", /short for back\n[^]*the operation b;/],
        ["n", /twice their\n? *product/],
        ["int", /the operation int/],
        ["BadOperand", /^the fault BadOperand\n/],
        ["ttss", /two digits for the track/],
        ["address", /table\+3/]
    ]) {
        assert.match((await help.about(word))?.join("\n") ?? "", wanted, word);
    }
    const language = (await help.about("source")).join(" ").replace(/ +/g, " ");
    for (const part of ["* for the line's own place", "loop+1", "p =a", "one to eight", "4,096 bytes"]) {
        assert.ok(language.includes(part), part);
    }
});

test("what is said of n and m is so", () => {
    const product = (operation, point) => {
        const session = open();
        for (const line of [
            `put 0100 = 6 ${point}`, `put 0101 = 7 ${point}`, "put 0000 b 0100", `put 0001 ${operation} 0101`, "put 0002 h 0110", "go 0000",
            "run 3",
        ]) {
            session.answer(line);
        }
        return session.answer("numbers 0110 1").trim().split(/ +/).at(-1);
    };
    assert.deepEqual([product("n", 30), product("m", 15)], ["84", "42"]);
});

test("the card of the orders has sixteen, and that of the source language what else a source has", async () => {
    const orders = (await help.about("orders")).filter((line) => /^[a-z] [+ ] /.test(line));
    assert.equal(orders.length, 16);
    assert.deepEqual(orders.filter((line) => line[2] === "+").map((line) => line[0]).join(""), "byrdnmehcas");
    const language = (await help.about("source")).join("\n");
    for (const operation of ["-t", "word", "frac", "int", "org", "end"]) assert.match(language, new RegExp(`^${operation} `, "m"));
});

test("where there is nothing of a name the monitor answers, and help leaves no trace", async () => {
    assert.equal(await help.about("nothing"), null);
    assert.equal(asked.answer("transcript"), "");
});

test("no line of help is wider than 80 columns but the replies of the monitor", async () => {
    const narrow = new Help(async (line) => asked.answer(line), OWN, openBeside, () => true);
    const words = [...names, ...groups, "orders", "source", "example", "ttss", "s", "n", "int", "BadOperand"];
    for (const word of words) {
        const lines = await narrow.about(word);
        const place = lines.findIndex((line) => line.startsWith("    > "));
        const said = place < 0
            ? lines
            : [...lines.slice(0, place + 1), ...lines.slice(lines.indexOf("", place) < 0 ? lines.length : lines.indexOf("", place))];
        assert.deepEqual(said.filter((line) => line.length > 80), [], word);
    }
});
