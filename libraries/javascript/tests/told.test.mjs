// What the laboratory tells about its commands, its operations and its kinds of faults is true of it.
import assert from "node:assert/strict";
import { readFileSync } from "node:fs";
import { test } from "node:test";
import { commandsOf, recordsOf } from "../replies.mjs";
import { Session, compiled } from "../session.mjs";

const module = compiled(readFileSync(new URL("../lgp_c_region.wasm", import.meta.url)));
const ask = (...lines) => {
    const session = new Session(module);
    return lines.map((line) => session.answer(line)).join("");
};
/** The reply to the last of some lines. */
const last = (...lines) => {
    const session = new Session(module);
    return lines.map((line) => session.answer(line)).at(-1);
};
const told = (line) => recordsOf(ask(`json ${line}`));
/** The reply to a source whose lines have a stroke between them. */
const assembled = (source) => ask("source", ...source.split("/"), ".");

test("each command is told once, and whether it only asks", () => {
    const commands = commandsOf(ask("commands"));
    const records = new Map(told("commands-data").map((record) => [record.get("command"), record]));
    assert.deepEqual([...records.keys()].sort(), [...commands.keys()].sort());
    for (const [name, { asks }] of commands) assert.equal(records.get(name).get("asks"), asks ? "yes" : "no", name);
    for (const [name, record] of records) assert.equal(record.get("example").split(" ")[0], name);
});

test("the example of each operation makes as many words as is told", () => {
    for (const record of told("operations-data")) {
        const source = record.get("operation") === "end" ? `first z/ ${record.get("example")}` : ` ${record.get("example")}/ end`;
        const words = record.get("operation") === "end" ? 1 : Number(record.get("words"));
        assert.match(assembled(source), new RegExp(`^cells ${words} `), record.get("operation"));
    }
});

test("the example of each kind of fault has that fault, and the mended one none", () => {
    for (const record of told("faults-data").filter((it) => it.has("example"))) {
        assert.match(assembled(record.get("example")), new RegExp(`^line \\d+ ${record.get("fault")}$`, "m"), record.get("fault"));
        assert.match(assembled(record.get("mended")), /^cells /, record.get("fault"));
    }
});

/** The first record of a reply. */
const first = (...lines) => recordsOf(last(...lines))[0];

const LETTERS = told("operations-data").filter((record) => record.get("operation").length === 1);

test("each operation that is told as one of sixteen letters is that order of the machine", () => {
    assert.equal(LETTERS.map((record) => record.get("operation")).join(""), "zbyridnmpeuthcas");
    for (const [number, record] of LETTERS.entries()) {
        const operation = record.get("operation");
        const digits = last(`put 0000 ${operation} 0000`, "words 0000 1").trim().split(" ")[1];
        assert.equal(digits, `000${"0123456789fgjkqw"[number]}0000`, operation);
    }
});

test("an order waits for its word where that is told, and not elsewhere", () => {
    for (const record of LETTERS) {
        const operation = record.get("operation");
        const seeks = ["0301", "0302"].map((word) => first(`put 0000 ${operation} ${word}`, "json cost 0000").get("seek"));
        assert.equal(seeks[0] === seeks[1] ? "no" : "yes", record.get("waits"), operation);
    }
});

test("an order stores where that is told, and not elsewhere", () => {
    for (const record of LETTERS) {
        const operation = record.get("operation");
        const account = first(`put 0000 ${operation} 0301`, "go 0000", "json trace-data 1");
        assert.equal(account.get("stored") === "0301" ? "yes" : "no", record.get("stores"), operation);
    }
});

test("an operation needs an operand where none is told to do, and not elsewhere", () => {
    for (const record of told("operations-data")) {
        const operation = record.get("operation");
        const reply = operation === "end" ? assembled("first z/ end") : assembled(` ${operation}/ end`);
        assert.equal(reply.includes("MissingOperand"), !record.get("operands").startsWith("nothing"), operation);
    }
});

test("the part of a line that is told of a kind of fault is the one that is marked", () => {
    for (const record of told("faults-data").filter((it) => it.has("example"))) {
        const kind = record.get("fault");
        const lines = recordsOf(last("source", ...record.get("example").split("/"), ".", "json source-data"));
        const line = lines.find((it) => it.get("fault") === kind);
        assert.equal(line.has("at") ? "yes" : "no", record.get("marked"), kind);
        const part = line.get(record.get("part"));
        if (record.get("part") !== "line" && record.get("marked") === "yes") assert.deepEqual(line.get("at"), [part[0], part.at(-1)], kind);
    }
});

// ---- why a command is refused

const GOING = ["put 0000 u 0000", "go 0000"];
const FULL = Array.from({ length: 64 }, (_, place) => `break 00${String(place).padStart(2, "0")}`);
const SOURCE = ["source", "first z", " end first", "."];
/**
 * For each reason: lines after which the example is refused, and lines after which it is not; or what is typed instead of the example, and
 * is
 * refused; and the refusal. No lines lead to the clock's limit: the contracts of the crates say when it is the reason.
 */
const REASONS = {
    "while the machine is going: press manual first": { so: GOING, not: [...GOING, "press manual"], refusal: /^\? (2 Moving|3 AtWork)/ },
    "if there is no such address, or the clock would pass its limit": { wrong: "go 0064" },
    "while the machine is going, or if the text contains a character that does not exist on tape": {
        so: GOING, not: [], not: [], wrong: "mount 12A", refusal: /^\? 2 Moving/,
    },
    "if the text contains a character that does not exist on tape": { wrong: "type 12A" },
    "if the clock would pass its limit": { not: GOING },
    "if there is no such address": { wrong: (command) => `${command} 0064` },
    "if fewer orders are kept": { so: [], not: [...GOING, "orders 1"], refusal: /^\? 7 TooFar 0/ },
    "if no rule hits any of the kept orders": {
        so: [...GOING, "orders 9"], not: [...GOING, "orders 9", "break 0000"], refusal: /^\? 8 NoHit \d+/,
    },
    "if the words would go past the end of the drum": { wrong: (command) => `${command} 6363 2${command === "look" ? " 0" : ""}` },
    "if there are already 64 rules: drop removes one": { so: FULL, not: [...FULL, "drop 5"], refusal: /^\? 5 Full/ },
    "if no rule has this number: the command rules lists them": { so: [], not: ["break 0000"], refusal: /^\? 6 NoRule/ },
    "if no source has been assembled yet": { so: ["source", " x", "."], not: SOURCE, refusal: /^\? 10 NoImage/ },
    "if fewer orders were performed, or where LINE is": { wrong: "at 1 panel" },
    "if there is no such order": { wrong: "to 1" },
    "if there is no such command": { wrong: "help foo" },
    "if LINE is not for programs": { wrong: "json panel" },
};

test("a command is refused for the reason that is told, and not without it", () => {
    const named = new Set();
    for (const record of told("commands-data").filter((it) => it.get("group") !== "files")) {
        const [command, example, reason] = ["command", "example", "refused"].map((key) => record.get(key));
        const cause = REASONS[reason];
        named.add(reason);
        if (!cause) continue;
        const wrong = typeof cause.wrong === "function" ? cause.wrong(command) : cause.wrong;
        if (wrong) assert.match(last(wrong), /^\? (1 Form|7 TooFar 0|12 BadSign 2)/, wrong);
        if (cause.so) assert.match(last(...cause.so, example), cause.refusal, `${command}, ${reason}`);
        assert.doesNotMatch(last(...(cause.not ?? SOURCE), example), /^\? |\n\? /, `${command} without ${reason}`);
    }
    const others = [...named].filter((reason) => !reason.startsWith("never") && !(reason in REASONS));
    assert.deepEqual(others, ["if the source has faults, which are listed"]);
});

test("a command that is told never to be refused is not, at rest, going, or with as many rules as there can be", () => {
    for (const record of told("commands-data").filter((it) => it.get("refused").startsWith("never") && it.get("command") !== "quit")) {
        for (const before of [[], GOING, FULL, SOURCE]) {
            assert.doesNotMatch(last(...before, record.get("example")), /^\? /, record.get("command"));
        }
    }
});

// ---- why the machine is at rest, and what lets it go on

const STATES = {
    "the operator halted the machine, or has not started it": [],
    "a stop order halted the machine": ["press start", "run 9"],
    "an overflow halted the machine": [
        "put 0000 b 0100", "put 0100 80000000", "put 0001 s 0101", "put 0101 00000002", "press start", "run 9",
    ],
    "the machine halted after one operation": ["put 0000 u 0000", "press oneop", "press start", "run 9"],
    "an input is waiting for codes": ["put 0000 i 0000", "press start", "run 9"],
    "the machine is still going": GOING,
};
/** What a sentence says is to be done, and the status after it; after one operation the machine halts in its mode. */
const WAYS = {
    "press start to continue": [["press start"], /^(going|halted step)$/],
    "press start to perform one order": [["press start", "run 9"], /^halted step$/],
    "press normal and then press start to continue": [["press normal", "press start"], /^(going|halted step)$/],
    "press read to start the tape, or press compute to end the input": [["press compute"], /^(going|halted step)$/],
    "use run to continue, or press manual to halt it": [["run 9"], /^(going|halted step)$/],
};
const statusOf = (...lines) => first(...lines, "json panel-data").get("status");

test("each state of the machine has its own sentence, and what it says to do lets the machine go on", () => {
    const ways = new Set();
    const resting = Object.entries(STATES).filter(([, lines]) => lines !== GOING);
    const states = [...Object.entries(STATES), ...resting.map(([sentence, lines]) => [sentence, [...lines, "press oneop"]])];
    states.push(["the operator halted the machine, or has not started it", ["press manual"]]);
    for (const [sentence, lines] of states) {
        const state = first(...lines, "json state-data");
        const way = state.get("way-sentence");
        assert.equal(state.get("state-sentence"), sentence, lines.join(", "));
        ways.add(way);
        const [todo, status] = WAYS[way];
        const orders = ["0000", "0001", "0002"].map((place) => `put ${place} b 0100`);
        assert.match(statusOf(...lines, ...orders, ...todo), status, `${lines.join(", ")}: ${way}`);
    }
    assert.deepEqual([...ways].sort(), Object.keys(WAYS).sort());
    assert.equal(statusOf("put 0000 i 0000", "mount 1", "press start", "run 9", "press read"), "reading");
    assert.equal(statusOf(...GOING, "press manual"), "halted operator");
});

// ---- whether a word may be moved

test("each word of a run is told whether it may be moved, and why not", () => {
    const sum = ["put 0000 b 0010", "put 0001 h 0002", "put 0003 u 0000", "put 0010 b 0011", "press start"];
    const told = (word) => first(...sum, `json optimum-data 9 ${word}`);
    assert.deepEqual(
        ["0010", "0020", "0001", "0011", "0002"].map((word) => told(word).get("freedom")),
        ["free", "unnamed", "performed", "changed", "performed"]
    );
    // an order that no other one waits for makes a difference where it stands: these are the same two orders with the second one elsewhere
    const pair = (second) => first(`put 0000 u ${second}`, `put ${second} u 0000`, "press start", `json optimum-data 4 ${second}`);
    assert.deepEqual(["0001", "0022", "0058"].map((second) => pair(second).get("times")), [140, 137, 141]);
    assert.deepEqual([pair("0001").get("freedom"), new Set(pair("0001").get("numbers")).size], ["performed", 1]);
});

test("a place after the end line, what can be taken back, and an odd accumulator are told as they are", () => {
    const [line] = recordsOf(last("source", "a z", " end a", "b z", ".", "json source-data")).filter((it) => it.get("line") === 3);
    assert.deepEqual([line.get("fault"), line.has("place")], ["AfterEnd", false]);
    const pressed = first("put 0000 z", "press start", "json state-data");
    assert.deepEqual([pressed.get("kept"), pressed.get("kept-steps")], [0, 2]);
    assert.match(last("put 0000 z", "press start", "back 1"), /^\? 7 TooFar 0/);
    const typed = ["press manual", "press sixbit down", "type [35][35][35][35][35][35]"];
    const [accumulator, number] = ["accumulator", "accumulator-number"].map((key) => first(...typed, "json state-data").get(key));
    assert.equal(accumulator, "q38q38q3");
    const stored = first(...typed, "put 0000 h 0100", "press normal", "press start", "run 1", "json show-data 0100 1");
    assert.deepEqual([number, stored.get("number"), stored.get("digits")], [-238609295, -238609295, "q38q38q2"]);
});
