import assert from "node:assert/strict";
import { test } from "node:test";
import * as replies from "../replies.mjs";
import { replyOf } from "./told_as_json.mjs";

test("records, an object of JSON on each line", () => {
    const records = replies.recordsOf(
        '{"place":"0000 a","times":3,"label":null}\n{"place":"0001","times":"9007199254740993","last":false}\n'
    );
    assert.deepEqual(
        records.map((record) => [...record]),
        [[["place", "0000 a"], ["times", 3]], [["place", "0001"], ["times", "9007199254740993"], ["last", false]]]
    );
    assert.deepEqual(replies.recordsOf(""), []);
    for (const reply of ["place 0000\n", "? 1 Form\n", "{\n", "null\n"]) {
        assert.throws(() => replies.recordsOf(reply), replies.ReplyError, reply);
    }
});

const PANEL = [
    "counter 0002", "accumulator 00000012", "register 00040000", "status halted stop", "mode normal", "bp32 up", "bp16 up", "bp8 up",
    "bp4 down", "transfer up", "sixbit up", "reader off", "tape 0", "clock 1612",
];

test("a panel", () => {
    const panel = replies.panelOf(replyOf(PANEL));
    assert.deepEqual(
        [panel.counter, panel.accumulator, panel.status, panel.mode, panel.down.bp4, panel.down.transfer, panel.readerOn, panel.clock],
        ["0002", "00000012", "halted stop", "normal", true, false, false, 1612n]
    );
});

test("a text that is no panel", () => {
    for (const text of ["ok\n", "", replyOf(["counter 0002"]), replyOf(PANEL.filter((field) => field !== "bp8 up"))]) {
        assert.throws(() => replies.panelOf(text), replies.ReplyError, text);
    }
});

test("what is live, and what lets the machine go on", () => {
    const said = (way) => replies.liveOf(replyOf([...PANEL, "live-normal yes", "live-start no", "live-keys yes", `way ${way}`, "kept 9"]));
    assert.deepEqual(said("keys"), { live: new Set(["normal", "keys"]), way: { kind: "keys" } });
    assert.deepEqual(
        ["orders", "start", "normal-start"].map((way) => said(way).way),
        [{ kind: "go" }, { kind: "start" }, { kind: "mode", mode: "normal" }]
    );
    for (const reply of ["live normal\nway orders\n", replyOf(PANEL), ""]) {
        assert.throws(() => replies.liveOf(reply), replies.ReplyError, reply);
    }
});

test("the commands, and which only ask", () => {
    assert.deepEqual([...replies.commandsOf("put does address word\nwhy asks address\nload does alone\n")],
        [
            ["put", { asks: false, takes: "address word" }],
            ["why", { asks: true, takes: "address" }],
            ["load", { asks: false, takes: "alone" }],
        ]);
    assert.throws(() => replies.commandsOf("put ttss WORD\n"), replies.ReplyError);
    assert.deepEqual([...replies.waitingOf('{"operation":"b","waits":"yes"}\n{"operation":"z","waits":"no"}\n')], ["b"]);
    assert.throws(() => replies.waitingOf('{"operation":"b"}\n'), replies.ReplyError);
});

test("readings of a word", () => {
    assert.deepEqual(
        [replies.signedOf("wwwwwwwq"), replies.wholeOf("wwwwwwwq"), replies.fractionOf("40000000"), replies.fractionOf("80000000")],
        [-2, -1, 0.5, -1]
    );
    assert.equal(replies.bitsOf("000100j8").join(""), "00000000000000010000000011001000");
});

test("runs and their ends", () => {
    assert.deepEqual(replies.runOf("ran 3 rule 1\n"), { orders: 3, end: "rule", rule: 1 });
    assert.deepEqual(replies.runOf("ran 0 rest\n"), { orders: 0, end: "rest", rule: null });
    assert.deepEqual(replies.runOf("ran 0 rest\n        a stop order halted the machine: press start to continue\n"),
        { orders: 0, end: "rest", rule: null });
    const { told, end, state } = replies.reportOf(
        replyOf(["orders 0"], ["ran 0 rest", "state a stop order halted the machine: press start to continue"])
    );
    assert.deepEqual(
        [told.map((record) => [...record]), end, state],
        [[[["orders", 0]]], "ran 0 rest", "a stop order halted the machine: press start to continue"]
    );
    const broken = replies.reportOf(`${replyOf(["orders 2"])}? 4 ClockEnd 2\n`);
    assert.deepEqual([broken.told.length, broken.end, broken.state], [1, "? 4 ClockEnd 2", null]);
    for (const reply of ["? 4 ClockEnd\n", "ran\n", "ran 3\n", "ran three rest\n", "ran 3 rule\n", "ran 3 often\n"]) {
        assert.throws(() => replies.runOf(reply), replies.ReplyError, reply);
    }
});

test("replies of one short line", () => {
    assert.deepEqual(
        [
            replies.ordersOf("orders 2 halted stop\n"),
            replies.clockOf("clock 4611686018427387904\n"),
            replies.lastOf("back 4 rule 0\n"),
            replies.loadedOf("loaded 63\n"),
        ],
        [{ orders: 2, status: "halted stop" }, 4611686018427387904n, { orders: 4, rule: 0 }, 63]
    );
    const misread = [
        () => replies.ordersOf("ran 2 rest\n"), () => replies.clockOf("clock\n"), () => replies.clockOf("clock -1\n"),
        () => replies.lastOf("back 4\n"), () => replies.loadedOf("? 10 NoImage\n"), () => replies.loadedOf(""),
    ];
    for (const read of misread) assert.throws(read, replies.ReplyError, String(read));
    assert.deepEqual(
        replies.placesOf("0000 00080000\n0001 000100j8\n"), [{ address: "0000", text: "00080000" }, { address: "0001", text: "000100j8" }]
    );
    for (const reply of ["0000\n", "0000 p 4900\n", "00 00080000\n", "ok\n"]) {
        assert.throws(() => replies.placesOf(reply), replies.ReplyError, reply);
    }
});

test("refusals", () => {
    assert.deepEqual(replies.refusalOf("? 7 TooFar 12\n"), { code: 7, kind: "TooFar", number: 12, reason: null });
    assert.deepEqual(replies.refusalOf("? 1 Form: go ttss\n"), { code: 1, kind: "Form", number: null, reason: "go ttss" });
    assert.deepEqual(
        replies.refusalOf("? 12 BadSign 2: the byte at place 2: A\n"),
        { code: 12, kind: "BadSign", number: 2, reason: "the byte at place 2: A" }
    );
    for (const reply of ["ok\n", "?\n", "? 1\n", "? x Form\n", ""]) {
        assert.throws(() => replies.refusalOf(reply), replies.ReplyError, reply);
    }
});

const TIMES = ["find 45", "take 1", "seek 26", "act 1"];
const FIRST = ["clock 0", "at 0000", "order b 0003", ...TIMES, "before 00000000", "after 00000008"];
const TRACE = [
    FIRST,
    ["clock 92", "at 0001 put1", "order h 0004 sum", ...TIMES, "before 00000008", "after 00000008",
        "stored 0004 sum", "found 00000000", "found-order z 0000", "found-number 0", "left 80000000", "left-number -1073741824"],
    ["clock 165", "status reading", "find 0", "take 0", "seek 0", "act 385", "before 00000008", "after 00000008", "passed 1"],
    ["clock 550", "at register", "order p 0300", ...TIMES, "before 00000008", "after 00000008", "printed 3", "sign  "],
];

const accountsOf = (...records) => replies.accountsOf(replies.recordsOf(replyOf(...records)));

test("accounts", () => {
    const accounts = accountsOf(...TRACE);
    assert.deepEqual(accounts.map(({ clock, at, label, order, find, sum, after, inRegister }) => (
        [clock, at, label, order, find, sum, after, inRegister]
    )), [
        [0n, "0000", null, "b 0003", 45, 73, "00000008", false], [92n, "0001", "put1", "h 0004 sum", 45, 73, "00000008", false],
        [165n, null, null, "reading", 0, 385, "00000008", false], [550n, null, null, "p 0300", 45, 73, "00000008", true],
    ]);
    assert.deepEqual(accounts[1].stored, {
        address: "0004",
        label: "sum",
        before: { digits: "00000000", order: "z 0000", number: 0 },
        after: { digits: "80000000", order: null, number: -1073741824 },
    });
    assert.deepEqual(
        [accounts[0].stored, accounts[0].origin, accounts[2].passed, accounts[3].printed], [null, null, 1, { code: 3, sign: " " }]
    );
});

test("a field of an account whose key is not known stays as it is", () => {
    const [account] = accountsOf([...FIRST, "later 5 a"]);
    assert.deepEqual(account.notes, ["later 5 a"]);
});

test("records that are no account", () => {
    for (const fields of [["ran 3 rest"], ["clock 0"], FIRST.slice(0, 8)]) {
        assert.throws(() => accountsOf(fields), replies.ReplyError, fields.join());
    }
});

test("rows of the drum", () => {
    const rows = replies.drumRowsOf(["    64  i.........................Rx....", "   192  .................Fi-x"]);
    assert.deepEqual(rows.map((row) => [row.clock, row.signs.length]), [[64n, 32], [192n, 21]]);
    assert.deepEqual(replies.drumRowsOf(["     128      Fi"]), [{ clock: 128n, signs: "    Fi" }]);
    for (const line of ["", "ran 3 rest", "  ..Fi"]) assert.throws(() => replies.drumRowsOf([line]), replies.ReplyError, line);
});

test("a profile", () => {
    const profileOf = (...records) => replies.profileOf(replies.recordsOf(replyOf(...records)));
    const profile = profileOf(
        ["orders 3", "times 213", "turns 3.3", "find 154", "take 3", "seek 53", "act 3", "elsewhere 0"],
        ["place 0000", "times 92"], ["place 0001 next", "times 73"],
    );
    assert.deepEqual(
        [profile.orders, profile.times, profile.turns, profile.parts[0]], [3, 213, 3.3, { name: "find", times: 154, percent: 72 }]
    );
    assert.deepEqual(profile.places, [{ name: "0000", times: 92, percent: 43 }, { name: "0001 next", times: 73, percent: 34 }]);
    for (const records of [[], [["orders 3"]], [["place 0000", "times 3"]]]) {
        assert.throws(() => profileOf(...records), replies.ReplyError, records.join());
    }
});

/** The fields of `optimum-data` about a word, which would have cost least at sector 57. */
const costsIn = (...records) => replies.costsOf(replies.recordsOf(replyOf(...records)));
const costsWith = (...freedom) => [
    "orders 3", "times 213", "word 0003", "label four", "sector 3", "best 57", "saved 64", ...freedom,
    `numbers ${Array.from({ length: 64 }, (unused, sector) => (sector === 57 ? 149 : 213)).join(" ")}`,
];

test("what one word would have cost at each sector", () => {
    const { numbers, ...costs } = costsIn(costsWith("freedom free", "freedom-sentence it may be moved"));
    assert.deepEqual(costs, {
        orders: 3, times: 213, address: "0003", label: "four", own: 3, best: 57, saved: 64, kind: "free", reason: null,
    });
    assert.deepEqual([numbers.length, numbers[3], numbers[57]], [64, 213, 149]);
    const because = {
        performed: "it should not be moved, because it was performed as an order",
        changed: "it should not be moved, because a changed order or one only in the register named it",
        unnamed: "no order waited for it or stood there, so its sector makes no difference",
    };
    for (const [freedom, sentence] of Object.entries(because)) {
        const { kind, reason, saved } = costsIn(costsWith(`freedom ${freedom}`, `freedom-sentence ${sentence}`));
        assert.deepEqual([kind, reason, saved], [freedom, sentence, 0]);
    }
    const none = [
        "orders 0", "times 0", "word 0003", "sector 3", "best 3", "saved 0", "freedom unnamed", `freedom-sentence ${because.unnamed}`,
        `numbers ${Array(64).fill(0).join(" ")}`,
    ];
    assert.deepEqual((({ kind, reason, address }) => [kind, reason, address])(costsIn(none)), ["none", because.unnamed, null]);
    for (const records of [[], [["ran 3 rest"]], [costsWith()], [costsWith("freedom free").slice(0, -1)]]) {
        assert.throws(() => costsIn(...records), replies.ReplyError, records.join());
    }
});

test("faults of a source", () => {
    assert.deepEqual(replies.sourceOf("? 9 Faults\nline 1 UnknownName\n         b none\n           ^^^^\nline 2 NoEnd\n").faults,
        [{ line: 1, kind: "UnknownName" }, { line: 2, kind: "NoEnd" }]);
    assert.deepEqual(replies.sourceOf("cells 5 start 0000\n"), { cells: 5, start: "0000", faults: [] });
});

test("printed text", () => {
    assert.deepEqual(replies.printedOf("printed 4 a[16]b'\n"), { count: 4, text: "a[16]b'" });
    assert.equal(replies.printedOf("printed 0\n").text, "");
});

test("the typewriter's paper", () => {
    assert.deepEqual(replies.paperOf("paper 7\nL\n1       0\n"), { count: 7, text: "L\n1       0" });
    assert.deepEqual(replies.paperOf("paper 2\na\n\n"), { count: 2, text: "a\n" });
    assert.deepEqual(replies.paperOf("paper 0\n\n"), { count: 0, text: "" });
    for (const reply of ["paper 1 a\n", "paper 0\n", "printed 0\n", "? 1 Form\n", ""]) {
        assert.throws(() => replies.paperOf(reply), replies.ReplyError, reply);
    }
});

test("codes of a tape text are those of FORMATS", () => {
    assert.deepEqual(replies.codesOf("12[16]34'").map(({ code }) => code), [6, 10, 16, 14, 18, 32]);
    assert.deepEqual(replies.codesOf("zbyridnmpeuthcas").map(({ code }) => code),
        [1, 5, 9, 13, 17, 21, 25, 29, 33, 37, 41, 45, 49, 53, 57, 61]);
    assert.throws(() => replies.codesOf("A"), replies.ReplyError);
});

test("words, and where they came from", () => {
    const shown = replyOf(
        ["address 0000", "digits 00020004", "order y 0001", "number 65538", "changed yes"],
        ["address 0001", "label lop", "digits 80000000", "number -1073741824", "changed no"]
    );
    assert.deepEqual(replies.heldOf(shown), [
        { address: "0000", digits: "00020004", order: "y 0001", isChanged: true },
        { address: "0001", digits: "80000000", order: null, isChanged: false },
    ]);
    assert.throws(() => replies.heldOf(replyOf(["address 0000"])), replies.ReplyError);
    const reply = replyOf(
        [
            "address 0001", "label lop", "digits 000f0000", "order u 0000", "number 327680", "changed-by order", "by-order y 0001",
            "by-at 0000", "by-label loop", "by-clock 0", "by-ago 1", "before 000f0014", "before-order u 0005", "before-number 327690",
        ],
        [
            "address 0000", "digits 00020004", "order y 0001", "number 65538", "changed-by hand", "by-clock 7", "before 00000000",
            "before-order z 0000", "before-number 0",
        ],
        ["address 0002", "digits 00000000", "order z 0000", "number 0", "changed-by none"],
        [
            "address 0003", "digits 80000000", "number -1073741824", "changed-by order", "by-order h 0003", "by-clock 9", "by-ago 12",
            "before 12345678", "before-number 152709948",
        ],
    );
    assert.deepEqual([...replies.originsOf(reply)], [
        ["0001", { order: "y 0001", at: "0000", clock: 0n, lost: "u 0005" }],
        ["0000", { order: null, at: null, clock: 7n, lost: "z 0000" }],
        ["0003", { order: "h 0003", at: null, clock: 9n, lost: "12345678 = 152709948" }]]);
});

test("the rules", () => {
    assert.deepEqual(
        replies.rulesOf(replyOf(["rule 0", "kind break", "address 0100"], ["rule 1", "kind watch", "address 0009", "label loop"])),
        ["break 0100", "watch 0009 loop"]
    );
    assert.deepEqual(replies.rulesOf(""), []);
    assert.throws(() => replies.rulesOf(replyOf(["rule 0", "kind break"])), replies.ReplyError);
});

test("labels, of which one is past the drum", () => {
    assert.deepEqual(
        [...replies.labelsOf(
            replyOf(["name loop", "place 0000", "line 1"], ["name same", "place 0000", "line 2"], ["name end", "line 3"])
        )],
        [["0000", ["loop", "same"]]]
    );
});

test("what put an order where it stood", () => {
    const originBy = (...lines) => accountsOf([...FIRST, ...lines])[0].origin;
    assert.deepEqual(
        originBy("put-by y 0002", "put-at 0001 first", "put-clock 101", "put-ago 1", "put-over h 0000"),
        { order: "y 0002", at: "0001", clock: 101n, lost: "h 0000" }
    );
    assert.deepEqual(
        originBy("put-by h 0136", "put-at register", "put-clock 7", "put-ago 12", "put-over 0000000j = 6"),
        { order: "h 0136", at: null, clock: 7n, lost: "0000000j = 6" }
    );
    assert.deepEqual(originBy("put-by hand", "put-clock 0", "put-over z 0000"), { order: null, at: null, clock: 0n, lost: "z 0000" });
});
