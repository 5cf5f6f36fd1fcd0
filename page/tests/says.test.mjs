import assert from "node:assert/strict";
import { test } from "node:test";
import { happeningIn, letterOf, rewrittenBy, saysOf, whyOf } from "../views/says.mjs";
import { LANGUAGES, textsIn } from "../words.mjs";

/** An account as the controller has it, with these fields. */
const account = (fields) => (
    {
        order: "b 0020", word: "0020", at: "0004", find: 24, take: 1, seek: 15, act: 1, before: "00000000", after: "00000000", stored: null,
        printed: null, passed: 0, ...fields,
    }
);
const word = (digits, order = null) => ({ digits, order, number: 0 });

test("an order as it is written has a letter; another text has none", () => {
    assert.deepEqual(["b 0050", "b 0050 table+1", "u 0007 loop", "-t 0007"].map(letterOf), ["b", "b", "u", "t"]);
    assert.deepEqual(["word 0000001f", "halted stop", "reading", ""].map(letterOf), [null, null, null, null]);
});

test("an order that uses a word tells both waits, one that uses none tells the first alone", () => {
    const { kind, waits, values } = saysOf(account());
    assert.deepEqual([kind, waits, values.m, values.f, values.s], ["b", "waitsOrderWord", "0020", 24, 15]);
    assert.equal(saysOf(account({ order: "u 0020", word: null })).waits, "waitsOrder");
    assert.deepEqual(
        ["0020", null].map((word) => saysOf(account({ word, at: null, find: 0 })).waits), ["waitsRegisterWord", "waitsRegister"]
    );
    assert.deepEqual((({ kind: name, waits: wait }) => [name, wait])(saysOf(account({ order: "reading", word: null }))), ["other", null]);
});

test("a bar says why its order has waited: where it and its word are, and which sector was next under the head", () => {
    assert.deepEqual(
        whyOf(account({ clock: 130n })),
        [{ name: "whyOrder", values: { m: "0004", next: "50", f: 24 } }, { name: "whyWord", values: { m: "0020", next: "03", s: 15 } }]
    );
    assert.deepEqual(whyOf(account({ clock: 0n, find: 0, word: null })).map(({ name }) => name), ["whyRegister", "whyNoWord"]);
    for (const { text } of [textsIn("en"), textsIn("de")]) {
        for (const name of ["whyOrder", "whyRegister", "whyWord", "whyNoWord", "whyWaited"]) assert.ok(text(name).length > 0);
    }
});

test("a test tells what it has found: the sign, or the switch where the order has a sign of its own", () => {
    const kindOf = (fields) => saysOf(account({ order: "t 0008", ...fields })).kind;
    assert.deepEqual(["7wwwwwww", "80000000", "wwwwwwww"].map((before) => kindOf({ before })), ["tNot", "tBelow", "tBelow"]);
    assert.deepEqual(
        [
            kindOf({ next: "0008" }),
            kindOf({ order: "-t 0008", next: "0008" }),
            kindOf({ order: "-t 0008", next: "0005" }),
            kindOf({ order: "-t 0008" }),
        ],
        ["tNot", "tSwitch", "tNot", "tOpen"]
    );
});

test("a stop tells whether the machine stood still, and a print its sign or its code", () => {
    assert.deepEqual(
        ["halted stop", "going", undefined].map((status) => saysOf(account({ order: "z 0400", status })).kind), ["z", "zPast", "zPast"]
    );
    assert.deepEqual([1, 2].map((passed) => saysOf(account({ order: "i 0000", passed })).kind), ["iOne", "i"]);
    assert.deepEqual(
        [{ code: 46, sign: "g" }, { code: 16, sign: null }].map((printed) => (
            (({ kind, values }) => [kind, values.g, values.code])(saysOf(account({ order: "p 4600", printed })))
        )),
        [["p", "g", 46], ["pCode", "", 16]]
    );
});

test("each order has a sentence in each language", () => {
    for (const letter of "zbyridnmpeuthcas") {
        const { kind } = saysOf(account({ order: `${letter} 0020`, printed: { code: 46, sign: "g" } }));
        for (const { says } of Object.values(LANGUAGES)) assert.equal(typeof says[kind], "string", kind);
    }
});

test("an order that gives another one another address has rewritten it; one that changes nothing, or holds a number, has not", () => {
    const stored = { address: "0009", label: null, before: word("000q0000", "a 0000"), after: word("000q0100", "a 0100") };
    assert.deepEqual(
        rewrittenBy(account({ order: "y 0009", at: "0005", stored })), { o: "y 0009", at: "0005", m: "0009", b: "a 0000", a: "a 0100" }
    );
    assert.equal(rewrittenBy(account({ order: "y 0009", stored: { ...stored, after: stored.before } })), null);
    assert.equal(rewrittenBy(account({ order: "h 0009", stored })), null);
    assert.equal(rewrittenBy(account()), null);
    assert.deepEqual(
        rewrittenBy(account({ order: "r 0009", at: null, stored: { ...stored, before: word("wwwwwwww") } })),
        { o: "r 0009", at: "–", m: "0009", b: "wwwwwwww", a: "a 0100" }
    );
});

test("what is told while a program plays is told of the order under way alone: of a print as long as it acts, of a rewriting as long as it stands", () => {
    const stored = { address: "0009", label: null, before: word("000q0000", "a 0000"), after: word("000q0100", "a 0100") };
    const writes = account({ order: "y 0009", at: "0005", stored });
    const told = (of, phase, isTelling = false) => happeningIn({ now: of.at, order: of.order, phase }, of, isTelling)?.name ?? null;
    assert.deepEqual(["find", "take", "seek", "act", "done"].map((phase) => told(writes, phase)), [null, null, null, null, null]);
    assert.deepEqual([told(writes, "done", true), told(account(), "done", true)], ["kiosk_write", null]);
    const prints = account({ order: "p 4600", printed: { code: 46, sign: "g" } });
    assert.deepEqual(
        ["find", "take", "seek", "act", "done"].map((phase) => told(prints, phase, true)), [null, null, null, "kiosk_type", null]
    );
    assert.equal(told(account({ order: "p 1600", printed: { code: 16, sign: null } }), "act"), null);
    assert.equal(happeningIn({ now: null, order: null, phase: null }, null, true), null);
    assert.deepEqual(happeningIn({ now: "0005", order: "y 0009", phase: "done" }, writes, true).values, { b: "a 0000", a: "a 0100" });
});
