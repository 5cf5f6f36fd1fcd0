// Words as what they are: a whole number that a source declares is read with its point, wherever the machine shows it.
import assert from "node:assert/strict";
import { existsSync } from "node:fs";
import { dirname, join } from "node:path";
import { test } from "node:test";
import { fileURLToPath } from "node:url";
import { Controller } from "../controller.mjs";
import { accumulatorKinds, valueAt, valueOf, wholeAt } from "../kinds.mjs";
import { ModuleLink } from "../module_link.mjs";
import { textsIn } from "../words.mjs";

const module = join(dirname(fileURLToPath(import.meta.url)), "../../libraries/javascript/lgp_c_region.wasm");
const skip = !existsSync(module);

const SOURCE =
    "start   b five\n        a less    ; not int 7 8\n        h sum\n        z\nfive    int 5 30\nless    int -12 30\nsum     int 0 30\nint     int 3 10\nword    word 0000000f\n        end start";

async function opened() {
    const laboratory = new Controller(new ModuleLink(module));
    await laboratory.open();
    return laboratory;
}

test("what the words of a loaded source are is known, until another one is loaded", { skip }, async () => {
    const laboratory = await opened();
    await laboratory.assemble(SOURCE);
    assert.deepEqual([...laboratory.kinds], []);
    await laboratory.load(SOURCE);
    const orders = ["0000", "0001", "0002", "0003"].map((place) => [place, "order"]);
    assert.deepEqual([...laboratory.kinds], [...orders, ["0004", 30], ["0005", 30], ["0006", 30], ["0007", 10], ["0008", null]]);
    await laboratory.assemble("        z\none     int 1 20\n        end");
    assert.equal(laboratory.kinds.size, 9);
    await laboratory.load("        z\none     int 1 20\n        end");
    assert.deepEqual([...laboratory.kinds], [["0000", "order"], ["0001", 20]]);
});

test("such a word is read in decimal, also below zero and between two whole numbers, and in the language's signs", { skip }, async () => {
    const wholes = new Map([["0100", 30], ["0101", 10]]);
    assert.deepEqual(
        ["0000000f", "wwwwwww2", "00000001", "7wwwwwwq"].map((digits) => wholeAt(wholes, "0100", digits, "en")),
        ["5", "-7", "0.5", "1,073,741,823"]
    );
    assert.deepEqual(
        ["7wwwwwwq", "00000001"].map((digits) => wholeAt(wholes, "0100", digits, "de")), ["1\u202f073\u202f741\u202f823", "0,5"]
    );
    assert.equal(wholeAt(wholes, "0101", "00f00000", "en"), "5");
    assert.equal(wholeAt(wholes, "0102", "0000000f", "en"), null);
});

const english = textsIn("en");

test("a word is what its line says: a whole number, an order, or else digits; without a source it is an order where it can be one", () => {
    const kinds = new Map([["0000", "order"], ["0001", 30], ["0002", null]]);
    const at = (address, digits) => valueAt(kinds, address, digits, english);
    assert.deepEqual(
        [at("0000", "00010008"), at("0000", "00010009"), at("0001", "0000000f"), at("0002", "00010008"), at("0100", "00010008")],
        ["b 0002", "00010009", "5", "00010008", "00010008"]
    );
    assert.deepEqual(
        ["00010008", "0000000f", "00000004", "800g0020", "80000004"].map((digits) => valueAt(new Map(), "0000", digits, english)),
        ["b 0002", "0000000f", "00000004", "-t 0008", "80000004"]
    );
    assert.deepEqual(
        [valueOf("wwwwwwq4", "places", english), valueOf("0000000j", "places", textsIn("de")), valueOf("00000014", null, english)],
        ["\u22127 places", "3 Plätze", null]
    );
});

test("the accumulator holds what was brought: an order with a number added is one, the difference of two is a number of places", { skip }, async () => {
    const laboratory = await opened();
    await laboratory.load(
        "start   b change\n        a one\n        y change\n        s end\n        t start\n        b five\n        a five\n        s plain\nchange  z 0100\nend     z 0104\none     word 00000004\nfive    int 5 30\nplain   word 00000002\n        end start"
    );
    await laboratory.command("press start");
    await laboratory.step(6);
    const held = accumulatorKinds(laboratory.accounts, laboratory.kinds);
    assert.deepEqual(held.map(({ after }) => after), ["order", "order", "order", "places", "places", "order"]);
    const values = laboratory.accounts.map(({ after }, place) => valueOf(after, held[place].after, english));
    assert.deepEqual(values, ["z 0100", "z 0101", "z 0101", "\u22123 places", "\u22123 places", "z 0101"]);
    await laboratory.command("go 0005");
    await laboratory.step(3);
    const [brought, doubled, mixed] = accumulatorKinds(laboratory.accounts, laboratory.kinds).slice(-3).map(({ after }) => after);
    assert.deepEqual([brought, doubled, mixed], [30, 30, null]);
    assert.deepEqual(accumulatorKinds(laboratory.accounts.slice(1, 2), laboratory.kinds), [{ before: null, after: null }]);
    await laboratory.say(
        "new", "put 0000 b 0010", "put 0001 a 0011", "put 0002 s 0012", "put 0003 z", "put 0010 a 0100", "put 0011 00000004",
        "put 0012 a 0104", "press start"
    );
    await laboratory.step(3);
    assert.deepEqual(accumulatorKinds(laboratory.accounts, laboratory.kinds).map(({ after }) => after), ["order", "order", "places"]);
});

test("the words that a view wants are known at each look, also while a run goes on", { skip }, async () => {
    const laboratory = await opened();
    await laboratory.load(
        "start   b count\n        a one\n        h count\n        y change\nchange  a 0000\n        u start\ncount   int 0 29\none     int 1 29\nmark    word 00000000\n        end start"
    );
    laboratory.knowAt(["0004", "0006", "0008"]);
    await laboratory.command("press start");
    await laboratory.run(60);
    assert.deepEqual(
        [...laboratory.known].map(([address, { digits }]) => valueAt(laboratory.kinds, address, digits, english)),
        ["a 0010", "10", "00000000"]
    );
    const seen = [];
    laboratory.addEventListener("change", () => {
        if (laboratory.progress !== null) { seen.push(laboratory.known.get("0006").digits); laboratory.stop(); }
    });
    await laboratory.run();
    assert.deepEqual([seen.length > 0, seen[0] === "00000028"], [true, false]);
    laboratory.knowAt([]);
    await laboratory.step();
    assert.deepEqual([...laboratory.known], []);
});
