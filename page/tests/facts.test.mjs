// What the page and the module know of the machine, to draw and to read it, is what the monitor answers: for all sectors, codes and places
// of the loader.
import assert from "node:assert/strict";
import { readFileSync } from "node:fs";
import { test } from "node:test";
import { addressOf, numberOf } from "../addresses.mjs";
import { FIELDS, LETTERS, isNegative, isOfLoader, orderIn, placesIn, placesTo, positionOf, sectorAt } from "../machine.mjs";
import { freePlace } from "../placing.mjs";
import { bitsOf, codesOf, digitsOf, fractionOf, recordsOf, signedOf, wholeOf } from "../../libraries/javascript/replies.mjs";
import { Session, compiled } from "../../libraries/javascript/session.mjs";

const module = compiled(readFileSync(new URL("../../libraries/javascript/lgp_c_region.wasm", import.meta.url)));
const laboratory = () => {
    const session = new Session(module);
    return (...lines) => recordsOf(lines.map((line) => session.answer(line)).at(-1));
};
const SECTORS = Array.from({ length: 64 }, (unused, sector) => sector);

test("how long each sector is away, from each position of the drum, is what the monitor says that an order there would wait", () => {
    const ask = laboratory();
    for (const clock of SECTORS) {
        for (const sector of SECTORS) {
            assert.equal(
                ask(`json cost ${addressOf(sector)}`)[0].get("find"), placesTo(sector, BigInt(clock)), `sector ${sector} at ${clock}`
            );
        }
        ask("turn 1", "json panel-data");
    }
});

test("the sectors pass the head in the order in which they are drawn", () => {
    assert.deepEqual(SECTORS.map((position) => positionOf(sectorAt(position))), SECTORS);
    assert.deepEqual(
        [...SECTORS].sort((one, other) => placesTo(one, 63n) - placesTo(other, 63n)), SECTORS.map((position) => sectorAt(position))
    );
});

test("each code has the sign that the monitor gives it on a tape and when it is printed, or none", () => {
    const ask = laboratory();
    for (const code of SECTORS) {
        const group = `[${String(code).padStart(2, "0")}]`;
        const text = ask(`mount ${group}`, "json tape-data")[0].get("left");
        const [{ code: read, sign }] = codesOf(text);
        assert.deepEqual([read, text], [code, sign ?? group]);
        assert.deepEqual(codesOf(group), [{ code, sign }]);
        if (code === 0) continue;
        const [printed] = laboratory()(`put 0000 p ${String(code).padStart(2, "0")}00`, "press start", "run 1", "json paper-data 0");
        assert.deepEqual([printed.get("code"), printed.get("sign") ?? null], [code, sign], group);
    }
});

test("no word is put where the loader lies, and everywhere else one may be", () => {
    const ask = laboratory();
    const all = new Set(Array.from({ length: 4096 }, (unused, number) => addressOf(number)));
    for (const track of SECTORS) {
        const words = ask(
            "source", ` org ${addressOf(64 * track)}`, ...SECTORS.map(() => " z"), " end", ".", "json source-data"
        ).slice(1, 65);
        for (const [sector, word] of words.entries()) {
            assert.equal(isOfLoader(64 * track + sector), word.get("fault") !== undefined, addressOf(64 * track + sector));
        }
    }
    for (let number = numberOf("6263"); number < 4096; number += 1) {
        const place = addressOf(number);
        const [, word] = ask("source", ` org ${place}`, " z", " end", ".", "json source-data");
        const others = new Set([...all].filter((it) => it !== place));
        assert.equal(freePlace(number % 64, others), word.get("fault") === undefined ? place : null, place);
    }
});

test("a word is read from its digits as the monitor reads it", () => {
    const ask = laboratory();
    let seed = 1956;
    const words = ["00000000", "7wwwwwwq", "80000000", "wwwwwwwq", "00000002", "wwwwwwww"].map((digits) => digits.replace(/q$|w$/, "q"));
    for (let count = 0; count < 200; count += 1) {
        seed = (Math.imul(seed, 1103515245) + 12345) | 0;
        words.push(digitsOf(seed & ~1));
    }
    for (const digits of words) {
        const [shown] = ask(`put 0100 ${digits}`, "json show-data 0100 1");
        assert.deepEqual([shown.get("digits"), shown.get("number")], [digits, wholeOf(digits)], digits);
        assert.ok(Math.abs(Number(shown.get("fraction")) - fractionOf(digits)) <= 5.0001e-11, digits);
        assert.equal(digitsOf(signedOf(digits)), digits);
        assert.equal(bitsOf(digits).length, 32);
    }
});

test("a word is an order, or none, as the monitor says: for each address, each letter and its sign, and other words; and an address grows by the places that are added", () => {
    const ask = laboratory();
    const words = Array.from({ length: 4096 }, (unused, number) => digitsOf((number % 16 << 16) | (number >> 6 << 8) | (number % 64 << 2)));
    for (let track = 0; track < 64; track += 1) {
        const place = addressOf(64 * track);
        ask(
            ...words.slice(64 * track, 64 * track + 64).map((digits, sector) => `put ${addressOf(64 * track + sector)} ${digits}`),
            "json panel-data"
        );
        for (const shown of ask(`json show-data ${place} 64`)) {
            assert.equal(orderIn(shown.get("digits")), shown.get("order") ?? null, shown.get("digits"));
        }
    }
    const others = [...LETTERS].flatMap((unused, number) => [
        digitsOf((number << 16) | (1 << 31)), digitsOf((number << 16) | 2), digitsOf((number << 16) | (1 << 14)),
        digitsOf((number << 16) | (1 << 20)),
    ]);
    for (const digits of others) {
        const [shown] = ask(`put 0000 ${digits}`, "json show-data 0000 1");
        assert.deepEqual([orderIn(digits), isNegative(digits)], [shown.get("order") ?? null, shown.get("number") < 0], digits);
    }
    assert.deepEqual(["0000000j", "wwwwwwwj", "00000002"].map(placesIn), [3, -1, null]);
});

test("the bits of a word that are drawn as those of an order, a track and a sector are these", () => {
    const ask = laboratory();
    const valueIn = (digits, [first, past]) => Number.parseInt(bitsOf(digits).slice(first, past).join(""), 2);
    for (const [number, letter] of [..."zbyridnmpeuthcas"].entries()) {
        for (const place of ["0000", "0163", "3201", "6363"]) {
            const [{ digits }] = ask(`put 0100 ${letter} ${place}`, "json show-data 0100 1").map(
                (shown) => ({ digits: shown.get("digits") })
            );
            const fields = [FIELDS.order, FIELDS.track, FIELDS.sector].map((field) => valueIn(digits, field));
            assert.deepEqual(fields, [number, Number(place.slice(0, 2)), Number(place.slice(2))], `${letter} ${place}`);
        }
    }
});
