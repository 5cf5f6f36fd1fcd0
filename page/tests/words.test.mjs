import assert from "node:assert/strict";
import { readFileSync } from "node:fs";
import { test } from "node:test";
import { lessonsBelow, tasksBelow } from "../documents.mjs";
import { LANGUAGES, counted, decimal, inSigns, textsIn } from "../words.mjs";

const below = (folder) => new URL(`../../${folder}`, import.meta.url).pathname;

/** The names of all texts of a table, those within tables too. */
const names = (table) => Object.entries(table).flatMap(([name, text]) =>
    typeof text === "object" && !Array.isArray(text) ? names(text).map((inner) => `${name}.${inner}`) : [name]).sort();
const gaps = (text) => [...String(text).matchAll(/\{\w+\}/g)].map(String).sort();

test("each language has all texts", () => {
    for (const table of Object.values(LANGUAGES)) assert.deepEqual(names(table), names(LANGUAGES.en));
});

test("each language fills the same places", () => {
    for (const [name, text] of Object.entries(LANGUAGES.en)) assert.deepEqual(gaps(LANGUAGES.de[name]), gaps(text), name);
});

/** All texts of a table, those within tables too. */
const texts = (table) => Object.values(table).flatMap((text) => (typeof text === "object" ? texts(text) : [String(text)]));
/** The numbers with a point or comma; a source has its fractions as the machine reads them. */
const numbers = (table) => (
    texts(table).filter((text) => !text.includes("-0.25")).flatMap((text) => [...text.matchAll(/\b\d+[.,\u202f]\d+\b/g)].map(String)).sort()
);
const german = (number) => number.replace(/[.,]/g, (sign) => (sign === "." ? "," : "\u202f"));

test("German texts have the numbers of the English ones, with a comma for decimals and a narrow blank for thousands", () => {
    const wanted = numbers(LANGUAGES.en);
    assert.ok(wanted.length > 0);
    // names of versions and licences are in no language
    assert.deepEqual(numbers(LANGUAGES.de), wanted.map((number) => (number === "2.0" ? number : german(number))).sort());
});

test("places are filled, and an unknown language is English", () => {
    assert.equal(textsIn("de").text("faultAt", { line: 3 }), "Zeile 3: ");
    for (const code of ["xx", "constructor", "toString", "__proto__"]) {
        assert.deepEqual([textsIn(code).text("faultAt", { line: 3 }), textsIn(code).code], ["Line 3: ", "en"]);
    }
});

test("thousands are set apart by one sign in each language, in German by a narrow blank, beside a comma before decimals", () => {
    assert.deepEqual([counted(1168188, "en"), counted(999, "en"), decimal(18253.46, 1, "en")], ["1,168,188", "999", "18,253.5"]);
    assert.deepEqual(
        [counted(1168188, "de"), counted(-1000, "de"), decimal(18253.46, 1, "de")], ["1\u202f168\u202f188", "-1\u202f000", "18\u202f253,5"]
    );
    assert.deepEqual(["en", "de"].map((code) => inSigns(-0.0625, code, { maximumFractionDigits: 9 })), ["-0.0625", "-0,0625"]);
});

test("no German text has a number with a point among its digits: neither those of the page nor those of lessons and tasks", () => {
    const { tasks, sentences } = tasksBelow(below("teaching/tasks"), below("examples"));
    const ofTasks = [sentences.de, ...Object.values(tasks).map(({ texts }) => texts.de)];
    const told = JSON.stringify([LANGUAGES.de, lessonsBelow(below("teaching/lessons")).de, ofTasks]);
    assert.deepEqual(told.match(/(?<![\w.])\d{1,3}(\.\d{3})+(?![\w.])/g) ?? [], []);
    const page = readFileSync(below("docs/de/PAGE.md"), "utf8");
    assert.deepEqual(page.match(/(?<![\w.])\d{1,3}(\.\d{3})+(?![\w.])/g) ?? [], []);
});
