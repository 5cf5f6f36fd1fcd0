// The examples in other languages: each comment is there, and the same script is under them.
import assert from "node:assert/strict";
import { existsSync, readFileSync, readdirSync } from "node:fs";
import { dirname, join } from "node:path";
import { test } from "node:test";
import { fileURLToPath } from "node:url";
import { Controller } from "../controller.mjs";
import { remarksBelow, scriptsBelow, sourcesBelow, sourcesOf, tableOf } from "../documents.mjs";
import { remarksOf, remarksOfSource, sourceIn, tableIn, withRemarks } from "../examples.mjs";
import { commentsIn, headOf, linesIn } from "../lines.mjs";
import { answerScript, answerSource, bytesOf, textOf } from "../../libraries/javascript/session.mjs";
import { ModuleLink } from "../module_link.mjs";
import { LANGUAGES } from "../words.mjs";

const top = join(dirname(fileURLToPath(import.meta.url)), "../..");
const shelf = join(top, "examples");
const module = join(top, "libraries/javascript/lgp_c_region.wasm");
const skip = !existsSync(module);
const scripts = scriptsBelow(shelf);
const others = Object.keys(LANGUAGES).filter((code) => code !== "en");
const remarks = remarksBelow(shelf);
const inLanguage = (code, name, script) => withRemarks(script, remarks[code][name]);

/** The sources that are given to pupils, by their tasks. */
const given = readdirSync(join(top, "teaching/tasks"))
    .map((name) => [name, join(top, "teaching/tasks", name, "given.source")])
    .filter(([, file]) => existsSync(file))
    .map(([name, file]) => [name, readFileSync(file, "utf8")]);

/** The sources beside the examples that are scripts. */
const beside = sourcesOf(shelf);

/** A script without its comments, line by line. */
const bare = (script) => linesIn(withRemarks(script, remarksOf(script).map(() => "")));

for (const code of others) {
    const table = tableOf(shelf, code);

    test(`each comment of the examples and of the sources for pupils is there in ${code}, and none that is nowhere`, () => {
        const written = [
            ...scripts.flatMap(([name, script]) => remarksOf(script).map((remark) => [name, remark])),
            ...[...given, ...beside].flatMap(([name, source]) => remarksOfSource(source).map((remark) => [name, remark])),
        ];
        assert.deepEqual(written.filter(([, remark]) => !table.has(remark)), []);
        const known = new Set(written.map(([, remark]) => remark));
        assert.deepEqual([...table.keys()].filter((remark) => !known.has(remark)), []);
    });

    test(`without comments each example is the same in ${code}, line by line`, () => {
        for (const [name, script] of scripts) assert.deepEqual(bare(inLanguage(code, name, script)), bare(script), name);
        for (const [name, source] of [...given, ...beside]) {
            assert.deepEqual(sourceIn(source, table).replace(/;.*$/gm, ""), source.replace(/;.*$/gm, ""), name);
        }
    });

    test(`each example has a title of its own in ${code}, and says the same words of places`, () => {
        const placesOf = (script) => [...commentsIn(linesIn(script))].map(([address, { digits }]) => [address, digits]);
        for (const [name, script] of scripts) {
            const other = inLanguage(code, name, script);
            assert.ok(headOf(other).title.length > 10 && headOf(other).title !== headOf(script).title, name);
            assert.equal(headOf(other).paragraphs.length, headOf(script).paragraphs.length, name);
            assert.deepEqual(placesOf(other), placesOf(script), name);
        }
    });

    test(`the replies to each example in ${code} are its stored ones, but for the comments of a listing`, { skip }, () => {
        const bytes = readFileSync(module);
        const plain = (text) => text.replace(/ +;.*$/gm, "");
        for (const [name, script] of scripts) {
            const { replies } = answerScript(bytes, bytesOf(inLanguage(code, name, script)));
            assert.equal(plain(textOf(replies)), plain(readFileSync(join(shelf, `${name}.expected`), "utf8")), name);
        }
    });
}

test("comments are found where they are, and a sign after = is none", () => {
    const script = "; one\n;   two  \nput 0000 z ; no comment\n;\nsource\nstart p =;  ; three\n; four\n p =;\n.\n; five\n";
    assert.deepEqual(remarksOf(script), ["one", "two", "three", "four", "five"]);
    assert.equal(
        withRemarks(script, ["1", "2", null, "4", "5"]),
        "; 1\n;   2\nput 0000 z ; no comment\n;\nsource\nstart p =;  ; three\n; 4\n p =;\n.\n; 5\n"
    );
    assert.deepEqual([...tableIn("# a language\n\none\n    eins\nwithout\ntwo\n    zwei\n")], [["one", "eins"], ["two", "zwei"]]);
});

test("a script that is open has its comments in another language, and what is left of a run stays", { skip }, async () => {
    const laboratory = new Controller(new ModuleLink(module));
    await laboratory.open();
    const [name, script] = scripts.find(([it]) => it === "self-modifying");
    await laboratory.openScript(name, script);
    laboratory.script.lines[laboratory.script.at] = "run 3";
    laboratory.retold(inLanguage("de", name, script));
    assert.equal(
        headOf(laboratory.script.lines.join("\n")).title, "Ein Programm, das seine eigenen Befehle ändert: die Summe einer Tabelle"
    );
    assert.deepEqual([laboratory.script.lines[laboratory.script.at], laboratory.comments.get("0003").comment], ["run 3", "anhalten"]);
});

/** The replies of a new laboratory to lines. */
const repliesTo = (lines) => textOf(answerScript(readFileSync(module), bytesOf(`${lines.join("\n")}\n`)).replies);

/** The words that are not zero on the drum after lines, by their addresses. */
const drumAfter = (lines) => (
    new Map([...repliesTo([...lines, "dump"]).matchAll(/^(\d{4}) ([0-9fgjkqw]{8})$/gm)].map(([, address, word]) => [address, word]))
);

/** The words of a source by their addresses, those that are zero as well, as a listing has them. */
const wordsOf = (source) => new Map(
    [...textOf(answerSource(readFileSync(module), "asm", bytesOf(source)).replies).matchAll(/^(\d{4}) ([0-9fgjkqw]{8})/gm)].map(
        ([, address, word]) => [address, word]
    )
);

const ZERO = "00000000";

test("each example that has no source in its script has one beside it, in each language", () => {
    const without = scripts.filter(([, script]) => !linesIn(script).includes("source")).map(([name]) => name);
    assert.deepEqual(beside.map(([name]) => name), without);
    assert.ok(without.includes("self-modifying") && without.includes("finding-mistakes/wrong-address"));
    for (const [code, sources] of Object.entries(sourcesBelow(shelf))) {
        assert.deepEqual(Object.keys(sources), without, code);
        for (const [name, source] of Object.entries(sources)) {
            assert.deepEqual([...source].filter((sign) => sign.charCodeAt(0) > 126), [], `${name} in ${code}`);
        }
    }
});

test("the source beside an example has the words that its script puts in, or leaves there", { skip }, () => {
    for (const sources of Object.values(sourcesBelow(shelf))) {
        for (const [name, source] of Object.entries(sources)) {
            const lines = linesIn(scripts.find(([it]) => it === name)[1]);
            const puts = lines.slice(0, lines.indexOf("press start")).filter((line) => line.startsWith("put "));
            const words = wordsOf(source);
            const drum = drumAfter(puts.length === 0 ? lines : puts);
            assert.ok(words.size > 1, name);
            for (const [address, word] of words) {
                assert.ok(puts.length === 0 && word === ZERO || (drum.get(address) ?? ZERO) === word, `${name}: ${address} ${word}`);
            }
            if (puts.length > 0) for (const [address, word] of drum) assert.equal(words.get(address), word, `${name}: ${address}`);
        }
    }
});

test("a comment beside an order of these sources has at most 44 signs", () => {
    for (const sources of Object.values(sourcesBelow(shelf))) {
        for (const [name, source] of Object.entries(sources)) {
            assert.deepEqual(linesIn(source).filter((line) => /\S.*; /.test(line) && line.length - line.indexOf("; ") > 46), [], name);
        }
    }
});
