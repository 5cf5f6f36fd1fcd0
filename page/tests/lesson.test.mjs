import assert from "node:assert/strict";
import { existsSync, readFileSync } from "node:fs";
import { dirname, join } from "node:path";
import { test } from "node:test";
import { fileURLToPath } from "node:url";
import { Controller } from "../controller.mjs";
import { documentOf, lackingIn, lessonsBelow } from "../documents.mjs";
import { SOLUTIONS } from "../lesson_solutions.mjs";
import { solveLesson } from "../lesson_solver.mjs";
import { LESSONS } from "../lesson_steps.mjs";
import { lessonIn } from "../lessons.mjs";
import { signedOf } from "../../libraries/javascript/replies.mjs";
import { ModuleLink } from "../module_link.mjs";
import { plain } from "../views/lesson.mjs";
import { TALES } from "../views/tales.mjs";
import { LANGUAGES, inSigns } from "../words.mjs";

const top = join(dirname(fileURLToPath(import.meta.url)), "../..");
const documents = join(top, "teaching/lessons");
const module = join(top, "libraries/javascript/lgp_c_region.wasm");
const skip = !existsSync(module);
const lessons = lessonsBelow(documents);
const stepsOf = (name) => LESSONS.find((lesson) => lesson.name === name).steps;

test("the answer for the places to go is what the drum then needs to find the order, whatever the clock is", async () => {
    const ask = stepsOf("rewriting")[11];
    // the finds of orders at 0005 begun at these clocks, as in docs/ACCOUNTS.md the one at 181; a sector that has just been read needs a
    // whole turn
    assert.deepEqual(
        [181n, 180n, 45n, 44n, 46n, 109n].map((clock) => ask.answer({ panel: { clock } })), ["56", "57", "64", "1", "63", "64"]
    );
});

test("an answer is what the machine shows, and none where it shows nothing", () => {
    const [changed, order] = stepsOf("rewriting").slice(12);
    assert.equal(changed.answer({ accounts: [{ stored: { address: "0009" } }] }), "0009");
    assert.deepEqual(
        [changed.answer({ accounts: [] }), changed.answer({ accounts: [{ stored: null }] }), order.answer({ words: [] })],
        [null, null, null]
    );
    assert.equal(order.answer({ words: [{ address: "0009", order: "a 0000" }] }), "a 0000");
});

test("each step has its text and a hint, and each story its captions, in each language", () => {
    for (const [code, { tales }] of Object.entries(LANGUAGES)) {
        for (const { name, steps } of LESSONS) {
            const written = lessons[code][name];
            assert.deepEqual(
                [written.steps.length, written.steps.filter(({ hint }) => hint === "").map(({ text }) => text)],
                [steps.length, []],
                `${name} in ${code}`
            );
            assert.ok([written.title, written.about, written.end].every((text) => text.length > 0), name);
        }
        for (const { name, plays } of TALES) assert.equal(Object.keys(tales[name].captions).length, plays.length, name);
    }
});

/** What tells a reader to type, in each language. */
const TYPING = { en: /\b(re)?typ(e|es|ing)\b/i, de: /\b(ab)?tipp(e|en|t)\b/i };

test("a step or a hint that tells to type, or has a line of the monitor, has a box for lines, in each language", { skip }, async () => {
    const laboratory = new Controller(new ModuleLink(module));
    await laboratory.open();
    const commands = new Set((await laboratory.say("commands")).trim().split("\n").map((line) => line.split(" ")[0]));
    assert.ok(commands.has("put") && commands.has("drop"));
    const isLine = (piece) => /^\w+ .*\d|^new$/.test(piece) && commands.has(piece.split(" ")[0]);
    let asked = 0;
    for (const [code, typing] of Object.entries(TYPING)) for (const { name, steps } of LESSONS) {
        for (const [place, { text, hint }] of lessons[code][name].steps.entries()) {
            const lines = `${text} ${hint}`.split("`").filter((piece, at) => at % 2 === 1 && isLine(piece));
            const isAsked = typing.test(text) || typing.test(hint) || lines.length > 0;
            asked += isAsked ? 1 : 0;
            assert.ok(!isAsked || steps[place].types === true, `step ${place + 1} of ${name} in ${code}: ${text}`);
        }
    }
    assert.ok(asked >= 30, `${asked}`);
});

test("each part of a lesson begins with a machine that is set up for it, and no step sets it up anew before the pupil has answered", () => {
    for (const { name, steps } of LESSONS) {
        const written = lessons.en[name].steps;
        const isSetUp = steps.map(({ opens }, place) => opens !== undefined || written[place].lines.length > 0);
        const begins = written.map(({ part }, place) => part !== written[place - 1]?.part);
        assert.deepEqual(begins.map((isFirst, place) => isFirst && !isSetUp[place]).indexOf(true), -1, name);
        for (const [place, isNew] of isSetUp.entries()) {
            if (isNew && place > 0) assert.ok(steps[place - 1].answer !== undefined, `step ${place} of ${name}`);
        }
    }
});

test("a lesson is read from its document: steps in several lists, their parts, hints and lines; steps out of order are told", () => {
    const lesson = lessonIn(
        "# Title\n\nFirst.\n\nWhat it\nis about.\n\n1. One.\n2. Two?\n   *Hint.* Not yet.\n\nText.\n\n## Part\n\n3. Three.\n\n       new\n        z\n   *Hint.* No.\n\nThe end.\n\n1. Another list.\n2. It goes on.\n"
    );
    assert.deepEqual(lesson, { title: "Title", about: "What it is about.", end: "The end.", steps: [
        { text: "One.", part: "", hint: "", lines: [] },
        { text: "Two?", part: "", hint: "Not yet.", lines: [] },
        { text: "Three.", part: "Part", hint: "No.", lines: ["new", " z"] },
    ] });
    assert.throws(() => lessonIn("# Title\n\nAbout.\n\n1. One.\n3. Three.\n\nEnd.\n"), /step 3 comes after step 1/);
    assert.throws(() => lessonIn("# Title\n\nAbout.\n\n1. One.\n\nText.\n\n3. Three.\n\nEnd.\n"), /step 3 comes after step 1/);
});

test("an answer may have its thousands set apart", () => {
    assert.deepEqual(
        [" 25,088", "25.088", "25\u202f088", "25 088", "25088 ", "A  0000", "0,5"].map(plain),
        ["25088", "25088", "25088", "25088", "25088", "a 0000", "0,5"]
    );
});

test("the solutions of the lessons are what the machine says", { skip }, async () => {
    const wanted = {
        "a-computer-on-a-drum": [
            "57", "0000", null, null, "6", "67", "64", "1", "6", "6", "1", "64", null, "9", null, "385", "853", "h", null, "1639", null,
        ],
        "rewriting": [
            null, "b 0001", "b 0002", null, "00010100", null, "000q0024", "a 0010", "a 0011", "0000000j", null, "56", "0009", "a 0000",
            null, "a 0104", "0013", null, "448", "7",
        ],
        "reading-a-listing": [null, null, "t 0205", "z 0005", null, "295", "256", "4", "00000000"],
        "where-a-word-costs-least": [null, "73", "38", null, "6", "25", "25088", "26", "00"],
        "what-can-a-forecast-know": ["0020", "0090897251", "1725", null, "1480", "1635", "1620", "1640"],
    };
    assert.deepEqual(Object.keys(SOLUTIONS).sort(), LESSONS.map(({ name }) => name).sort());
    for (const [name, answers] of Object.entries(wanted)) assert.deepEqual((await solveLesson(name)).answers, answers, name);
});

test("the ring of costs on the sheet is the wage's after the whole run", { skip }, async () => {
    const { laboratory } = await solveLesson("where-a-word-costs-least");
    await laboratory.askCosts("0128");
    assert.deepEqual([laboratory.costs.address, laboratory.costs.orders, laboratory.costs.times], ["0128", 2355, 150629]);
});

/** The rows of the race's table in a document: five addresses, and the word times and turns as they are written there. */
const racesIn = (document) => document.split("\n")
    .filter((line) => /^\| (\d{4} ){5}/.test(line))
    .map((line) => line.split("|").slice(1, -1).map((cell) => cell.trim()));

test("each row of the race's table is what a profile of that placement tells, in each language", { skip }, async () => {
    const laboratory = new Controller(new ModuleLink(module));
    await laboratory.open();
    const [, written] = /^source\n([^]*?)\n\.\n/m.exec(readFileSync(join(top, "examples/drum/household.txt"), "utf8"));
    const names = ["wage", "rent", "food", "coal", "fares"];
    for (const code of Object.keys(LANGUAGES)) {
        const rows = racesIn(readFileSync(documentOf(documents, "where-a-word-costs-least", code), "utf8"));
        assert.equal(rows.length, 8);
        for (const [places, times, turns] of rows) {
            const source = places.split(" ").reduce(
                (text, place, at) => text.replace(new RegExp(`org \\d{4}\n${names[at]}`), `org ${place}\n${names[at]}`), written
            );
            await laboratory.new();
            await laboratory.load(source);
            await laboratory.addUp(10000);
            const number = (value) => inSigns(value, code);
            assert.deepEqual(
                [number(laboratory.profile.times), number(laboratory.profile.turns), laboratory.panel.accumulator],
                [times, turns, "00000006"],
                places
            );
        }
    }
});

test("the languages of a lesson have the same numbers in their questions and steps, and the same lines for the machine", () => {
    const written = (code) => LESSONS.map(({ name }) => name).filter((name) => !lackingIn(documents, code).includes(name));
    const numbersOf = (text) => (text.match(/\d[\d.,\u202f]*\d|\d/g) ?? []).map((number) => number.replace(/[.,\u202f]/g, "")).sort();
    for (const code of Object.keys(LANGUAGES)) {
        for (const name of written(code)) {
            const questionsIn = (language) => readFileSync(documentOf(documents, name, language), "utf8")
                .split("\n")
                .filter((line) => /^\*\*(Question|Frage)/.test(line))
                .map(numbersOf);
            const stepsIn = (language) => (
                lessons[language][name].steps.map(({ text, hint, lines }) => [numbersOf(text), numbersOf(hint), lines])
            );
            assert.deepEqual(stepsIn(code), stepsIn("en"), `${name} in ${code}`);
            assert.deepEqual(questionsIn(code), questionsIn("en"), `${name} in ${code}`);
        }
    }
});

test("each row of a round of the listing is the account of its order, in each language", { skip }, async () => {
    const laboratory = new Controller(new ModuleLink(module));
    await laboratory.open();
    await laboratory.say(...lessons.en["reading-a-listing"].steps[4].lines, "go 0200", "break 0200");
    await laboratory.run();
    await laboratory.step(5);
    const accounts = laboratory.accounts.map(({ at, order, find, take, seek, act, sum }) => (
        `| ${[at, order, find, take, seek, act, sum].join(" | ")} |`
    ));
    for (const code of Object.keys(LANGUAGES).filter((it) => !lackingIn(documents, it).includes("reading-a-listing"))) {
        const document = readFileSync(documentOf(documents, "reading-a-listing", code), "utf8");
        assert.deepEqual(document.split("\n").filter((line) => /^\| 020\d \| . \d{4} \| \d/.test(line)), accounts, code);
    }
});

/** The numbers of a document's rows whose first cell is a number of four digits, with this many cells; empty ones are left out. */
const weatherIn = (document, cells) => document.split("\n")
    .filter((line) => /^\| \d{4} \|/.test(line))
    .map((line) => line.split("|").slice(1, -1))
    .filter((row) => row.length === cells).map((row) => row.filter((cell) => cell.trim() !== "").map(Number));

/** Ten times Z of the first run by its steps, as the machine prints it. */
async function firstRun() {
    const laboratory = new Controller(new ModuleLink(module));
    await laboratory.open();
    await laboratory.openForShow("weather/lorenz", readFileSync(join(top, "examples/weather/lorenz.txt"), "utf8"));
    await laboratory.say("press start", "run 290000");
    return new Map(
        laboratory.printed.text
            .split("\n")
            .map((line) => line.match(/-?\d{4}/g)?.map(Number))
            .filter((row) => row?.length === 4)
            .map(([step, , , z]) => [step, z])
    );
}

test("the weather on the sheet is what the machine prints, and so are its maxima and those after it, in each language", { skip }, async () => {
    const run = await firstRun();
    const maxima = [...run.keys()].filter((step) => (
        step >= 1000 && run.has(step + 5) && run.get(step) > run.get(step - 5) && run.get(step) >= run.get(step + 5)
    ));
    const [within, later] = [maxima.filter((step) => step <= 1725), maxima.filter((step) => step > 1725)];
    for (const code of Object.keys(LANGUAGES)) {
        const document = readFileSync(documentOf(documents, "what-can-a-forecast-know", code), "utf8");
        const grid = weatherIn(document, 11);
        assert.deepEqual(
            grid.flatMap(([first, ...numbers]) => numbers.map((z, place) => [first + 5 * place, z])),
            [...run].filter(([step]) => step >= 1000 && step <= 1725),
            code
        );
        assert.deepEqual(
            weatherIn(document, 3), within.slice(0, -1).map((step, place) => [step, run.get(step), run.get(within[place + 1])]), code
        );
        assert.deepEqual(
            /^ {4}((\d{3} ?)+)$/m.exec(document)[1].split(" ").map(Number), later.map((step) => run.get(step)).slice(0, 11), code
        );
    }
});

test("a row of weather was typed again where its four numbers were read, in their order, and the switch is up", () => {
    const typedAgain = stepsOf("what-can-a-forecast-know")[3];
    const printed = { text: "\n0995 -0061 -0052  0256\n1000 -0059 -0058  0240" };
    const isDone = (numbers, transfer = false, reply = "live 6 dead 0\n") => typedAgain.done({
        printed,
        panel: { down: { transfer } },
        talk: [...numbers.map((number) => ({ line: `type ${number} '`, reply })), { line: "press transfer up", reply: "live\n" }],
    });
    const row = ["1000", "-0059", "-0058", "0240"];
    assert.deepEqual(
        [
            isDone(row),
            isDone(["0995", ...row]),
            isDone(row, true),
            isDone(row, false, "live 0 dead 6\n"),
            isDone(row.slice(1)),
            isDone(["1000", "-0059", "-0058", "0241"]),
            isDone([]),
        ],
        [true, true, false, false, false, false, false]
    );
});

test("each lesson has a document in each language, with as many parts", () => {
    const partsIn = (name, code) => readFileSync(documentOf(documents, name, code), "utf8").match(/^## /gm).length;
    for (const code of Object.keys(LANGUAGES)) {
        assert.deepEqual(lackingIn(documents, code), [], `lessons without a document in ${code}`);
        for (const { name } of LESSONS) assert.equal(partsIn(name, code), partsIn(name, "en"), `${name} in ${code}`);
    }
});

/** A laboratory in which lines were done. */
async function after(...lines) {
    const laboratory = new Controller(new ModuleLink(module));
    await laboratory.open();
    await laboratory.say(...lines);
    return laboratory;
}

test("a place of one's own is in time on the six sectors before 08 alone, and is neither of the two that were shown", { skip }, async () => {
    const [search] = stepsOf("a-computer-on-a-drum").slice(12);
    for (const [place, isInTime] of [
        ["0043", true], ["0136", true], ["0022", true], ["0050", false], ["0015", false], ["0008", false], ["0057", false],
    ]) {
        const laboratory = await after(`put 0000 b ${place}`, "press start");
        await laboratory.step(1);
        await laboratory.step(1);
        assert.equal(search.done(laboratory), isInTime, place);
    }
});

test("each row of the rounds on paper is what the loop leaves, in each language", { skip }, async () => {
    const laboratory = await after(...lessons.en.rewriting.steps[5].lines);
    const rows = [];
    for (let round = 0; round < 4; round += 1) {
        rows.push([laboratory.words[1].order, String(signedOf(laboratory.words[7].digits))].join(" | "));
        await laboratory.step(7);
    }
    for (const code of Object.keys(LANGUAGES)) {
        const written = readFileSync(documentOf(documents, "rewriting", code), "utf8")
            .split("\n")
            .filter((line) => /^\| \D+ \| a \d{4} \| \d+ \|$/.test(line));
        assert.deepEqual(written.map((line) => line.split(" | ").slice(1).join(" | ").replace(/ \|$/, "")), rows, code);
    }
});
