// Exhibits that run a program, without a browser: the paper is what the example prints, as the files of examples/ have it; each caption
// comes about when its row is on the paper; and whatever is pressed, nothing breaks.
// TOUCHES says how many touches each exhibit gets.
import assert from "node:assert/strict";
import { existsSync, readFileSync, readdirSync } from "node:fs";
import { dirname, join } from "node:path";
import { test } from "node:test";
import { fileURLToPath } from "node:url";
import { exhibitsBelow, scriptsBelow } from "../documents.mjs";
import { WORD_TIME } from "../drive.mjs";
import { fastClocks, played, trialOf, waysTo } from "../exhibit_trial.mjs";
import { exhibitIn } from "../exhibits.mjs";
import { linesIn } from "../lines.mjs";
import { rowsOf } from "../pieces.mjs";
import { Choice, Running, picturesOf } from "../running.mjs";
import { chance } from "./exhibited.mjs";

const top = join(dirname(fileURLToPath(import.meta.url)), "../..");
const module = join(top, "libraries/javascript/lgp_c_region.wasm");
const skip = !existsSync(module);
const TOUCHES = Number(process.env.TOUCHES ?? 150);
/** After how many touches a visitor waits a while: whoever touches often does not wait each time. */
const HURRY = Math.max(1, Math.round(TOUCHES / 400));
const examples = new Map(scriptsBelow(join(top, "examples")));
const exhibits = exhibitsBelow(join(top, "page/exhibits"), join(top, "examples"));
/** Those that a museum would have, and all. */
const museums = Object.fromEntries(
    readdirSync(join(top, "docs/exhibits")).map((file) => [
        file.replace(/\.json$/, ""),
        exhibitIn(readFileSync(join(top, "docs/exhibits", file), "utf8"), (name) => examples.has(name)).exhibit,
    ])
);
const all = { ...exhibits, ...museums };
const settings = { module, scriptOf: (name) => examples.get(name), chance: () => 7 };

/** What the last `printed` of an example's expected replies says, as text: a carriage return is a new line. */
function expectedOf(name, which = -1) {
    const line = linesIn(readFileSync(join(top, `examples/${name}.expected`), "utf8")).filter((it) => /^printed \d/.test(it)).at(which);
    return line.replace(/^printed \d+ /, "").replaceAll("[16]", "\n");
}

/** Whether what a caption speaks of is so: its row is on the paper, the machine stands where it says, or does as it says. */
function holds({ row, place, order, when }, { laboratory, running }) {
    const { panel, labels, way } = laboratory;
    if (row !== undefined) return running.paper.text.split("\n").some((line) => line.trimStart().startsWith(row));
    if (place !== undefined) return panel.counter === place || (labels.get(panel.counter) ?? []).includes(place);
    if (order !== undefined) return running.bits !== null || (laboratory.lastTold?.order ?? "").startsWith(order);
    return { keys: way.kind === "keys", stop: ["start", "mode"].includes(way.kind), torn: running.isTorn, done: true }[when] ?? true;
}

/**
 * Compares each caption, when it comes about, with what it speaks of. Gives those that have come, and those of them of which that is not
 * so.
 */
function comparedCaptions(trial) {
    const [come, wrong] = [new Set(), []];
    const look = () => {
        for (const caption of trial.running.come) {
            if (come.has(caption)) continue;
            come.add(caption);
            if (!holds(caption, trial)) wrong.push(`${trial.running.scene}: ${JSON.stringify(caption)}`);
        }
    };
    for (const it of [trial.laboratory, trial.running]) it.addEventListener("change", look);
    return { come, wrong };
}

/**
 * An exhibit after presses, each done to its end, and all that it has told, each with the paper at that moment. Each caption has come about
 * when what it speaks of was so.
 */
async function after(name, ...presses) {
    const trial = await trialOf(all[name], settings);
    const [told, { come, wrong }] = [[], comparedCaptions(trial)];
    trial.running.addEventListener("change", () => {
        const { running: { told: caption }, laboratory } = trial;
        if (caption !== null && told.at(-1)?.caption !== caption) {
            told.push({ caption, paper: laboratory.printed.text, torn: trial.running.paper.text });
        }
    });
    for (const number of presses) await trial.running.press(number);
    // what has come about is told one after another
    for (let left = 600; left > 0; left -= 1) await trial.clocks.sleep(100);
    assert.deepEqual(wrong, []);
    return { ...trial, told, come };
}

/** Each caption that waits for a row was told when the row was on the paper. */
function assertRows(told, count) {
    const ofRows = told.filter(({ caption }) => caption.row !== undefined);
    for (const { caption, torn } of ofRows) {
        assert.ok(torn.split("\n").some((line) => line.trimStart().startsWith(caption.row)), caption.row);
    }
    assert.equal(ofRows.length, count);
}

test("the weather: the paper is what the example prints, row by row, and each caption comes at its row", { skip }, async () => {
    const { laboratory, running, told } = await after("weather", 1);
    assert.ok(expectedOf("weather/lorenz").startsWith(laboratory.printed.text.slice(0, laboratory.printed.text.lastIndexOf("\n"))));
    assert.match(laboratory.printed.text, /\n1720 /);
    assertRows(told, 4);
    assert.deepEqual([running.told.when, running.isBusy, running.labels.length], ["done", false, 4]);
    // a row takes the nine seconds that the first scene speaks of
    assert.equal(Math.round((running.clocks.machine * WORD_TIME) / 1000 / rowsOf(laboratory.printed.text, []).length), 9);
});

test("row 1000 typed again, as it is printed: both runs are those of the example, the first one torn off, and what was typed stands between them", { skip }, async () => {
    const { laboratory, running, told } = await after("weather", 2);
    assert.equal(laboratory.printed.text, expectedOf("weather/lorenz"));
    const [piece] = running.pieces.all.pieces;
    assert.deepEqual(
        [rowsOf(piece.text, []).at(-1).text.slice(0, 4), rowsOf(running.paper.text, running.paper.typed)[0]],
        ["1725", { text: "1000  -0059  -0058  0240", isTyped: true, returns: 0 }]
    );
    assert.equal(`${piece.text}${running.paper.text}`, laboratory.printed.text);
    assertRows(told, 4);
    // the captions say at which rows a number is five, twenty and more than a hundred units off for the first time
    const numbersOf = (text) => (
        new Map(rowsOf(text, []).map((row) => row.text.match(/-?\d+/g)?.map(Number) ?? []).map(([first, ...numbers]) => [first, numbers]))
    );
    const [before, again] = [piece.text, running.paper.text].map(numbersOf);
    const firstOff = (least) => (
        [...again].find(([row, numbers]) => numbers.some((number, at) => Math.abs(number - before.get(row)?.[at]) >= least))[0]
    );
    assert.deepEqual([5, 20, 101].map(firstOff), [1275, 1480, 1635]);
    // what was passed over is known by the machine's clock, and what was not is at a pace
    assert.ok(running.passedOver > 11_000_000 && running.clocks.machine > running.passedOver, `${running.passedOver}`);
});

test("two runs drawn: the paper is what the example prints, and after each answer the machine stays as it is", { skip }, async () => {
    const { laboratory, running, told } = await after("weather", 3);
    const [all, drawn] = [expectedOf("weather/twins"), laboratory.printed.text];
    assert.ok(all.startsWith(drawn.slice(0, drawn.lastIndexOf("\n"))));
    assertRows(told, 2);
    const parted = linesIn(drawn).find((line) => Math.abs(line.indexOf("a", 4) - line.indexOf("b", 4)) >= 3);
    assert.equal(parted.slice(0, 4), "1620");
    for (const answer of [1, 2, 3]) {
        await running.enter("drawn");
        await running.press(answer);
        assert.deepEqual([running.scene, running.bet, running.told.bet], ["believed", answer, answer]);
    }
});

test("the loop: the bet is open for two rounds, the carry is a sum of the machine, bit by bit, and the end says what was bet on", { skip }, async () => {
    const trial = await after("loop", 1);
    assert.deepEqual([trial.running.scene, trial.running.told.when, trial.running.main], ["rounds", "done", null]);
    assert.deepEqual(
        linesIn(trial.laboratory.answers[1]).map((line) => line.slice(0, 4)), ["0038", "0039", "0040", "0041", "0042", "0043", "0044"]
    );
    await trial.running.press(2);
    const { before, after: sum, pictures } = trial.running.bits;
    assert.deepEqual([before, sum, pictures.length, trial.running.bits.seen], ["0009wwwj", "000f0000", 16, 16]);
    while (trial.running.scene !== "end" || trial.running.isBusy) await trial.clocks.sleep(100);
    assert.deepEqual([trial.laboratory.printed.text, trial.running.told.bet], [expectedOf("drum/loop-without-a-test", 0), 2]);
});

test("the pictures of a sum: each has the places of the sum up to its own, and the others as before", () => {
    const values = picturesOf("0009wwwj", "000f0000").map(({ value }) => value.toString(16));
    assert.deepEqual([values[0], values[1], values.at(-3), values.at(-2), values.at(-1)], ["9fff8", "9fff0", "90000", "80000", "a0000"]);
    assert.deepEqual(picturesOf("00000004", "00000008").map(({ at }) => at), [2, 3]);
    assert.deepEqual(picturesOf("00000004", "00000004"), []);
});

test("a bit of the carry back and on, and all at once: it stands still for the visitor", { skip }, async () => {
    const trial = await after("loop", 1);
    const carried = trial.running.press(1);
    while (trial.running.bits === null) await trial.clocks.sleep(100);
    await trial.running.press(2);
    const { seen } = trial.running.bits;
    for (let left = 30; left > 0; left -= 1) await trial.clocks.sleep(500);
    assert.equal(trial.running.bits.seen, seen);
    await trial.running.press(1);
    assert.equal(trial.running.bits.seen, seen - 1);
    await trial.running.press(3);
    assert.equal(trial.running.scene, "end");
    await carried;
});

test("a formula: from tape and by the keys the paper is what the example prints, and the orders made are those of its listing", { skip }, async () => {
    const tape = await after("formula", 1);
    assert.equal(tape.laboratory.printed.text, expectedOf("floating-point/formulas", 0));
    const listed = linesIn(readFileSync(join(top, "examples/floating-point/formulas.expected"), "utf8")).filter(
        (line) => /^40\d\d [a-z] /.test(line)
    );
    assert.deepEqual(linesIn(tape.laboratory.answers[0]), listed);
    const third = await after("formula", 2);
    assert.equal(third.laboratory.printed.text, expectedOf("floating-point/formulas", 1).split("\n").slice(1).join("\n"));
    // 22 / 7 by the buttons
    const own = await after("formula", 3, 2, 2, 1, 3);
    assert.match(own.laboratory.printed.text, /^ 3\.14285[6-8]e\+00\n$/);
    assert.deepEqual([own.running.scene, own.laboratory.history.typed.map(({ keys }) => keys).join("")], ["made", "22'/'7';'''"]);
});

test("twenty-one: shuffled by 1956 the games are those of the example, and who has won is told", { skip }, async () => {
    const { laboratory, running, told } = await after("twenty-one", 1, 2, 1, 1, 2);
    assert.ok(expectedOf("games/twenty-one").startsWith(laboratory.printed.text), laboratory.printed.text);
    assert.deepEqual(told.map(({ caption }) => caption.row).filter((row) => row !== undefined), ["too many; i win", "you win"]);
    assert.equal(laboratory.way.kind, "keys");
    await running.press(3);
    await running.press(1);
    assert.equal(laboratory.history.typed.map(({ keys }) => keys).at(-1), "7777'");
});

test("the primes: the sieve stands at each number that a caption speaks of, the row is what the example prints, and the bet is told", { skip }, async () => {
    const { laboratory, running, told } = await after("primes", 1);
    assert.deepEqual([running.scene, running.told.when, laboratory.labels.get(laboratory.panel.counter)], ["sieve", "done", ["prime"]]);
    assert.deepEqual(
        told.flatMap(({ caption: { place, times = 1 } }) => (place === undefined ? [] : [[place, times]])),
        [["prime", 1], ["off", 1], ["prime", 2]]
    );
    assert.equal(laboratory.printed.text, "2 ");
    await running.press(2);
    while (running.isBusy || running.told.bet === undefined) await laboratory.settled();
    assert.equal(laboratory.printed.text, expectedOf("tables/primes", 1));
    assert.deepEqual([laboratory.printed.text.split(" ").filter((it) => it.trim() !== "").length, running.told.bet], [25, 2]);
});

test("a greeting: a switch decides what is typed, and the caption says which", { skip }, async () => {
    const { laboratory, running, told } = await after("greeting", 1, 1, 2);
    assert.deepEqual([laboratory.printed.text.trim().split("\n").slice(-2), running.scene], [["good day", "good night"], "switch"]);
    assertRows(told, 2);
});

test("a second press while the machine prints brings it to its end, and does no more", { skip }, async () => {
    const { running, laboratory, clocks } = await after("twenty-one", 1, 2);
    const [first, second] = [running.press(1), running.press(1)];
    await Promise.all([first, second]);
    assert.equal(laboratory.printed.text, "\n/\nyou 6 t /16 4 /20");
    assert.ok(clocks.now() > 0);
});

test("Stop halts a run where it is, and pressed again lets it go on", { skip }, async () => {
    const trial = await trialOf(exhibits.weather, settings);
    trial.running.press(1);
    while (!trial.laboratory.printed.text.includes("0100")) await trial.clocks.sleep(100);
    await trial.running.press(1);
    await trial.laboratory.settled();
    const { clock } = trial.laboratory.panel;
    assert.equal(trial.running.labels[0], "goOn");
    for (let left = 50; left > 0; left -= 1) await trial.clocks.sleep(100);
    assert.equal(trial.laboratory.panel.clock, clock);
    await trial.running.press(1);
    while (!trial.laboratory.printed.text.includes("0150")) await trial.clocks.sleep(100);
    trial.running.leave();
});

test("all scenes of each exhibit are reached and played, and none leads to a refusal", { skip }, async () => {
    for (const [name, exhibit] of Object.entries(all)) {
        const { wrong, remarks, scenes } = await played(exhibit, settings);
        assert.deepEqual([wrong, scenes, waysTo(exhibit).size], [[], Object.keys(exhibit.scenes).length, scenes], name);
        assert.deepEqual(remarks.filter((it) => !it.startsWith("scenes.play.")), [], name);
    }
});

test("what a machine refuses, a source with a fault and a place that is no label are told", { skip }, async () => {
    const text = { en: "x", de: "x" };
    const exhibitOf = (program, actions, captions = [{ text }]) => exhibitIn(
        JSON.stringify({ title: text, scenes: { attract: { program, do: actions, captions, buttons: [{ text, to: "attract" }] } } }),
        () => true
    ).exhibit;
    const source = ["start p =h", " z 0000", " end start"];
    const wrongOf = async (...given) => (await played(exhibitOf(...given), settings)).wrong;
    assert.deepEqual(await wrongOf(source, [{ press: "start" }, { run: "fast" }]), []);
    assert.match((await wrongOf(["start q 0000", " end start"], []))[0], /^scenes\.attract: the source has a fault: .*UnknownOrder/);
    assert.match(
        (await wrongOf(source, [{ press: "start" }, { run: "fast", to: { place: "begin" } }]))[0],
        /^scenes\.attract: "begin" is not a label of its program\. The labels are start\.$/
    );
    const { remarks } = await played(
        exhibitOf(source, [{ press: "start" }, { run: "fast" }], [{ text }, { text, row: "good" }, { text, row: "h" }]), settings
    );
    assert.deepEqual(remarks, ["scenes.attract.captions[1] did not come about here."]);
});

test("the screen of choice: three exhibits and more on each page, the first scenes one after another, and a touch opens what is seen", { skip }, async () => {
    const { laboratory, drive, running, clocks } = await trialOf(exhibits.weather, settings);
    running.leave();
    const opened = [];
    const choice = new Choice(
        laboratory,
        drive,
        {
            files: new Map(Object.entries(exhibits)),
            others: [{ name: "language", label: "kioskLanguage" }],
            open: (name) => opened.push(name),
        },
        { ...settings, ...clocks }
    );
    const titles = Object.values(exhibits).map(({ title }) => title);
    assert.deepEqual(choice.labels, [...titles.slice(0, 3), "kioskMore"]);
    choice.press(2);
    choice.press(4);
    assert.deepEqual(choice.labels, [titles[3], "kioskLanguage", null, "kioskMore"]);
    for (const number of [3, 2, 1, 4, 1]) choice.press(number);
    choice.takeOver();
    assert.deepEqual(opened, ["loop", "language", "formula", "weather", "weather"]);
    await choice.attract();
    while (choice.exhibit !== exhibits["twenty-one"]) await clocks.sleep(1000);
    choice.takeOver();
    assert.deepEqual([opened.at(-1), choice.isAttract, choice.main, choice.beside], ["twenty-one", true, null, null]);
    choice.leave();
});

for (const name of Object.keys(exhibits)) {
    test(`${name}: whatever is pressed, it is in one of its scenes with four buttons, and comes back to its beginning`, { skip }, async () => {
        const { running, laboratory, clocks } = await trialOf(exhibits[name], settings);
        const [among, seen] = [chance(TOUCHES), new Set()];
        await running.attract();
        for (let touch = 0; touch < TOUCHES; touch += 1) {
            const what = among(30);
            if (what === 0) running.takeOver();
            else running.press(1 + (what % 4 === 3 && among(4) > 0 ? among(3) : what % 4));
            if (touch % HURRY === 0) for (let pause = among(12); pause > 0; pause -= 1) await clocks.sleep(100);
            seen.add(running.scene);
            assert.deepEqual([running.scene in exhibits[name].scenes, running.labels.length, laboratory.notice], [true, 4, null]);
        }
        await running.attract();
        assert.deepEqual([running.isAttract, laboratory.printed.text, seen.size > 2], [true, "", true]);
        running.leave();
        await laboratory.settled();
    });
}

test("what stands beside the paper is never read from what another exhibit has asked", { skip }, async () => {
    const { laboratory, drive, running } = await after("formula", 1);
    running.leave();
    const other = new Running(laboratory, drive, exhibits.loop, { ...settings, isStill: () => false, ...fastClocks() });
    const seen = [];
    laboratory.addEventListener("change", () => { if (other.beside?.bits !== undefined) seen.push(...laboratory.answers); });
    await other.press(1);
    assert.deepEqual([seen.filter((answer) => !/^(\d{4} [0-9fgjkqw]{8}\n)+$/.test(answer)), seen.length > 0], [[], true]);
    other.leave();
});

test("a new exhibit of the same machine begins with its own paper", { skip }, async () => {
    const { laboratory, drive, running } = await after("twenty-one", 1);
    running.leave();
    const other = new Running(laboratory, drive, exhibits.loop, { ...settings, isStill: () => false, ...fastClocks() });
    await other.press(1);
    assert.deepEqual([laboratory.printed.text, other.pieces.all.pieces], ["", []]);
    other.leave();
});
