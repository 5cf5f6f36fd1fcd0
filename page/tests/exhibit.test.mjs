// Visitors at the kiosk, without a browser: they press at random, walk away and come back, and the paper is always a beginning of what its
// program prints. No time passes but that of the test's own clock.
// TOUCHES says how many touches each example gets; the one that the kiosk shows and the game get 1,000 at least. PART says which examples
// are visited.
import assert from "node:assert/strict";
import { test } from "node:test";
import { KIOSK } from "../exhibit.mjs";
import { KIOSK_GAMES } from "../views/kiosk_game.mjs";
import { chance, checkOf, examples, examplesOfPart, exhibited, printedBy, skip, tick } from "./exhibited.mjs";

const TOUCHES = Number(process.env.TOUCHES ?? 40);
/** The buttons as visitors press them: the second one, with which a story goes on, more often than the others. */
const PRESSED = [1, 1, 2, 2, 2, 2, 2, 2, 2, 3, 3, 4];
const STATES = ["attract", "story", "show", "end", "matches"];

/**
 * Visitors touch so often, buttons and what lies beside them; each time that the machine has changed the paper is looked at: it is the one
 * of the program that is open. Now and then nobody is there, and it begins anew.
 */
async function visited(name, touches) {
    const [{ laboratory, exhibit, drive }, among] = [await exhibited(name), chance(touches)];
    const checks = new Map(await Promise.all([exhibit.name, KIOSK.game].map(async (it) => [it, await checkOf(it)])));
    const [wrong, seen] = [[], new Set()];
    laboratory.addEventListener("change", () => {
        if (!checks.get(laboratory.script.name)(laboratory.printed.text)) wrong.push(laboratory.printed.text);
    });
    await exhibit.attract();
    for (let touch = 0; touch < touches && wrong.length === 0; touch += 1) {
        const what = among(40);
        if (what === 0) await exhibit.attract();
        else if (what === 1) exhibit.takeOver();
        else exhibit.press(PRESSED[among(PRESSED.length)]);
        for (let pause = among(4); pause > 0; pause -= 1) await tick();
        if (among(10) === 0) await laboratory.settled();
        seen.add(exhibit.state);
    }
    assert.deepEqual([wrong, [...seen].filter((state) => !STATES.includes(state)), exhibit.labels.length], [[], [], 4], name);
    await exhibit.attract();
    assert.deepEqual([laboratory.printed.count, laboratory.history.behind <= 1, exhibit.isAttract], [0, true, true], name);
    exhibit.end();
    drive.halt();
    await laboratory.settled();
    return seen;
}

const isLong = (name) => name === KIOSK.example || KIOSK_GAMES.has(name);

for (const name of examplesOfPart) {
    test(`${name}: whatever is pressed at the kiosk, the paper is a beginning of the right text`, { skip }, async () => {
        const seen = await visited(name, isLong(name) ? Math.max(TOUCHES, 1000) : TOUCHES);
        if (name === KIOSK.example) assert.deepEqual([...seen].sort(), [...STATES].sort());
    });
}

/** Waits until the exhibit is in a state and its machine rests. */
async function restsIn({ exhibit, laboratory, drive }, state) {
    while (exhibit.state !== state || drive.pace !== null) await tick();
    await laboratory.settled();
}

test("a story goes order by order: Next plays one, Back takes it back, Once more plays it again; after eight orders it goes to the end, which asks, and from there on", { skip }, async () => {
    const all = await exhibited("message");
    const { laboratory, exhibit } = all;
    const where = () => [exhibit.state, exhibit.at, laboratory.history.behind];
    await exhibit.attract();
    assert.deepEqual(exhibit.labels, ["kioskBegin", null, "kioskMatches", "kioskLanguage"]);
    await exhibit.press(1);
    assert.deepEqual([where(), exhibit.labels], [["story", 1, 1], ["captionBack", "captionNext", "kioskOnceMore", "kioskToStart"]]);
    for (const [number, at] of [[2, 2], [3, 2], [1, 1], [1, 0], [1, 0], [3, 1], [2, 2], [2, 3], [2, 4], [2, 5], [2, 6], [2, 7], [2, 8]]) {
        await exhibit.press(number);
        assert.deepEqual(where(), ["story", at, at], `after ${number}`);
    }
    assert.equal(exhibit.labels[1], "kioskToEnd");
    await exhibit.press(2);
    assert.deepEqual([exhibit.state, exhibit.labels], ["show", ["kioskOnceMore", "kioskToEnd", "kioskMatches", "kioskToStart"]]);
    await restsIn(all, "end");
    const { text } = await printedBy("message");
    assert.deepEqual([laboratory.printed.text, exhibit.labels], [text, ["kioskOnceMore", null, "kioskMatches", "kioskLanguage"]]);
    await exhibit.press(1);
    assert.deepEqual([where(), laboratory.printed.text], [["story", 1, 1], ""]);
    await exhibit.press(4);
    assert.equal(exhibit.state, "attract");
    exhibit.end();
});

test("a press in the show goes to the end at once, and a story shorter than eight orders ends where its program does", { skip }, async () => {
    const all = await exhibited("message");
    await all.exhibit.attract();
    for (let pressed = 0; pressed < 9; pressed += 1) await all.exhibit.press(pressed === 0 ? 1 : 2);
    await all.exhibit.press(2);
    await restsIn(all, "end");
    assert.equal(all.laboratory.printed.text, (await printedBy("message")).text);
    all.exhibit.end();
    const short = await exhibited("first-run");
    await short.exhibit.attract();
    await short.exhibit.press(1);
    for (let pressed = 0; pressed < 5 && short.exhibit.state === "story"; pressed += 1) await short.exhibit.press(2);
    assert.equal(short.exhibit.state, "end");
    short.exhibit.end();
});

test("the game is one press away, from the beginning and from the end; the address chooses what is offered; and a game as the example is offered alone", { skip }, async () => {
    const all = await exhibited("message");
    await all.exhibit.attract();
    await all.exhibit.press(3);
    await restsIn(all, "matches");
    assert.deepEqual(
        [all.laboratory.way.kind, all.exhibit.labels, all.laboratory.script.name],
        ["keys", ["kioskTake1", "kioskTake2", "kioskTake3", "kioskToStart"], KIOSK.game]
    );
    await all.exhibit.press(4);
    assert.deepEqual([all.exhibit.state, all.laboratory.script.name], ["attract", "message"]);
    all.exhibit.end();
    const labels = async (name, more) => {
        const { exhibit } = await exhibited(name, true, more);
        return exhibit.labels;
    };
    assert.deepEqual(await labels("message", { offers: ["story"] }), ["kioskBegin", null, null, "kioskLanguage"]);
    assert.deepEqual(await labels("message", { offers: ["nonesuch"] }), ["kioskBegin", null, "kioskMatches", "kioskLanguage"]);
    assert.deepEqual(await labels(KIOSK.game, {}), [null, null, "kioskMatches", "kioskLanguage"]);
    const pressed = [];
    const views = {
        faster: {
            labels: ["one", "two", "three", "four"],
            open: () => pressed.push("open"),
            press: (number) => { pressed.push(number); return number < 4; },
        },
    };
    const { exhibit } = await exhibited("message", true, { views });
    assert.equal(exhibit.labels[1], "kioskFaster");
    for (const number of [2, 1, 3, 4]) await exhibit.press(number);
    assert.deepEqual([pressed, exhibit.state], [["open", 1, 3, 4], "attract"]);
    exhibit.end();
});

test("a program that waits for keys ends its story there", { skip }, async () => {
    const all = await exhibited("input-and-output/decimal-input");
    await all.exhibit.attract();
    for (let pressed = 0; pressed < 10; pressed += 1) await all.exhibit.press(pressed === 0 ? 1 : 2);
    await all.exhibit.press(2);
    await restsIn(all, "end");
    assert.equal(all.laboratory.way.kind, "keys");
    all.exhibit.end();
});

test("a touch begins the story, and an example that is not there is told", { skip }, async () => {
    const { laboratory, exhibit } = await exhibited("nonesuch");
    await exhibit.attract();
    assert.deepEqual([exhibit.name, laboratory.notice.kind, laboratory.notice.detail], [KIOSK.example, "noKioskExample", "nonesuch"]);
    exhibit.takeOver();
    assert.equal(exhibit.state, "story");
    exhibit.end();
});

test("where nothing may move captions follow one another, the machine stands, and Next shows an order's end", { skip }, async () => {
    const { laboratory, exhibit } = await exhibited("message", true);
    await exhibit.attract();
    while (exhibit.captions < 5) await tick();
    assert.equal(laboratory.panel.status, "halted operator");
    await exhibit.press(1);
    await exhibit.press(2);
    assert.deepEqual([exhibit.at, laboratory.history.behind], [2, 2]);
    exhibit.end();
});

/**
 * The longest time without a print of an exhibit that plays by itself, in seconds, within a number of minutes, and whether its paper was
 * ever that of another program, or of what was played before, while it told that it is open.
 */
async function leftAlone(name, minutes) {
    const { laboratory, exhibit, time } = await exhibited(name);
    const isRight = await checkOf(name);
    let [longest, last, count, wrong] = [0, 0, 0, 0];
    const look = () => {
        if (exhibit.isOpening) return;
        if (!isRight(laboratory.printed.text)) wrong += 1;
        if (laboratory.printed.count !== count) [count, last] = [laboratory.printed.count, time.now];
        longest = Math.max(longest, time.now - last);
    };
    laboratory.addEventListener("change", look);
    exhibit.addEventListener("change", look);
    await exhibit.attract();
    while (time.now < 60_000 * minutes) await tick();
    exhibit.end();
    return { longest: Math.round(longest / 1000), wrong };
}

test("left alone something is printed each twenty seconds where the program prints at all, whatever it does in between; one that prints nothing is not passed over", { skip }, async () => {
    for (const name of ["message", "tables/primes", "weather/lorenz", "arithmetic/sine"]) {
        const { longest, wrong } = await leftAlone(name, 10);
        assert.ok(longest <= 20, `${name}: ${longest} s without a print`);
        assert.equal(wrong, 0, name);
    }
    const all = await exhibited("self-modifying");
    await all.exhibit.attract();
    assert.equal(all.drive.isSkipping, false);
    all.exhibit.end();
});

test("at the kiosk an order that has rewritten another one stands until its caption is read, and is then the order under way", { skip }, async () => {
    const { laboratory, exhibit, drive, time } = await exhibited("message");
    const stood = [];
    drive.addEventListener("play", () => { if (drive.isTelling) stood.push("a later order"); });
    const before = time.now;
    await exhibit.attract();
    while (time.now - before < 120_000) {
        if (drive.isTelling) stood.push(laboratory.lastTold.order[0]);
        await tick();
    }
    exhibit.end();
    assert.deepEqual([...new Set(stood)], ["y"]);
});
