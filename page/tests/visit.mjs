// Visits the page: node visit.mjs laboratory.html [FOLDER FOR PICTURES]. Ends with 1 where something is not as it should be. The variable
// ENGINE names the engine (chromium, firefox or webkit), and VISITS the visits, or `all`. Where it names none, Chromium makes all visits,
// and the
// others those of main_visits.mjs.
//
// The page is opened from disk. A visitor of a museum sees the kiosk print; a class does what the first lesson says, and compares the
// numbers of its tables with what the page shows; pupils do each lesson step by step, and solve tasks, and a visitor plays a game at the
// kiosk
// (visits_lessons.mjs, visits_tasks.mjs, visits_game.mjs); a source with a fault is mended; a long run is measured; a browser that lacks
// something is told; people who cannot see all, or have no mouse, reach all. After each visit the script that Save gives is run, and has to
// end
// where the visit did: by the module, and by the program that LAB names where it names one.
import assert from "node:assert/strict";
import { spawnSync } from "node:child_process";
import { mkdtempSync, readFileSync, rmSync, writeFileSync } from "node:fs";
import { tmpdir } from "node:os";
import { dirname, join, resolve } from "node:path";
import { fileURLToPath, pathToFileURL } from "node:url";
import { WORD_TIME } from "../drive.mjs";
import { withoutQuestions } from "../lines.mjs";
import { bitsOf } from "../../libraries/javascript/replies.mjs";
import { packedModule, packedText } from "../packed.mjs";
import { unpackedText } from "../unpacked.mjs";
import { disorder, faint, losesFocus, nameless, noteMouse, unreached } from "./access.mjs";
import { Chromium } from "./chromium.mjs";
import { Firefox } from "./firefox.mjs";
import { wantedVisits } from "./main_visits.mjs";
import { withoutReasons } from "./replies.mjs";
import { drawnAt, hiddenTexts, unhit } from "./seen.mjs";
import { visitsOfDay } from "./visits_day.mjs";
import { visitsOfEditor } from "./visits_editor.mjs";
import { visitsOfExamples } from "./visits_examples.mjs";
import { visitsOfExhibits } from "./visits_exhibits.mjs";
import { visitsOfGames } from "./visits_game.mjs";
import { visitsOfHand } from "./visits_hand.mjs";
import { visitsOfKiosk } from "./visits_kiosk.mjs";
import { lessonVisits } from "./visits_lessons.mjs";
import { visitsOfLook } from "./visits_look.mjs";
import { visitsOfOrder } from "./visits_order.mjs";
import { visitsOfPaper } from "./visits_paper.mjs";
import { visitsOfPeople } from "./visits_people.mjs";
import { visitsOfPoints } from "./visits_points.mjs";
import { visitsOfRows } from "./visits_rows.mjs";
import { visitsOfScenes } from "./visits_scenes.mjs";
import { visitsOfStorage } from "./visits_storage.mjs";
import { visitsOfSending } from "./visits_sending.mjs";
import { visitsOfSure } from "./visits_sure.mjs";
import { visitsOfTasks } from "./visits_tasks.mjs";
import { visitsOfProjector } from "./visits_projector.mjs";
import { visitsOfTimeline } from "./visits_timeline.mjs";
import { visitsOfWishes } from "./visits_wishes.mjs";
import { visitsOfWorkbench } from "./visits_workbench.mjs";
import { WebKit } from "./webkit.mjs";

const [file, pictures] = process.argv.slice(2);
const address = pathToFileURL(resolve(file)).href;
const top = join(dirname(fileURLToPath(import.meta.url)), "../..");
const hour = readFileSync(join(top, "teaching/lessons/a-computer-on-a-drum.md"), "utf8");
/** The engines, each with what is said to it so that it has no WebAssembly, and the visits that take too long in it. */
const ENGINES = {
    chromium: { Engine: Chromium, without: ["--js-flags=--jitless"] },
    firefox: { Engine: Firefox, without: { "javascript.options.wasm": false } },
    webkit: { Engine: WebKit, without: { JSC_useWasm: "false" }, left: ["everyone", "usedUp"] },
};
const { Engine, without, left = [] } = ENGINES[process.env.ENGINE ?? "chromium"];
// only Chromium's speed is asked for
const LEAST_SPEED = Engine === Chromium ? Number(process.env.LEAST_SPEED ?? 10e6) : 0;
const given = (name, otherwise) => Number(process.env[name] ?? otherwise);
const [
    LEAST_PICTURES, LONGEST_TASK, LONGEST_STOP
] = Engine === Chromium ? [given("LEAST_PICTURES", 30), given("LONGEST_TASK", 50), given("LONGEST_STOP", 100)] : [0, Infinity, Infinity];
const LARGEST_DRIFT = given("LARGEST_DRIFT", 0.05);

const textOf = (browser, selector) => browser.value(`document.querySelector(${JSON.stringify(selector)})?.innerText ?? ""`);
const settled = (browser) => browser.value("laboratoryOfPage().settled()");
/** The commands that only ask, as the page has learnt them of the monitor. */
const questionsOf = async (browser) => new Set(await browser.value("[...laboratoryOfPage().questions]"));
const panelOf = (browser) => browser.value(
    "(({ counter, accumulator, status, clock }) => ({ counter, accumulator, status, clock: String(clock) }))(laboratoryOfPage().panel)"
);

async function press(browser, selector) {
    await browser.press(selector);
    await settled(browser);
}

async function halt(browser) {
    await browser.halt();
    await settled(browser);
}

/** A picture of the page as it is at this moment, while it moves, without the offer of what another visit has left. */
async function moment(browser, name) {
    if (pictures === undefined) return;
    await browser.value("document.querySelector('#kept').hidden = true");
    await browser.picture(join(pictures, `page-${name}.png`));
}

/** About has the notices of the repository, closed until they are wanted; the name of the document begins with that of the project. */
async function noticesSeen(browser) {
    const [isOpen, text, title] = await browser.value(
        "(({ open }, { textContent }) => [open, textContent, document.title])(document.querySelector('#notices-of-all'), document.querySelector('#notices-of-all pre'))"
    );
    assert.deepEqual([isOpen, title.split(":")[0]], [false, "Condugwa"]);
    // each paragraph of the notices is there, those that several of them have once
    const [shown, wanted] = [text, readFileSync(join(top, "NOTICES"), "utf8")].map((notices) => (
        notices.split("\n\n").map((paragraph) => paragraph.replaceAll(/\s+/g, " ").trim())
    ));
    assert.deepEqual(new Set(shown.filter((paragraph) => !paragraph.startsWith("(The notice goes on as that of "))), new Set(wanted));
    await browser.press("#notices-of-all summary");
}

/** Whether an order is played. */
const isMoving = "document.querySelector('.drum-box').dataset.moving === 'true'";

/** So many orders, each played to its end by the press of Stop. */
async function steps(browser, orders) {
    for (let order = 0; order < orders; order += 1) {
        await press(browser, "#step");
        await halt(browser);
    }
}

async function picture(browser, name) {
    if (pictures === undefined) return;
    await browser.waitFor("document.querySelector('.drum-box').dataset.moving === 'false' && document.getAnimations().length === 0");
    await moment(browser, name);
}

/** What of the kiosk lies outside of the window, or is a large button lower than 84 pixels. */
const outside = (browser) => browser.value(`[...document.querySelectorAll("#page *")].filter((it) => it.checkVisibility() && it.closest(".unseen, .well, .paper, .scope, .carriage g, .reader > *") === null).filter((it) => {
    const { left, top, right, bottom, height } = it.getBoundingClientRect();
    return left < -1 || top < -1 || right > innerWidth + 1 || bottom > innerHeight + 1 || (it.matches(".kiosk-bar button") && height < 84);
}).map((it) => it.tagName + "." + it.className)`);

/** What of the kiosk's name plate and of the names of its colours lies on the round of the drum. */
const onTheDrum = (browser) => browser.value(`(() => {
    const round = document.querySelector(".drum-box").getBoundingClientRect();
    const [x, y, radius] = [round.left + round.width / 2, round.top + round.height / 2, Math.min(round.width, round.height) / 2];
    return [...document.querySelectorAll(".cabinet .plate b, .cabinet > :last-child *")].filter((it) => it.checkVisibility()).filter((it) => {
        const { left, top, right, bottom } = it.getBoundingClientRect();
        const [nearX, nearY] = [Math.max(left, Math.min(x, right)), Math.max(top, Math.min(y, bottom))];
        return right > left && Math.hypot(nearX - x, nearY - y) < 0.86 * radius;
    }).map((it) => it.textContent);
})()`);

/**
 * The kiosk plays by itself, with captions, and fills its window. A visitor begins its story by a touch and goes on by its buttons to an
 * end that asks; left alone, it begins anew.
 */
async function kiosk(browser) {
    await browser.open(`${address}?kiosk=message&offers=story,matches&lang=en&idle=4`);
    await browser.waitFor(isMoving);
    assert.match(await textOf(browser, ".kiosk-told"), /^Everything it knows is on this drum/);
    await browser.waitFor(
        "/^y \\d{4} has just rewritten another order: [a-z] \\d{4} has become/.test(document.querySelector('.kiosk-told').textContent)"
    );
    assert.equal(
        await browser.value("document.querySelector('.kiosk-told code').textContent === document.querySelector('.hub-order').textContent"),
        true
    );
    const buttons = () => browser.value("[...document.querySelectorAll('.kiosk-bar button')].map((it) => it.textContent)");
    assert.deepEqual(await buttons(), ["Begin", "", "Take the last match", "Deutsch"]);
    for (const [width, height] of [[1920, 1080], [1024, 768], [768, 1024]]) {
        await browser.size(width, height);
        assert.deepEqual(
            [await outside(browser), await onTheDrum(browser), await browser.value("document.documentElement.scrollHeight <= innerHeight")],
            [[], [], true],
            `at ${width} by ${height}`
        );
    }
    await browser.size(1500, 1250);
    await kioskStory(browser, buttons);
    await browser.open(`${address}?kiosk=message&lang=en&idle=2`);
    await press(browser, "#kiosk-1");
    await browser.waitFor("document.body.dataset.state === 'story'");
    await browser.waitFor(`document.body.dataset.state === 'attract' && laboratoryOfPage().printed.count === 0 && ${isMoving}`);
    await browser.open(`${address}?lang=en&door=work`);
}

/** A story at the kiosk, begun by a touch: order by order, one back and on again, and to its end. */
async function kioskStory(browser, buttons) {
    await browser.open(`${address}?kiosk=message&offers=story,matches&lang=en`);
    await press(browser, ".kiosk-told");
    await browser.waitFor("document.body.dataset.state === 'story' && laboratoryOfPage().history.behind === 1");
    assert.deepEqual(await buttons(), ["Back", "Next", "Once more", "To the start"]);
    await browser.waitFor(
        "/^b 0011 .*brings the word at 0011 into the accumulator\\. The drum had to turn \\d+ places to the order and \\d+ to the word/.test(document.querySelector('.kiosk-told').textContent)"
    );
    for (let order = 2; order <= 8; order += 1) {
        await press(browser, "#kiosk-2");
        await browser.waitFor(`laboratoryOfPage().history.behind === ${order}`);
    }
    assert.equal((await buttons())[1], "To the end");
    await press(browser, "#kiosk-1");
    await browser.waitFor("laboratoryOfPage().history.behind === 7");
    await press(browser, "#kiosk-3");
    await browser.waitFor("laboratoryOfPage().history.behind === 7 && laboratoryOfPage().history.ahead === 1");
    await press(browser, "#kiosk-2");
    await browser.waitFor("laboratoryOfPage().history.behind === 8");
    await browser.size(1024, 768);
    await picture(browser, "kiosk");
    await browser.size(1500, 1250);
    for (let pressed = 0; pressed < 2; pressed += 1) await browser.press("#kiosk-2");
    await browser.waitFor("document.body.dataset.state === 'end' && laboratoryOfPage().panel.status === 'halted stop'");
    await settled(browser);
    assert.equal((await textOf(browser, ".paper")).trim(), "good day");
    await browser.waitFor(
        "/^It has printed “good day”\\. The machine performed 77 orders in 120\\.7 turns of its drum\\..* Could it be faster\\?/.test(document.querySelector('.kiosk-told').textContent)"
    );
    assert.deepEqual(await buttons(), ["Once more", "", "Take the last match", "Deutsch"]);
}

/**
 * What an address names and is not there is told, whatever its name; and so is that a program waits for keys, which the kiosk does not
 * have.
 */
async function addresses(browser) {
    for (const name of ["nonesuch", "constructor", "__proto__", "toString"]) {
        await browser.open(`${address}?lang=${name}#${name}`);
        assert.match(await textOf(browser, "#notice"), new RegExp(`names an unknown example: ${name}`));
        await browser.open(`${address}?lang=en&kiosk=${name}`);
        assert.match(await textOf(browser, "#notice"), new RegExp(`names an unknown example: ${name}. The kiosk shows message.`));
        assert.match(await textOf(browser, ".kiosk-told"), /^Everything it knows is on this drum/);
    }
    await toTheEnd(browser, "tables/primes");
    assert.match(await textOf(browser, ".paper"), /^2 3 5 7 [^]* 89 97/);
    assert.match(await textOf(browser, ".kiosk-told"), /^The program has ended/);
    await toTheEnd(browser, "input-and-output/decimal-input");
    assert.equal(await textOf(browser, "#notice"), "");
    assert.match(await textOf(browser, ".kiosk-told"), /waiting for its operator to press keys\. The kiosk has none/);
}

/** The story of an example at the kiosk, to its end. */
async function toTheEnd(browser, name) {
    await browser.open(`${address}?lang=en&kiosk=${name}`);
    await press(browser, "#kiosk-1");
    while (await browser.value("document.body.dataset.state !== 'end'")) await press(browser, "#kiosk-2");
    await browser.waitFor("document.body.dataset.state === 'end' && ['start', 'keys'].includes(laboratoryOfPage().way.kind)");
    await settled(browser);
}

/** Whether what has passed the head is drawn on the drum. */
const hasTrail = (browser) => browser.value(`(() => {
    const canvas = document.querySelector(".trail");
    return canvas.getContext("2d").getImageData(0, 0, canvas.width, canvas.height).data.some((part) => part > 0);
})()`);

/** What the page shows of a word is what the monitor says now: after a run, a put by hand, and an order that stores what is there. */
async function changes(browser) {
    await browser.open(`${address}?lang=en#self-modifying`);
    await steps(browser, 4);
    const row = () => textOf(browser, "tr[data-address='0009']");
    assert.match(await row(), /changed by y 0009 at 0005, clock 181/);
    assert.equal(
        await browser.value("document.querySelector('.arrow') !== null && document.querySelectorAll('.rows > *').length > 0"), true
    );
    assert.equal(await hasTrail(browser), true);
    await browser.value("laboratoryOfPage().run(12)");
    assert.equal(await hasTrail(browser), true);
    assert.match(await row(), /changed by y 0009 at 0013, clock (?!181)/);
    assert.deepEqual(
        await browser.value("['.accounts tbody tr:not(.below)', '.rows > *'].map((it) => document.querySelectorAll(it).length)"), [12, 0]
    );
    await browser.value("laboratoryOfPage().say('press manual', 'put 0009 a 0000')");
    assert.doesNotMatch(await row(), /changed/);
    await press(browser, "tr[data-address='0009'] button");
    assert.match(await textOf(browser, ".why"), /put there by hand/);
    await started(browser, "put 0000 b 0004", "put 0001 h 0005", "put 0002 h 0005", "put 0004 = 3");
    await browser.value("laboratoryOfPage().step(3)");
    assert.match(await textOf(browser, "tr[data-address='0005']"), /changed by h 0005 at 0001/);
}

/** Start here, a few steps, all the way back and forward again: nothing is lost. */
async function thereAndBack(browser) {
    await browser.open(`${address}?lang=en&door=work`);
    await started(browser, "put 0000 u 0000", "put 0100 b 0050", "put 0101 u 0100");
    await press(browser, "#step");
    await browser.value("document.querySelector('.listing form input').value = '0100'");
    await press(browser, ".listing form button:nth-of-type(2)");
    for (let order = 0; order < 3; order += 1) await press(browser, "#step");
    const before = await panelOf(browser);
    const slideTo = async (place) => {
        await browser.value(
            `(() => { const it = document.querySelector('.time input'); it.value = '${place}'; it.dispatchEvent(new Event('change')); })()`
        );
        await settled(browser);
        return textOf(browser, ".when output");
    };
    assert.equal(await slideTo(0), "order 0 of 5");
    assert.equal(await slideTo(2), "order 2 of 5");
    assert.equal(await slideTo(5), "order 5 of 5");
    assert.deepEqual(await panelOf(browser), before);
}

/** A source that is typed line by line is seen, takes no button's line, and ends by a button; then all can be saved. */
async function openSource(browser) {
    await browser.open(`${address}?lang=en&door=work`);
    await type(browser, "put 0050 = 3");
    const typed = async (line) => {
        await browser.value(
            `(() => { const form = document.querySelector('.lines form'); form.querySelector('input').value = ${JSON.stringify(line)}; form.requestSubmit(); })()`
        );
        await settled(browser);
    };
    for (const line of ["source", " b 0050"]) await typed(line);
    assert.match(await textOf(browser, "#open-source"), /A source is open; lines so far: 1/);
    for (const selector of ["#step", "#go-on", "#save", ".console button[data-name='start']", "#assemble", ".profile button"]) {
        await press(browser, selector);
        assert.match(await textOf(browser, "#notice"), /a source is open/, selector);
    }
    assert.equal(await browser.value("document.querySelector('dialog')"), null);
    await typed(" end 0000");
    await press(browser, "#open-source button");
    assert.deepEqual(
        await browser.value("[document.querySelector('#open-source').hidden, document.activeElement.closest('.lines') !== null]"),
        [true, true]
    );
    await browser.waitFor("/No fault: 1 words, starts at 0000/.test(document.querySelector('.source .told').textContent)");
    assert.equal(await browser.written(), " b 0050\n end 0000");
    await browser.press("#save");
    await browser.waitFor("document.querySelector('dialog')");
    assert.equal(await textOf(browser, ".transcript"), "put 0050 00000006\nsource\n b 0050\n end 0000\n.\n");
    await browser.press("dialog > button");
}

/**
 * The page says what to press: before a start, while the machine goes, where a mode or a key is wanted, and where a rule of an example has
 * stopped a run.
 */
async function whatToPress(browser) {
    await browser.open(`${address}?lang=en&door=work`);
    const way = () => textOf(browser, ".way");
    assert.match(await way(), /Press Start to run it/);
    await press(browser, "#step");
    assert.match(await textOf(browser, "#notice"), /No order was performed\. The machine is stopped\. Press Start/);
    await press(browser, ".console button[data-name='manual']");
    assert.match(await way(), /Press Normal, then Start/);
    await started(browser, "put 0000 i", "put 0001 h 0050");
    assert.match(await way(), /Step performs its next order, Go on/);
    await press(browser, ".console button[data-name='start']");
    assert.match(await textOf(browser, "#notice"), /Start does nothing now\. The machine is going: Step/);
    await press(browser, "#go-on");
    assert.match(await way(), /is waiting for its operator/);
    await browser.open(`${address}?lang=en#square-root`);
    assert.match(await way(), /Step performs its next order, Go on/);
    await press(browser, "#go-on");
    assert.match(await textOf(browser, "#notice"), /Rule 0 stopped the run: it stops when 0011 guess changes\. The script set it\./);
    await press(browser, "#notice button:nth-of-type(2)");
    assert.deepEqual(await browser.value("[laboratoryOfPage().rules.length, document.activeElement.id]"), [0, "go-on"]);
    await press(browser, "#go-on");
    assert.equal(await textOf(browser, "#notice"), "");
    assert.match((await panelOf(browser)).status, /halted/);
}

/**
 * Run halts where a program stops after a print. With the switch on it goes on to the end; in another language the switch is as it was, and
 * it is seen in the whole laboratory alone.
 */
async function operated(browser) {
    await browser.open(`${address}?lang=en&door=work`);
    await started(browser, "put 0000 p =h", "put 0001 z", "put 0002 p =i", "put 0003 z", "put 0004 p =h", "put 0005 z");
    const now = async () => [
        await textOf(browser, ".paper"),
        (await panelOf(browser)).counter,
        await browser.value("document.querySelector('#operated').checked"),
    ];
    await press(browser, "#go-on");
    assert.deepEqual(await now(), ["h", "0002", false]);
    await press(browser, "#operated");
    await press(browser, "#go-on");
    assert.deepEqual(await now(), ["hih", "0007", true]);
    assert.equal(await textOf(browser, "#notice"), "");
    await picture(browser, "operated");
    await browser.value(
        "(() => { const it = document.getElementById('language'); it.value = 'de'; it.dispatchEvent(new Event('change')); })()"
    );
    assert.match(await textOf(browser, ".operated"), /^ ?Schnell startet die Maschine nach jedem Drucken wieder/);
    assert.deepEqual([await seenOf(browser, "#operated"), await now()], [["#operated"], ["hih", "0007", true]]);
    await press(browser, "[data-door-to='learn']");
    assert.deepEqual(await seenOf(browser, "#operated"), []);
}

/** The rows of the first hour's table whose heading begins with these cells; an empty cell is not compared. */
function tableOf(...heading) {
    const lines = hour.split("\n");
    const begin = lines.findIndex((line) => line.startsWith(`| ${heading.join(" | ")} |`.replaceAll("|  |", "| |")));
    assert.ok(begin >= 0, heading.join(", "));
    const rows = lines.slice(begin + 2);
    return rows.slice(0, rows.findIndex((line) => !line.startsWith("|"))).map((line) => (
        line.split("|").slice(1, -1).map((cell) => cell.trim())
    ));
}

/** Types a line in the part for lines, as the first hour's class does. */
async function type(browser, line) {
    await browser.value(
        `(() => { const form = document.querySelector('.lines form'); form.querySelector('input').value = ${JSON.stringify(line)}; form.requestSubmit(); })()`
    );
    await settled(browser);
    assert.equal(await browser.value("laboratoryOfPage().talk.at(-1).reply"), "ok\n", line);
}

/** A new machine with these lines, started. */
async function started(browser, ...lines) {
    await press(browser, ".choices button");
    for (const line of lines) await type(browser, line);
    await press(browser, ".console button[data-name='start']");
}

/** The cells of the account at the top: clock, at, order, find, take, seek, act, sum. */
const told = (browser) => (
    browser.value("[...document.querySelector('.accounts tbody tr').cells].slice(0, 8).map((cell) => cell.textContent)")
);
const shownClock = (browser) => browser.value("document.querySelector('.panel dl dd:last-of-type').innerText.trim()");

/** A class that has never programmed does what the first lesson says, and compares its tables with the page. */
async function firstHour(browser) {
    await browser.open(`${address}?lang=en&door=work`);
    assert.deepEqual(await panelOf(browser), { counter: "0000", accumulator: "00000000", status: "halted operator", clock: "0" });
    await started(browser, "put 0000 b 0050", "put 0050 = 6");
    await press(browser, "#step");
    assert.deepEqual((await told(browser)).slice(3), tableOf("phase", "what happens").map((row) => row[2]));
    assert.match(await textOf(browser, ".panel"), /whole number 6,/);
    assert.deepEqual([(await panelOf(browser)).counter, await shownClock(browser)], ["0001", "67"]);
    await browser.value("scrollTo(0, 0)");
    await picture(browser, "first-order");
    await groups(browser);
    await household(browser);
    await ownProgram(browser);
}

/** Each group places the word elsewhere; and two orders, of which the second comes in time or has gone by. */
async function groups(browser) {
    for (const [place, seek, sum] of tableOf("the word lies at", "seek")) {
        await started(browser, `put 0000 b ${place}`, `put ${place} = 6`);
        await press(browser, "#step");
        assert.deepEqual((await told(browser)).slice(5), [seek, "1", sum], place);
    }
    for (const [place, sum, find] of tableOf("the word lies at", "the first order takes")) {
        await started(browser, `put 0000 b ${place}`);
        await press(browser, "#step");
        assert.equal((await told(browser))[7], sum, place);
        await press(browser, "#step");
        assert.equal((await told(browser))[3], find, place);
    }
}

/** Presses `Next line` until something holds, so often at most. */
async function nextLines(browser, holds, most = 30) {
    for (let pressed = 0; pressed < most && !(await holds()); pressed += 1) await press(browser, ".script button");
    assert.ok(await holds());
}

/** The household's loop, placed badly and well: a week is two lines of the script. */
async function household(browser) {
    await browser.value(
        "(() => { const it = document.querySelector('#example'); it.value = 'drum/placed-badly-and-well'; it.dispatchEvent(new Event('change')); })()"
    );
    await settled(browser);
    const [before, behind, times, turns] = tableOf("", "placed badly").map((row) => row.slice(1));
    for (const at of [0, 1]) {
        await nextLines(browser, async () => (await shownClock(browser)) === before[at]);
        for (let line = 0; line < 2; line += 1) await press(browser, ".script button");
        assert.equal(await shownClock(browser), behind[at]);
        const number = (text) => Number(text.replaceAll(",", ""));
        assert.deepEqual([number(behind[at]) - number(before[at]), number(times[at]) / 64], [number(times[at]), number(turns[at])]);
    }
    await nextLines(browser, async () => (await textOf(browser, ".paper")) === "3\n3\n");
}

/** Three orders that print, undone and done again; a word of four letters; and a program without an end, at a walk. */
async function ownProgram(browser) {
    await started(browser, "put 0000 p =h", "put 0001 p =i", "put 0002 z 0000");
    for (const [order, find, take, seek, act, sum, clock] of tableOf("order", "find")) {
        await press(browser, "#step");
        assert.deepEqual((await told(browser)).slice(2), [order, find, take, seek, act, sum]);
        assert.equal(await shownClock(browser), clock);
    }
    assert.match(await textOf(browser, "tr[data-address='0000']"), /p 4900/);
    for (const [way, paper] of [["back", "hi"], ["back", "h"], ["forward", "hi"], ["forward", "hi"]]) {
        await (way === "back" ? press(browser, "#back") : steps(browser, 1));
        assert.equal(await textOf(browser, ".paper"), paper);
    }
    assert.equal(await shownClock(browser), "853");
    await started(browser, ...[..."drum"].map((letter, place) => `put 000${place} p =${letter}`));
    await press(browser, "#go-on");
    assert.deepEqual([await textOf(browser, ".paper"), await shownClock(browser)], ["drum", "1,639"]);
    await started(browser, "put 0000 p =h", "put 0001 p =i", "put 0002 u 0000");
    await browser.go("order");
    await browser.waitFor("laboratoryOfPage().printed.text.startsWith('hih')");
    await press(browser, "#go-on");
    assert.equal((await panelOf(browser)).status, "going");
}

/** A class walks through the loop that changes its own order, and back. */
async function lesson(browser) {
    await browser.open(`${address}?lang=en#self-modifying`);
    assert.equal((await panelOf(browser)).status, "going");
    await steps(browser, 4);
    assert.equal((await panelOf(browser)).clock, "274");
    const stored = await browser.value("laboratoryOfPage().writerOf('0009').order");
    assert.equal(stored, "y 0009");
    assert.match(await textOf(browser, "tr[data-address='0009']"), /a 0100[^]*changed by y 0009 at 0005/);
    await browser.press("tr[data-address='0009'] button");
    await settled(browser);
    assert.notEqual(await textOf(browser, ".why"), "");
    await picture(browser, "order-changed");
    await press(browser, "#back");
    assert.deepEqual(await panelOf(browser), { counter: "0005", accumulator: "00000100", status: "going", clock: "181" });
    assert.match(await textOf(browser, "tr[data-address='0009']"), /a 0000/);
    await steps(browser, 1);
    assert.equal((await panelOf(browser)).clock, "274");
    await browser.value("laboratoryOfPage().step(20)");
    await browser.value(
        "(() => { const it = document.querySelector('.time input'); it.value = '10'; it.dispatchEvent(new Event('change')); })()"
    );
    await settled(browser);
    assert.equal(await browser.value("laboratoryOfPage().history.behind"), 10);
    await browser.value("laboratoryOfPage().forward(9)");
    await picture(browser, "loop");
    await press(browser, "#go-on");
    assert.equal((await panelOf(browser)).status, "halted stop");
    await browser.value("laboratoryOfPage().say('words 0025 1')");
    assert.equal(await browser.value("laboratoryOfPage().talk.at(-1).reply"), "0025 00000014\n");
}

/**
 * The story of an order as the page shows it: its sentence, the widths of the bar's parts in word times, how far they are filled, and the
 * phases' numbers.
 */
const story = (browser) => browser.value(`(() => {
    const pieces = [...document.querySelectorAll(".order-bar .piece")];
    return {
        says: document.querySelector(".sentence-of-order").innerText, bar: pieces.map((it) => [it.className.slice(6), Number(it.style.flexGrow)]),
        filled: pieces.map((it) => new DOMMatrix(getComputedStyle(it.firstElementChild).transform).a), phases: [...document.querySelectorAll(".phases [data-phase] b")].map((it) => Number(it.textContent)),
    };
})()`);

/**
 * Steps one order, and gives what the page shows at each picture while it is played, and at its end. The page's own pictures count: a slow
 * browser may not show one of them.
 */
const watched = (browser, shown) => browser.value(`new Promise((resolve) => {
    const [seen, box] = [[], document.querySelector(".drum-box")];
    const pictures = new MutationObserver(() => {
        const isMoving = box.dataset.moving === "true";
        if (isMoving || seen.length > 0) seen.push(${shown});
        if (isMoving || seen.length === 0) return;
        pictures.disconnect();
        resolve(seen);
    });
    pictures.observe(box, { attributeFilter: ["data-moving"] });
    document.querySelector("#step").click();
})`);

/**
 * From now on `markedCells` has each cell of the drum that was marked as written: a mark stands for a moment only, which may be shorter
 * than a picture on a slow machine.
 */
const noteMarks = (browser) => browser.value(`(() => {
    window.markedCells = new Set();
    const wasMarked = ({ oldValue }) => (oldValue ?? "").split(" ").includes("written");
    const note = (changes) => changes.filter((it) => !wasMarked(it) && it.target.classList.contains("written")).forEach(({ target }) => markedCells.add(target));
    new MutationObserver(note).observe(document.querySelector(".ring"), { subtree: true, attributeOldValue: true, attributeFilter: ["class"] });
})()`);

/**
 * Each order is told by a sentence and a bar that fills; what it writes or prints is seen when it has done so, and that the program has
 * changed itself is told for three orders.
 */
async function stories(browser) {
    await browser.open(`${address}?lang=en#self-modifying`);
    await steps(browser, 3);
    assert.deepEqual(await story(browser), {
        says: "b 0020 brings the word at 0020 into the accumulator. The drum had to turn 24 places to the order and 15 to the word.",
        phases: [24, 1, 15, 1],
        bar: [["find wait", 23], ["find work", 1], ["take work", 1], ["seek wait", 14], ["seek work", 1], ["act work", 1]],
        filled: [1, 1, 1, 1, 1, 1],
    });
    await noteMarks(browser);
    const seen = await watched(
        browser,
        "[document.querySelector(\"tr[data-address='0009'] td:nth-of-type(4) code\").textContent, document.querySelector('.rewritten').textContent, markedCells.size]"
    );
    const [before, rewritten] = [
        "r 0017 at 0000 turned u 0000 at 0017 into u 0002", "y 0009 at 0005 turned a 0000 at 0009 into a 0100",
    ].map(
        (what) => `The program has rewritten itself: ${what}.`
    );
    assert.deepEqual(seen.slice(0, -1).filter(([order, told, marks]) => order !== "a 0000" || told !== before || marks !== 0), []);
    assert.deepEqual(seen.at(-1), ["a 0100", rewritten, 1]);
    const toldNow = () => textOf(browser, ".rewritten");
    assert.equal(await browser.value("document.querySelector('.arrow') !== null"), true);
    await steps(browser, 2);
    assert.equal(await toldNow(), rewritten);
    await steps(browser, 1);
    assert.equal(await toldNow(), "");
    assert.deepEqual(
        await browser.value("[document.querySelector('.timeline').dataset.bars, document.querySelector('.clock-turn').textContent]"),
        ["ftsarftsaftsaftsarftsaftsaftsa", `clock 473 · turn 7.4`]
    );
    assert.match(await textOf(browser, "tr[data-address='0006']"), /bring zero/);
    await started(browser, "put 0000 p =h", "put 0001 z 0000");
    const printed = await watched(
        browser, "[document.querySelector('.paper').textContent, document.querySelector('.piece.act i').style.transform]"
    );
    assert.deepEqual([...new Set(printed.slice(0, -1).map(([paper]) => paper))], [""]);
    assert.deepEqual(printed.at(-1), ["h", "scaleX(1)"]);
    assert.match(
        (await story(browser)).says, /^p 4900 types the character h\. The drum had to turn \d+ places to the order; it needs no word\.$/
    );
    await steps(browser, 1);
    assert.match((await story(browser)).says, /^z 0000 stops the machine\./);
}

/** What the oscilloscope shows: the bits of its three traces, and the digits beside them. */
const TRACES =
    "[[...document.querySelectorAll('.scope canvas')].map((it) => it.dataset.bits), [...document.querySelectorAll('.trace-value code')].map((it) => it.textContent)]";

/** The bits of what a panel shows, each address as the twelve bits that it has in an order. */
const tracesOf = ({ counter, register, accumulator }) => {
    const address = 64 * Number(counter.slice(0, 2)) + Number(counter.slice(2));
    return [
        [address.toString(2).padStart(12, "0"), ...[register, accumulator].map((digits) => bitsOf(digits).join(""))],
        [counter, register, accumulator],
    ];
};

/** The oscilloscope shows at rest what the panel says, and while an order is played what the registers hold by then. */
async function scope(browser) {
    await browser.open(`${address}?lang=en#self-modifying`);
    const registers = () => (
        browser.value("(({ counter, register, accumulator }) => ({ counter, register, accumulator }))(laboratoryOfPage().panel)")
    );
    const shown = async () => {
        await browser.value("new Promise((resolve) => requestAnimationFrame(() => requestAnimationFrame(resolve)))");
        return browser.value(TRACES);
    };
    assert.deepEqual(await shown(), tracesOf(await registers()));
    await steps(browser, 2);
    const before = await registers();
    assert.deepEqual(await shown(), tracesOf(before));
    const seen = await watched(
        browser,
        "[document.querySelector('.fixed').dataset.phase, [...document.querySelectorAll('.trace-value code')].map((it) => it.textContent).join(' ')]"
    );
    const after = await registers();
    const places = new Map(
        [["find", before], ["seek", { ...after, accumulator: before.accumulator }]].map(
            ([phase, { counter, register, accumulator }]) => [phase, `${counter} ${register} ${accumulator}`]
        )
    );
    for (const [phase, digits] of seen.filter(([name]) => places.has(name))) assert.equal(digits, places.get(phase), phase);
    // a picture falls into each phase where pictures are drawn fast enough
    if (LEAST_PICTURES > 0) assert.ok(["find", "seek"].every((phase) => seen.some(([name]) => name === phase)));
    assert.notEqual(before.accumulator, after.accumulator);
    assert.deepEqual(await shown(), tracesOf(after));
    assert.equal(
        await browser.value("document.querySelector('.scope').getAttribute('aria-label')"),
        `Oscilloscope: counter ${after.counter}, instruction register ${after.register}, accumulator ${after.accumulator}.`
    );
    await press(browser, ".console button[data-name='bp8']");
    const lit = await browser.value(
        "[...document.querySelectorAll('.square.lit, .lever[aria-checked=true]')].map((it) => it.dataset.name)"
    );
    assert.deepEqual(lit, ["normal", "start", "bp8"]);
    await stage(browser);
}

/** The stage in slow motion, in the window of a usual screen, for a picture. */
async function stage(browser) {
    await browser.size(1440, 900);
    await browser.open(`${address}?lang=en#self-modifying`);
    await steps(browser, 12);
    await browser.go("slow");
    await browser.waitFor("document.querySelector('.fixed').dataset.phase === 'seek'");
    await moment(browser, "stage");
    await press(browser, "#go-on");
    await browser.size(1500, 1250);
}

const wordAt = (browser, place) => browser.value(`laboratoryOfPage().words.find(({ address }) => address === "${place}").order`);
const seenOf = (browser, ...selectors) => (
    browser.value(`${JSON.stringify(selectors)}.filter((it) => document.querySelector(it)?.checkVisibility())`)
);
const doorNow = (browser) => browser.value(
    "[new URLSearchParams(location.search).get('door'), document.querySelector('.doors [aria-current]')?.textContent ?? null]"
);

/**
 * The hall: its drum turns until it is stopped; each door shows what is its own, stands in the address, and leaves the machine as it is.
 */
async function doors(browser) {
    await browser.size(1440, 900);
    await browser.open(`${address}?lang=en`);
    await browser.waitFor(isMoving);
    await browser.waitFor("document.querySelector('.fixed').dataset.phase === 'seek'");
    await moment(browser, "hall");
    assert.deepEqual(await seenOf(browser, ".hall", ".desk", ".flexowriter", ".pace", ".telling", ".source"), [".hall"]);
    assert.deepEqual(
        [await browser.value("document.querySelectorAll('.hall a > svg').length"), ...await hiddenTexts(browser), ...await unhit(browser)],
        [3]
    );
    assert.equal(await textOf(browser, "#hall-stop"), "Stop");
    await press(browser, "#hall-stop");
    assert.deepEqual(
        [await browser.value(isMoving), await textOf(browser, "#hall-stop"), (await panelOf(browser)).status],
        [false, "Let it turn", "going"]
    );
    const before = { counter: "0000", accumulator: "00000000", status: "halted operator", clock: "0" };
    const shown = {
        look: [".tales"],
        learn: [".lesson", ".listing form"],
        work: [".flexo-body", ".telling-order", ".source", "#run-program", ".listing form"],
    };
    // from each door to each other one
    for (const door of ["work", "look", "work", "learn", "look", "learn", "work"]) {
        await press(browser, `.doors [data-door-to="${door}"]`);
        // in Work the map is the first tab there
        if (door === "work") await browser.reveal(".listing");
        assert.deepEqual(
            await seenOf(
                browser, ".hall", ".tales", ".lesson", ".flexo-body", ".telling-order", ".source", "#run-program", ".listing form"
            ),
            shown[door],
            door
        );
        const parts = [".scope", ".words-table", ".drum-box", ...(door === "look" ? [] : [".console", ".paper", ".pace"])];
        assert.deepEqual(await seenOf(browser, ".scope", ".words-table", ".drum-box", ".console", ".paper", ".pace"), parts, door);
        assert.deepEqual(await doorNow(browser), [door, door[0].toUpperCase() + door.slice(1)]);
        assert.deepEqual(await panelOf(browser), before);
    }
    await browser.value("history.back()");
    await browser.waitFor("document.body.dataset.door === 'learn'");
    await browser.size(1500, 1250);
    await browser.open(`${address}?lang=en&door=work`);
    assert.deepEqual([await doorNow(browser), (await panelOf(browser)).clock], [["work", "Work"], "0"]);
}

/** A visitor follows the stories: each caption plays its orders and stands; Back goes back; the last of a message lets it type. */
async function look(browser) {
    await browser.open(`${address}?lang=en&door=look`);
    await browser.waitFor("/^The drum turns, and the head stands still\\./.test(document.querySelector('.caption').textContent)");
    const isReady = "document.querySelector('.caption').getAttribute('aria-busy') === 'false'";
    const tale = async (name) => {
        await press(browser, `[data-tale="${name}"]`);
        await browser.waitFor(`document.querySelector('.caption-at').textContent === '1 of 5' && ${isReady}`);
        await settled(browser);
    };
    const caption = async (at, selector = "#caption-next") => {
        await press(browser, selector);
        await browser.waitFor(`document.querySelector('.caption-at').textContent === '${at} of 5' && ${isReady}`);
        await settled(browser);
    };
    await tale("rewrite");
    assert.deepEqual([await wordAt(browser, "0009"), (await panelOf(browser)).counter], ["a 0100", "0011"]);
    for (const at of [2, 3, 4]) await caption(at);
    await browser.waitFor("laboratoryOfPage().panel.counter === '0014'");
    await browser.waitFor(`!(${isMoving})`);
    assert.equal(await wordAt(browser, "0009"), "a 0101");
    assert.match(await textOf(browser, ".rewritten"), /y 0009 at 0013 turned a 0100 at 0009 into a 0101/);
    await picture(browser, "look");
    await caption(3, ".telling > .line button");
    await browser.waitFor(`!(${isMoving}) && laboratoryOfPage().panel.counter === '0013'`);
    assert.equal(await wordAt(browser, "0009"), "a 0100");
    await tale("who");
    for (const at of [2, 3, 4]) await caption(at);
    await browser.waitFor("/put there by y 0009 at 0013/.test(document.querySelector('.why').textContent)");
    await tale("type");
    for (const at of [2, 3, 4, 5]) await caption(at);
    await browser.waitFor("document.querySelector('.paper').textContent.startsWith('good day')", 120_000);
    await browser.waitFor("laboratoryOfPage().panel.status === 'halted stop'", 60_000);
}

/** Sound is off until it is switched on; then a printed sign is a stroke, and the drum hums while it works. */
async function sound(browser) {
    await browser.open(`${address}?lang=en&door=work`);
    await browser.value(`(() => {
        const { AudioContext } = globalThis;
        globalThis.heard = { contexts: 0, strokes: 0, hum: [] };
        globalThis.AudioContext = class extends AudioContext {
            constructor() { super(); heard.contexts += 1; }
            createBufferSource() { heard.strokes += 1; return super.createBufferSource(); }
            createOscillator() { const made = super.createOscillator(); const { frequency } = made; const set = frequency.setTargetAtTime.bind(frequency); frequency.setTargetAtTime = (...all) => { heard.hum.push(all[0]); return set(...all); }; return made; }
        };
    })()`);
    await started(
        browser, "put 0000 p =h", "put 0001 p =i", "put 0002 b 0034", "put 0003 b 0034", "put 0004 b 0034", "put 0005 p =h",
        "put 0006 z 0000"
    );
    await steps(browser, 1);
    assert.deepEqual(
        [await browser.value("heard"), await browser.value("document.querySelector('#sound').getAttribute('aria-pressed')")],
        [{ contexts: 0, strokes: 0, hum: [] }, "false"]
    );
    await press(browser, "#sound");
    await press(browser, "#step");
    assert.deepEqual(await browser.value("[heard.contexts, heard.strokes]"), [1, 0]);
    await browser.waitFor(`!(${isMoving})`);
    // a busy engine shows few pictures of an order, and each picture has one hum: then those after it are listened to
    for (let order = 0; order < 3 && (await browser.value("heard.hum.length")) < 2; order += 1) {
        await press(browser, "#step");
        await browser.waitFor(`!(${isMoving})`);
    }
    assert.deepEqual(await browser.value("[heard.contexts, heard.strokes, heard.hum.length > 1]"), [1, 1, true]);
    await press(browser, "#sound");
    const before = await browser.value("heard");
    await steps(browser, 1);
    assert.deepEqual(await browser.value("heard"), before);
}

/** What Save gives stands in its dialog, at first without the lines that only ask; it leads to the same place. */
async function saved(browser) {
    const before = await panelOf(browser);
    const whole = await browser.value("laboratoryOfPage().transcript()");
    const questions = await questionsOf(browser);
    await browser.press("#save");
    await browser.waitFor("document.querySelector('dialog')");
    const shown = () => browser.value("[document.querySelector('.transcript').textContent, document.querySelector('dialog a').download]");
    const [script, name] = await shown();
    assert.deepEqual([script, name], [withoutQuestions(whole, questions), "laboratory.txt"]);
    assert.ok(script.length < whole.length);
    await browser.press("#with-questions");
    assert.equal((await shown())[0], whole);
    await browser.press("dialog > button");
    await browser.value(`laboratoryOfPage().openScript('saved', ${JSON.stringify(script)})`);
    await browser.value("laboratoryOfPage().scriptLines(Infinity)");
    assert.deepEqual(await panelOf(browser), before);
}

/** Drops a file with a text on the page. */
const drop = (browser, name, text) => browser.value(`(async () => {
    const event = Object.assign(new Event("drop", { bubbles: true, cancelable: true }), { dataTransfer: { files: [new File([${JSON.stringify(text)}], ${JSON.stringify(name)})] } });
    document.body.dispatchEvent(event);
    await new Promise((resolve) => setTimeout(resolve, 200));
    await laboratoryOfPage().settled();
    return event.defaultPrevented;
})()`);

/**
 * Work is not lost: lines are pasted as lines and come back by keys, a saved file and a link are opened again, and so is the last session,
 * but not at the kiosk.
 */
async function notLost(browser) {
    await browser.open(`${address}?lang=en&door=work`);
    const input = "document.querySelector('.lines input')";
    await browser.value(
        `${input}.dispatchEvent(Object.assign(new Event("paste", { cancelable: true }), { clipboardData: { getData: () => "put 0000 b 0003\\nput 0003 = 4\\r\\npress start\\nrun" } }))`
    );
    await settled(browser);
    assert.deepEqual(
        await browser.value(`[laboratoryOfPage().talk.map(({ line }) => line), ${input}.value]`),
        [["put 0000 b 0003", "put 0003 = 4", "press start"], "run"]
    );
    const keys = await browser.value(
        `["ArrowUp", "ArrowUp", "ArrowDown", "ArrowDown"].map((key) => { ${input}.dispatchEvent(new KeyboardEvent("keydown", { key, cancelable: true })); return ${input}.value; })`
    );
    assert.deepEqual(keys, ["press start", "put 0003 = 4", "press start", "run"]);
    await press(browser, "#step");
    const before = await panelOf(browser);
    await browser.press("#save");
    await browser.waitFor("document.querySelector('dialog #link')");
    const [script, link] = await browser.value("[document.querySelector('.transcript').textContent, document.querySelector('#link').href]");
    await browser.press("dialog > button");
    await drop(browser, "picture.png", "\0\x01");
    assert.deepEqual(
        [await textOf(browser, "#notice"), await panelOf(browser)], ["picture.png is not a text file. Nothing was done.", before]
    );
    await drop(browser, "letter.txt", "Dear Sir,\n");
    assert.deepEqual(
        [await textOf(browser, "#notice"), await panelOf(browser)],
        ["letter.txt does not begin with a monitor command, so it is not a script. Nothing was done.", before]
    );
    await press(browser, ".choices button");
    assert.equal(await drop(browser, "laboratory.txt", script), true);
    assert.deepEqual(await panelOf(browser), before);
    await press(browser, "#step");
    const left = await panelOf(browser);
    await browser.open(`${address}?lang=en&kiosk=first-run`);
    assert.equal(await browser.value("document.querySelector('#kept').hidden"), true);
    await browser.open(`${address}?lang=en`);
    assert.match(await textOf(browser, "#kept"), /^Your last session was saved in this browser: Open it again Forget it$/);
    await press(browser, "#kept button:nth-of-type(1)");
    assert.deepEqual(
        [await panelOf(browser), await browser.value("[document.querySelector('#kept').hidden, document.body.dataset.door]")],
        [left, [true, "work"]]
    );
    await browser.open(`${address}?lang=en&door=learn`);
    const works = async () => {
        await browser.press("#works");
        await browser.waitFor("document.querySelector('.works')");
        const count = await browser.value("document.querySelectorAll('.works li').length");
        await browser.closeDialog();
        return count;
    };
    const kept = await works();
    await press(browser, "#kept button:nth-of-type(2)");
    assert.deepEqual(
        [...await browser.value("[document.querySelector('#kept').hidden, document.activeElement !== document.body]"), await works()],
        [true, true, kept - 1]
    );
    await browser.open(link);
    assert.deepEqual([await wordAt(browser, "0000"), (await panelOf(browser)).status], ["b 0003", "going"]);
}

/** A source with a fault, mended, loaded and run, and its profile. */
async function source(browser) {
    await browser.open(`${address}?lang=en&door=work`);
    const faulty =
        "start   b one       ; take\n        a tow       ; no line has this label\n        h sum\n        z\none     word 00000002\ntwo     word 00000004\nsum     word 00000000\n        end start";
    const write = (text) => browser.write(text);
    const told = (pattern) => browser.waitFor(`${pattern}.test(document.querySelector('.source .told').textContent)`);
    await write(faulty);
    await told(/^Line 2: tow – no line has that label; perhaps two\.$/);
    assert.deepEqual(
        await browser.value(
            `[${drawnAt(".source .fault .CodeMirror-linenumber")}, [document.querySelector('.source .wave').textContent], ${drawnAt(".source .place")}]`
        ),
        [["2"], ["tow"], ["0000 00010010", "0002 000j0018", "0003 00000000", "0004 00000002", "0005 00000004", "0006 00000000"]]
    );
    await browser.value("document.querySelector('.source').scrollIntoView({ block: 'center' })");
    await picture(browser, "fault");
    await write(faulty.replace("tow", "two"));
    await told(/^No fault: 7 words, starts at 0000\.$/);
    assert.deepEqual(
        await browser.value(drawnAt(".source .place")),
        ["0000 00010010", "0001 000q0014", "0002 000j0018", "0003 00000000", "0004 00000002", "0005 00000004", "0006 00000000"]
    );
    await press(browser, "#load");
    await press(browser, "#go-on");
    const digitsAt = (place) => browser.value(`laboratoryOfPage().words.find(({ address }) => address === '${place}').digits`);
    assert.equal(await digitsAt("0006"), "00000006");
    const mended = faulty.replace("tow", "two");
    await write(mended.replace("word 00000004", "word 00000006"));
    await told(/has changed since/);
    await press(browser, "#load");
    await told(/^No fault: 7 words, starts at 0000\.$/);
    assert.equal(await digitsAt("0005"), "00000006");
    await write(mended.replace("b one", "b two x"));
    await press(browser, "#load");
    assert.match(await textOf(browser, "#notice"), /The source has faults: nothing was loaded/);
    assert.equal(await digitsAt("0005"), "00000006");
}

/** The profile of the primes, as bars. */
async function profile(browser) {
    await browser.open(`${address}?lang=en#tables/primes`);
    await press(browser, ".profile button");
    assert.match(await textOf(browser, ".profile"), /orders, [\d,]+ word times/);
    await browser.reveal(".profile");
    await picture(browser, "profile");
}

/** What the ring of costs shows: the sentence, how many bars it has, and the sectors of its marks, by where they lie on the drum. */
const ringOf = (browser) => browser.value(`(() => {
    const marks = ["own", "best"].map((kind) => {
        const bar = document.querySelector(".ring-of-costs .cost." + kind)?.parentElement;
        const place = bar && [...bar.parentElement.children].indexOf(bar);
        return bar ? [...document.querySelectorAll(".costs tbody th")][place].textContent : null;
    });
    return { told: document.querySelector(".costs-told").innerText, bars: document.querySelectorAll(".ring-of-costs .cost").length, marks, rows: document.querySelectorAll(".costs tbody tr").length };
})()`);

/**
 * After a run a word that is pressed shows what it would have cost in each sector, as a ring on the drum, in a sentence and in a table; the
 * machine is where it was.
 */
async function costs(browser) {
    await browser.open(`${address}?lang=en#drum/household`);
    const ask = async (place) => {
        await browser.value(`laboratoryOfPage().showAt("${place}")`);
        await press(browser, `tr[data-address="${place}"] button`);
        return ringOf(browser);
    };
    assert.deepEqual(
        await ask("0128"),
        {
            told: "There is nothing to show: no order has been performed since the operator last did something.\nThe monitor says: no order waited for it or stood there, so its sector makes no difference",
            bars: 0,
            marks: [null, null],
            rows: 0,
        }
    );
    await press(browser, "#go-on");
    const [before, transcript] = [await panelOf(browser), await browser.value("laboratoryOfPage().transcript()")];
    const wage = await ask("0128");
    assert.equal(
        wage.told,
        "0128 wage is in sector 28. With it there, the last orders, 2,355 in all, took 150,629 word times; in sector 25 they would have taken 125,541, which is 25,088 fewer, and the word may be moved."
    );
    assert.deepEqual([wage.bars, wage.marks, wage.rows], [64, ["28", "25"], 64]);
    assert.deepEqual(
        [await panelOf(browser), (await browser.value("laboratoryOfPage().transcript()")).startsWith(transcript)], [before, true]
    );
    await ringIsOnItsSectors(browser);
    await browser.reveal(".costs");
    await picture(browser, "costs");
    assert.match(
        (await ask("0110")).told,
        /^0110 week is an order of the program and must stay\. None of the last orders, .* waited for it as a word\.\nThe monitor says: it should not be moved/
    );
    assert.deepEqual((await ask("0127")).marks, ["27", "15"]);
    await browser.value("document.querySelector('.costs summary').click()");
    assert.deepEqual(
        await browser.value("[...document.querySelectorAll('.costs tr:is(.own, .best)')].map((it) => it.innerText.replace(/\\s+/g, ' '))"),
        ["15 150,565 the best sector", "27 150,629 its sector"]
    );
    await press(browser, "#back");
    assert.deepEqual(
        [(await ringOf(browser)).bars, await browser.value("document.querySelectorAll('.drum :is(.grip, .stems path)').length")], [0, 0]
    );
    await browser.value("laboratoryOfPage().say('optimum 5 0131')");
    assert.match((await ringOf(browser)).told, /^The last orders, 1 in all, took 9 word times, .* with 0131 coal anywhere else/);
}

/** Each bar of the ring lies below the number of its own sector, also while the drum turns with both. */
async function ringIsOnItsSectors(browser) {
    const away = await browser.value(`(() => {
        const centre = document.querySelector(".ring").getBoundingClientRect();
        const angleOf = (node) => { const { x, y, width, height } = node.getBoundingClientRect(); return Math.atan2(y + height / 2 - centre.y - centre.height / 2, x + width / 2 - centre.x - centre.width / 2); };
        const names = [...document.querySelectorAll(".costs tbody th")].map((it) => it.textContent);
        const numbers = new Map([...document.querySelectorAll(".cell text")].map((it) => [it.textContent, angleOf(it)]));
        return [...document.querySelectorAll(".ring-of-costs .cost")].map((bar, place) => Math.abs(Math.sin((angleOf(bar) - numbers.get(names[place])) / 2))).filter((it) => it > 0.02).length;
    })()`);
    assert.equal(away, 0);
}

/** A loop without end runs fast, and can be stopped. */
async function longRun(browser) {
    await browser.open(`${address}?lang=en&door=work`);
    await browser.value(
        "laboratoryOfPage().say('put 0000 b 0010', 'put 0001 a 0011', 'put 0002 h 0010', 'put 0003 u 0000', 'press start')"
    );
    await browser.press("#go-on");
    await new Promise((resolve) => setTimeout(resolve, 4000));
    await browser.press("#go-on");
    await settled(browser);
    const { orders, milliseconds } = await browser.value("laboratoryOfPage().lastRun");
    return (1000 * orders) / milliseconds;
}

/** How many pictures a second the page draws, over this many milliseconds, and how far the clock at the hub went in a second of them. */
const pace = (browser, milliseconds) => browser.value(`new Promise((resolve) => {
    const hub = () => Number(document.querySelector(".hub-clock").textContent.replace(/\\D/g, ""));
    const [began, clock] = [performance.now(), hub()];
    let pictures = 0;
    const next = () => {
        pictures += 1;
        const seconds = (performance.now() - began) / 1000;
        if (seconds < ${milliseconds / 1000}) requestAnimationFrame(next);
        else resolve({ pictures: pictures / seconds, times: (hub() - clock) / seconds });
    };
    requestAnimationFrame(next);
})`);

/** How far a place on the ring, which the browser gives rounded, may be from what the page has set, in word times. */
const ROUNDED = 0.001;

/** How far the ring has turned, in word times, and the clock at its hub. */
const turned = (browser) => browser.value(`(() => {
    const { a, b } = new DOMMatrix(getComputedStyle(document.querySelector(".ring")).transform);
    return { ring: ((Math.atan2(-b, a) / 2 / Math.PI) * 64 + 64) % 64, hub: Number(document.querySelector(".hub-clock").textContent.replace(/\\D/g, "")) };
})()`);

/** Presses Stop: after how many milliseconds the page stands, and that the drum stands where the machine's clock is. */
async function stands(browser) {
    const milliseconds = await browser.value(`(async () => {
        const began = performance.now();
        document.querySelector("#go-on").click();
        await laboratoryOfPage().settled();
        return performance.now() - began;
    })()`);
    const { clock } = await panelOf(browser);
    const { ring, hub } = await turned(browser);
    assert.deepEqual([hub, Math.round(ring) % 64], [Number(clock), Number(clock) % 64]);
    assert.equal(await browser.value("document.querySelector('#go-on').dataset.on"), "false");
    await browser.value("new Promise((resolve) => setTimeout(resolve, 300))");
    assert.equal((await panelOf(browser)).clock, clock);
    return milliseconds;
}

/** The machine's clock over ten seconds of its own pace, as a share of the wall's. */
const ownPace = (browser) => browser.value(`(async () => {
    const laboratory = laboratoryOfPage();
    const next = () => new Promise((resolve) => {
        laboratory.addEventListener("change", () => resolve([performance.now(), Number(laboratory.panel.clock)]), { once: true });
    });
    const [began, clock] = await next();
    await new Promise((resolve) => setTimeout(resolve, 10_000));
    const [ended, reached] = await next();
    return (${WORD_TIME} * (reached - clock)) / (ended - began);
})()`);

/** Notes what the page says at each change of a run: the orders done, the counter, the clock twice, and the digits of the loop's sum. */
const noteSaid = (browser) => browser.value(`(() => {
    const textAt = (selector) => document.querySelector(selector).textContent;
    const numberAt = (selector) => Number(/[\\d,]+/.exec(textAt(selector))[0].replaceAll(",", ""));
    globalThis.said = [];
    laboratoryOfPage().addEventListener("change", () => said.push({
        orders: numberAt(".when output"), counter: textAt(".panel code.large"), trace: textAt(".trace-value code"), hub: numberAt(".hub-clock"), clock: numberAt(".panel dl dd:last-of-type"), sum: textAt("tr[data-address='0010'] td:nth-of-type(3)"),
        drum: document.querySelector(".drum-box").getAttribute("aria-label"), way: textAt(".way"),
    }));
})()`);

/**
 * All that a page has said of a fast run belongs together: it is true of one moment each. The loop adds one to its sum by its third order.
 */
function areTrue(said) {
    const [last, ...before] = said.toReversed();
    assert.ok(before.length > 3 && before[0].orders > before.at(-1).orders, `${before.length} looks at a fast run`);
    for (const { orders, counter, trace, hub, clock, sum, drum, way } of said) {
        assert.deepEqual([counter, trace, hub], [`000${orders % 4}`, `000${orders % 4}`, clock]);
        assert.equal(
            parseInt([...sum].map((digit) => "0123456789fgjkqw".indexOf(digit).toString(16)).join(""), 16), 2 * Math.floor((orders + 1) / 4)
        );
        if (way.startsWith("The machine goes on as fast as it can")) assert.match(drum, /turns too fast for its numbers to be read/);
    }
    assert.match(last.way, /^The machine is going: Step/);
}

/** The paces: what each shows, how fast it is, and that Stop is heard. */
async function paces(browser) {
    await browser.open(`${address}?lang=en&door=work`);
    await started(browser, "put 0000 b 0010", "put 0001 a 0011", "put 0002 h 0010", "put 0003 u 0000", "put 0011 = 1");
    await browser.go("slow");
    await browser.waitFor("document.querySelector('.drum-box').dataset.moving === 'true'");
    const slow = await pace(browser, 3000);
    assert.ok(slow.pictures >= LEAST_PICTURES, `${slow.pictures} pictures a second`);
    assert.ok(LARGEST_DRIFT >= 1 || (slow.times > 24 && slow.times < 36), `${slow.times} word times a second in slow motion`);
    const { ring, hub } = await turned(browser);
    assert.ok((ring - hub + 128 + ROUNDED) % 64 < 1 + 2 * ROUNDED, `the ring stands at ${ring}, the clock at ${hub}`);
    const heard = [await stands(browser)];
    await browser.go("own");
    const rate = await ownPace(browser);
    assert.ok(Math.abs(rate - 1) < LARGEST_DRIFT, `its own pace is ${rate} of the wall's clock`);
    heard.push(await stands(browser));
    await browser.value(
        "(globalThis.long = [], new PerformanceObserver((list) => long.push(...list.getEntries().map(({ duration }) => duration))).observe({ type: 'longtask' }))"
    );
    await noteSaid(browser);
    await browser.go("fast");
    const fast = await pace(browser, 3000);
    await browser.waitFor("said.length > 4");
    assert.ok(fast.pictures >= LEAST_PICTURES, `${fast.pictures} pictures a second in a fast run`);
    const long = await browser.value("long");
    assert.ok(Math.max(0, ...long) <= LONGEST_TASK, `a task of ${Math.max(...long)} milliseconds in a fast run`);
    heard.push(await stands(browser));
    areTrue(await browser.value("said"));
    await browser.go("order");
    await browser.waitFor("document.querySelector('.drum-box').dataset.moving === 'true'");
    heard.push(await stands(browser));
    await browser.go("order");
    await browser.press("#pace-slow");
    await browser.waitFor("document.querySelector('.drum-box').dataset.moving === 'true'");
    assert.equal(await browser.value("document.querySelector('.paces :checked').value"), "slow");
    heard.push(await stands(browser));
    assert.ok(Math.max(...heard) <= LONGEST_STOP, `Stop was heard after ${heard} milliseconds`);
    const numbers = [slow.pictures, 100 * Math.abs(rate - 1), Math.max(0, ...long), Math.max(...heard)].map((number) => number.toFixed(1));
    return `${numbers[0]} pictures a second, ${numbers[1]} % from the wall's clock, longest task ${numbers[2]} ms, Stop after ${numbers[3]} ms`;
}

/** What is wrong is named, and nothing is lost. */
async function badInput(browser) {
    await browser.open(`${address}?lang=en#no-such-example`);
    assert.match(await textOf(browser, "#notice"), /names an unknown example: no-such-example/);
    await browser.value("laboratoryOfPage().say('jump 0100')");
    assert.match(await textOf(browser, "#notice"), /Refused: Form/);
    await browser.value("laboratoryOfPage().say('mount 12A')");
    assert.match(await textOf(browser, "#notice"), /BadSign/);
    await browser.value("laboratoryOfPage().assemble(('; ' + 'x'.repeat(4000) + '\\n').repeat(300))");
    assert.match(await textOf(browser, "#notice"), /TooLong/);
    await browser.value("laboratoryOfPage().say('panel')");
    assert.match(await browser.value("laboratoryOfPage().talk.at(-1).reply"), /^counter 0000/);
}

/** A run that prints without end asks, and goes on; before memory ends the page begins nothing more, and all can be saved. */
async function endlessPrint(browser) {
    await browser.open(`${address}?lang=en&door=work`);
    await started(browser, "put 0000 p =h", "put 0001 p =i", "put 0002 u 0000");
    await press(browser, "#go-on");
    assert.match(await textOf(browser, "#notice"), /^The run has printed [\d,]+ codes\. Go on\?/);
    const count = () => browser.value("laboratoryOfPage().printed.count");
    const before = await count();
    assert.ok(before >= 20_000 && before < 21_000, `${before} codes`);
    await press(browser, "#notice button");
    assert.ok(await count() >= before + 20_000);
    assert.equal(await browser.value("document.activeElement.id"), "go-on");
    for (let runs = 0; runs < 60 && !/start a new one/.test(await textOf(browser, "#notice")); runs += 1) await press(browser, "#go-on");
    assert.match(await textOf(browser, "#notice"), /nothing new is started\. Save your project, and start a new one/);
    await press(browser, "#step");
    assert.match(await textOf(browser, "#notice"), /nothing new is started/);
    await browser.press("#notice button:nth-of-type(1)");
    await browser.waitFor("document.querySelector('dialog')");
    assert.match(
        await textOf(browser, ".transcript"), /^put 0000 00083100\nput 0001 00081100\nput 0002 000f0000\npress start\nrun 20000\n/
    );
    await browser.press("dialog > button");
    await browser.value(
        "(() => { const { Blob } = globalThis; globalThis.Blob = function (parts, options) { globalThis.linked = parts[0]; return new Blob(parts, options); }; })()"
    );
    await press(browser, "#notice button:nth-of-type(2)");
    // the keeper has it a moment later
    await browser.waitFor("document.querySelector('#notice').textContent.includes('Back to it')");
    assert.deepEqual(
        [await textOf(browser, "#notice"), await textOf(browser, ".paper"), (await panelOf(browser)).clock],
        ["The laboratory before this one can still be saved: Save laboratory.txt Back to it", "", "0"]
    );
    assert.match(await browser.value("globalThis.linked"), /^put 0000 00083100\nput 0001 00081100\n/);
}

/**
 * Where lines have used up what memory there is, nothing more is begun. Where memory ends in spite of it, the lines are offered until they
 * are put away.
 */
async function usedUp(browser) {
    const long = "Array(17000).fill('; ' + 'x'.repeat(4000))";
    await browser.open(`${address}?lang=en&door=work`);
    await browser.value(`laboratoryOfPage().say('put 0050 = 3', ...${long})`);
    assert.match(await textOf(browser, "#notice"), /nothing new is started/);
    await browser.value("laboratoryOfPage().say('words 0050 1')");
    assert.equal(await browser.value("laboratoryOfPage().talk.at(-1).reply"), "0050 00000006\n");
    await browser.value(`laboratoryOfPage().new().then(() => laboratoryOfPage().say('put 0050 = 3', 'source', ...${long}))`);
    assert.match(await textOf(browser, "#notice"), /The memory was full/);
    assert.equal(await browser.value("laboratoryOfPage().notice.lines.slice(0, 20)"), "put 0050 = 3\nsource\n");
    await browser.value("laboratoryOfPage().say('words 0050 1')");
    assert.equal(await browser.value("laboratoryOfPage().talk.at(-1).reply"), "0050 00000000\n");
    assert.match(await textOf(browser, "#lost"), /The lines of a laboratory whose memory was full can be saved: Save laboratory\.txt/);
    assert.equal(await browser.value("laboratoryOfPage().lost[0].slice(0, 20)"), "put 0050 = 3\nsource\n");
    await press(browser, "#lost button");
    assert.deepEqual([await textOf(browser, "#lost"), await browser.value("document.activeElement.className")], ["", "menu"]);
}

/** Dead buttons are shown dead, everything has a name, and German is there. */
async function forPeople(browser) {
    await browser.open(`${address}?lang=de&door=work`);
    const dead = await browser.value("[...document.querySelectorAll('.console .dead')].map((it) => it.dataset.name).sort()");
    assert.deepEqual(dead, ["compute", "execute", "read"]);
    assert.match(await textOf(browser, "h1"), /bewiesen/);
    const nameless = await browser.value(
        "[...document.querySelectorAll('button, input, select, [role=textbox]')].filter((it) => !(it.textContent.trim() || it.getAttribute('aria-label') || it.closest('label')?.textContent.trim())).map((it) => it.outerHTML)"
    );
    assert.deepEqual(nameless, []);
    assert.equal(
        await browser.value(
            "document.querySelectorAll('[id]').length === new Set([...document.querySelectorAll('[id]')].map((it) => it.id)).size"
        ),
        true
    );
    await browser.size(380, 800);
    assert.equal(await browser.value("document.documentElement.scrollWidth <= innerWidth"), true);
    await browser.value(
        "laboratoryOfPage().openScript('wide', '; ' + 'wide '.repeat(40) + '\\nput 0000 b 0050\\npress start\\nrun 1').then(() => laboratoryOfPage().step(1))"
    );
    await browser.value("laboratoryOfPage().say('; ' + 'x'.repeat(200))");
    for (const width of [380, 768, 1500]) {
        await browser.size(width, 1250);
        for (const part of [".script", ".log", ".rows", ".lamp"]) {
            await browser.reveal(part);
            assert.equal(await browser.value(`document.querySelector('${part}').clientWidth > 0`), true, `${part} at ${width}`);
            assert.deepEqual(await sideways(browser), [], `${part} at ${width}`);
        }
        await lamps(browser, `at ${width}`);
    }
    if (browser.media === undefined) return;
    await browser.media({ "forced-colors": "active" });
    await lamps(browser, "with forced colours");
    await browser.media({});
}

/** At each width nothing has to be scrolled sideways, in no section. */
async function widths(browser) {
    for (const door of ["hall", "look", "learn", "work"]) {
        await browser.open(`${address}?lang=de&door=${door}`);
        for (const width of [390, 768, 1024, 1440, 1920]) {
            await browser.size(width, 900);
            assert.deepEqual(
                [await sideways(browser), await browser.value("document.documentElement.scrollWidth <= innerWidth")],
                [[], true],
                `${door} at ${width}`
            );
        }
    }
    await browser.size(1500, 1250);
}

/** What has to be scrolled sideways, but for tables, tape, the source's text, and the stories on a telephone. */
const sideways = (browser) => browser.value(`[...document.querySelectorAll("#page *:not(.scroll, .editor *, select, input, .unseen, .word, .tales > .line)")]
    .filter((it) => it.scrollWidth > it.clientWidth + 1 && /auto|scroll|hidden/.test(getComputedStyle(it).overflowX)).map((it) => it.tagName + "." + it.className)`);

/**
 * A lamp that is lit stands out from what lies behind it, one that is not is empty, and each is wide enough within its edge to see which it
 * is.
 */
async function lamps(browser, where) {
    const [narrow, lit, filled] = await browser.value(`(() => {
        const all = [...document.querySelectorAll(".lamp")];
        const isNarrow = ({ clientWidth, clientHeight, offsetWidth }) => Math.min(clientWidth, clientHeight) < 5 || 2 * clientWidth < offsetWidth;
        const isFilled = (it) => !it.classList.contains("lit") && !/, 0\\)$/.test(getComputedStyle(it).backgroundColor);
        return [all.filter(isNarrow).length, all.filter((it) => it.classList.contains("lit")).length, all.filter(isFilled).length];
    })()`);
    assert.deepEqual([narrow, lit > 0, filled], [0, true, 0], where);
    assert.deepEqual((await faint(browser)).filter((trouble) => trouble.includes("lamp")), [], where);
}

/** What a reader may wish, where the engine can be told that; otherwise the page is looked at once, as it is. */
const wishes = (browser, ...all) => (browser.media === undefined ? ["as it is"] : all);

/** The troubles of the page as it stands, in light and in dark, and by Tab. */
async function troubles(browser) {
    const found = [...await disorder(browser), ...await nameless(browser), ...await unreached(browser)];
    for (const scheme of wishes(browser, "light", "dark")) {
        await browser.media?.({ "prefers-color-scheme": scheme });
        found.push(...(await faint(browser)).map((trouble) => `${scheme}: ${trouble}`));
    }
    await browser.media?.({});
    return found;
}

/** Opens an address with what listens to a mouse noted. */
async function openNoted(browser, behind) {
    const endNoting = await noteMouse(browser);
    await browser.open(`${address}${behind}`);
    await endNoting();
}

/** Names, contrast, headings and landmarks, and the way by Tab: with nearly all that the page can show, in both languages and dialogs. */
async function everyone(browser) {
    await browser.ask?.("Accessibility.enable");
    for (const language of ["en", "de"]) {
        await openNoted(browser, `?lang=${language}#self-modifying`);
        assert.deepEqual(await troubles(browser), []);
        await browser.value("laboratoryOfPage().step(8)");
        await browser.value("laboratoryOfPage().say('break 0100', 'watch 0009', 'mount 1[16]2', 'press bp4 down', 'profile 3', 'go 0164')");
        await browser.value("laboratoryOfPage().assemble(' b none\\n z\\n end')");
        await press(browser, "tr[data-address='0009'] button");
        assert.deepEqual(await troubles(browser), []);
        await browser.value("laboratoryOfPage().say('watch 0024').then(() => laboratoryOfPage().run())");
        assert.equal(await browser.value("document.querySelectorAll('#notice button').length"), 2);
        assert.deepEqual(await troubles(browser), []);
        await browser.value("laboratoryOfPage().say('source', ' z').then(() => laboratoryOfPage().step())");
        assert.equal(await browser.value("document.querySelectorAll('#notice:not([hidden]), #open-source:not([hidden])').length"), 2);
        assert.deepEqual(await troubles(browser), []);
        await browser.value("laboratoryOfPage().say('.')");
        for (const opener of ["#save", "#about"]) {
            await browser.press(opener);
            await browser.waitFor("document.querySelector('dialog')");
            if (opener === "#about") await noticesSeen(browser);
            assert.deepEqual([...await nameless(browser), ...await faint(browser)], []);
            await browser.strike("Escape");
        }
        for (const door of ["hall", "look", "learn"]) {
            await openNoted(browser, `?door=${door}&lang=${language}`);
            if (door !== "hall") await press(browser, { look: "[data-tale='rewrite']", learn: "[data-lesson='rewriting']" }[door]);
            await browser.waitFor(
                {
                    hall: "true",
                    look: "!document.querySelector('.caption-at').hidden",
                    learn: "document.querySelector('.lesson .now') !== null",
                }[door]
            );
            if (door === "hall") await press(browser, "#hall-stop");
            assert.deepEqual(await troubles(browser), [], door);
        }
        await openNoted(browser, `?kiosk=message&lang=${language}`);
        await press(browser, "#kiosk-1");
        assert.deepEqual(await troubles(browser), []);
    }
    await browser.ask?.("Accessibility.disable");
}

/** By keys alone: an order is stepped over and gone back, a line is typed, no press loses the focus, and the short keys can be put off. */
async function byKeys(browser) {
    await browser.open(`${address}?lang=en#self-modifying`);
    // Firefox 153 gives a page that is driven no focus, and then no key presses a button there
    if (Engine === Firefox && !(await browser.value("document.hasFocus()"))) {
        return "but not looked at, since this browser gives the page no focus";
    }
    const clock = async () => { await settled(browser); return (await panelOf(browser)).clock; };
    const clocks = [];
    for (const key of ["s", "s", "[", "]", "["]) {
        await browser.strike(key);
        clocks.push(await clock());
    }
    const [one, two] = clocks;
    assert.notEqual(one, two);
    await browser.value("document.querySelector('#tab-memory-program').focus()");
    await browser.strike("Enter");
    await browser.value("document.querySelector(`tr[data-address='0000'] button`).focus()");
    await browser.strike("Enter");
    await browser.waitFor(
        "/^0000 is an order of the program and must stay\\. None of the last orders, 1 in all,/.test(document.querySelector('.costs-told').textContent)"
    );
    assert.deepEqual(clocks, [one, two, one, two, one]);
    await browser.press("#about");
    await browser.press("#short-keys");
    await browser.strike("Escape");
    await browser.strike("s");
    assert.equal(await clock(), one);
    await browser.value("laboratoryOfPage().say('break 0100', 'break 0101')");
    assert.deepEqual(await losesFocus(browser, "#page button:not([data-name='key'], #kiosk)"), []);
    await browser.value("document.querySelector('.menu').focus()");
    await browser.strike("Enter");
    await browser.value("document.querySelector('#kiosk').focus()");
    await browser.strike("Enter");
    await browser.waitFor("document.querySelector('.kiosk-bar') !== null");
    await settled(browser);
    assert.deepEqual(await losesFocus(browser, "#page button"), []);
    await browser.value(
        "document.activeElement.dispatchEvent(new KeyboardEvent('keydown', { key: 'L', ctrlKey: true, shiftKey: true, bubbles: true }))"
    );
    await browser.waitFor("document.querySelector('.lines input') !== null");
    assert.equal(await browser.value("document.activeElement.className"), "menu");
    await browser.reveal(".lines input");
    await browser.value("document.querySelector('.lines input').focus()");
    await browser.type("new");
    await browser.strike("Enter");
    assert.equal(await clock(), "0");
}

/** What is read out: of a line typed, the line and its reply and nothing that stood there before; of the paper, what is printed now. */
async function readOut(browser) {
    await browser.open(`${address}?lang=en&door=work`);
    await browser.reveal(".log");
    for (const line of ["put 0000 p =h", "put 0001 p =i", "put 0002 z 0000", "press start"]) {
        await browser.value(`laboratoryOfPage().say('${line}')`);
    }
    await browser.value(`(() => {
        globalThis.added = {};
        for (const log of document.querySelectorAll(".paper, .log")) {
            added[log.getAttribute("aria-label")] = "";
            new MutationObserver((changes) => { for (const { addedNodes } of changes) for (const node of addedNodes) added[log.getAttribute("aria-label")] += node.textContent; }).observe(log, { childList: true, subtree: true });
        }
    })()`);
    const heard = [];
    for (const line of ["words 0000 1", "orders 1", "orders 1", "jump"]) {
        await browser.value(`laboratoryOfPage().say('${line}')`);
        heard.push(
            await browser.value(
                "(() => { const heard = Object.values(added); for (const name in added) added[name] = ''; return heard; })()"
            )
        );
    }
    // in the document the lines come before the paper
    for (const both of heard) both.reverse();
    assert.deepEqual(heard, [
        ["", "words 0000 1\n0000 00083100\n"], ["h", "orders 1\norders 1 going\n"], ["i", "orders 1\norders 1 going\n"],
        ["", "jump\n? 1 Form: there is no such command; help lists them all\n"]
    ]);
    const roles = await browser.value("['notice', 'progress'].map((id) => document.getElementById(id).getAttribute('role'))");
    assert.deepEqual(roles, ["alert", "status"]);
    assert.match(await textOf(browser, "#notice"), /no such command/);
}

/** Without motion the ring stands, for each order, in the four places where a phase ends. */
async function pictureByPicture(browser) {
    const places = await browser.value(`new Promise((resolve) => {
        const places = new Set();
        const look = () => {
            places.add(document.querySelector(".ring").style.transform);
            if (document.querySelector(".drum-box").dataset.moving === "true") requestAnimationFrame(look);
            else resolve([...places].map((place) => (64 - Number(/-?[\\d.]+/.exec(place)[0]) / -5.625) % 64));
        };
        requestAnimationFrame(look);
    })`);
    const { clock, find, take, seek, act } = await browser.value(
        "(({ clock, find, take, seek, act }) => ({ clock: Number(clock), find, take, seek, act }))(laboratoryOfPage().accounts.at(-1))"
    );
    let at = clock;
    const ends = [find, take, seek, act].map((times) => { at += times; return at % 64; });
    assert.deepEqual(places.map((place) => (64 - place) % 64), ends);
}

/**
 * Nothing moves by itself: no animation runs after any step, but for a word that turns over once as it is changed; and none at all where no
 * motion is wanted, and the hall stands.
 */
async function stillness(browser) {
    for (const value of wishes(browser, "no-preference", "reduce")) {
        await browser.media?.({ "prefers-reduced-motion": value });
        await browser.open(`${address}?lang=en#self-modifying`);
        for (let order = 0; order < 4; order += 1) {
            await press(browser, "#step");
            assert.equal(await browser.value("document.getAnimations().length"), 0, value);
        }
        await halt(browser);
        if (value !== "reduce") await browser.value("Promise.all(document.getAnimations().map(({ finished }) => finished))");
        assert.equal(await browser.value("document.getAnimations().length"), 0, value);
        await press(browser, "#step");
        if (value === "reduce") await pictureByPicture(browser);
        await browser.open(`${address}?lang=en`);
        if (value === "reduce") assert.deepEqual([await browser.value(isMoving), (await panelOf(browser)).clock], [false, "0"]);
        else await browser.waitFor(isMoving).then(() => press(browser, "#hall-stop"));
    }
    await browser.media?.({});
}

/** Opens a page that cannot open its laboratory, and gives the sentence that it shows and what stands below. */
async function sentence(browser, behind = address) {
    await browser.open(behind, "!document.querySelector('#lacking').hidden");
    const [english, german, detail] = (await textOf(browser, "#lacking")).split(/\n+/);
    assert.match(english, /^This browser cannot open the laboratory: it needs WebAssembly, BigInt and 80 megabytes of memory/);
    assert.match(german, /^Dieser Browser kann das Labor nicht öffnen/);
    assert.deepEqual(await browser.value("['#page', '#notice', '#lost'].filter((it) => document.querySelector(it).checkVisibility())"), []);
    return detail ?? "";
}

/** A browser without WebAssembly, as each engine is that is started so, is told a sentence. */
async function withoutWebAssembly() {
    const other = await Engine.start(800, 600, without);
    try {
        assert.equal(await sentence(other), "");
        assert.equal(await other.value("typeof WebAssembly"), "undefined");
        assert.deepEqual(other.told, []);
    } finally {
        await other.end();
    }
}

/**
 * The same sentence is told by a browser without BigInt; by one that cannot read the page's script, as one without BigInt cannot; where the
 * module is none; and where the memory is refused. Today's browsers have all that, so here it is taken from them, or from the page.
 */
async function cannotOpen() {
    const other = await Engine.start(800, 600);
    const folder = mkdtempSync(join(tmpdir(), "page-"));
    const page = readFileSync(file, "utf8");
    const replaced = (text, old, young) => {
        assert.ok(text.includes(old), old);
        return text.replace(old, () => young);
    };
    const changed = (old, young) => {
        writeFileSync(join(folder, "page.html"), replaced(page, old, young));
        return sentence(other, pathToFileURL(join(folder, "page.html")).href);
    };
    // the scripts lie packed in the page
    const scripts = /(?<=id="parts">)[^<]*/.exec(page)[0];
    const rewritten = (old, young) => changed(scripts, packedText(replaced(unpackedText(scripts), old, young)));
    try {
        assert.equal(await changed("<script>", "<script>delete globalThis.BigInt;</script><script>"), "");
        assert.deepEqual(other.told, []);
        assert.match(await changed("<script>\n(()=>{", "<script>\n65536nn;(()=>{"), /SyntaxError|Script error/);
        assert.match(await rewritten("(()=>{", "65536nn;(()=>{"), /SyntaxError|Script error/);
        assert.match(
            await changed(
                packedModule(readFileSync(join(top, "libraries/javascript/lgp_c_region.wasm"))), packedModule(Buffer.from("no module"))
            ),
            /^these bytes are not a module that can be used here: /
        );
        assert.match(await rewritten(`=${2 ** 26}){`, `=${2 ** 40}){`), /^there is not enough memory/);
    } finally {
        await other.end();
        rmSync(folder, { recursive: true });
    }
}

/** The replies of a script by each program that runs scripts. */
function repliesTo(script) {
    const module = [
        process.execPath, ...process.execArgv, join(top, "page/run_script.mjs"), join(top, "libraries/javascript/lgp_c_region.wasm"),
    ];
    const programs = process.env.LAB === undefined ? [module] : [module, [process.env.LAB]];
    return programs.map(([program, ...words]) => {
        const { status, stdout, stderr } = spawnSync(program, words, { input: script, encoding: "utf8", maxBuffer: 1 << 26 });
        assert.ok(status === 0 || status === 1, `${program}: status ${status}, ${stderr}`);
        return stdout;
    });
}

/** What is asked where a visit has ended: the panel, all words, what is printed, and the same one order back. */
const AT_THE_END = ["panel", "dump", "printed", "back 1", "panel", "dump"];

/** The script that Save gives at first ends where the visit has. Gives the numbers of lines with and without those that only ask. */
async function endsThere(browser) {
    if (!await browser.value("globalThis.laboratoryOfPage?.() != null")) return null;
    const whole = await browser.value("laboratoryOfPage().transcript()");
    const short = withoutQuestions(whole, await questionsOf(browser));
    let here = "";
    for (const line of AT_THE_END) here += await browser.value(`laboratoryOfPage().say(${JSON.stringify(line)})`);
    const before = repliesTo(short);
    const there = repliesTo(`${short}${AT_THE_END.join("\n")}\n`).map((replies, place) => replies.slice(before[place].length));
    for (const replies of there) assert.equal(replies, withoutReasons(here));
    return [whole, short].map((script) => script.split("\n").length - 1);
}

/**
 * A visitor at a touch screen, who taps: at the kiosk, whose buttons all lie in sight, and at the page, where a finger hits each button.
 */
async function touch(browser) {
    const taps = async (selector) => {
        await browser.tap(selector);
        await settled(browser);
        await browser.value("new Promise((resolve) => requestAnimationFrame(() => requestAnimationFrame(resolve)))");
    };
    await browser.size(1024, 768);
    await browser.open(`${address}?kiosk=message&lang=en`);
    const hidden =
        "[...document.querySelectorAll('.kiosk-bar button')].filter((it) => { const { bottom, height } = it.getBoundingClientRect(); return bottom > innerHeight || height < 44; }).length";
    assert.equal(await browser.value(hidden), 0);
    await browser.waitFor(isMoving);
    await taps(".kiosk .plate");
    await browser.waitFor("document.body.dataset.state === 'story'");
    for (const place of [2, 2, 1]) await taps(`.kiosk-bar button:nth-of-type(${place})`);
    assert.equal((await panelOf(browser)).status, "going");
    await browser.tap(".kiosk-bar button:nth-of-type(4)");
    await browser.waitFor("document.body.dataset.state === 'attract'");
    await browser.tap(".kiosk-bar button:nth-of-type(3)");
    await browser.waitFor("laboratoryOfPage().way.kind === 'keys'");
    await settled(browser);
    assert.notEqual((await textOf(browser, ".paper")).trim(), "");
    await browser.open(`${address}?lang=en#self-modifying`);
    assert.deepEqual(await sideways(browser), []);
    const small =
        "[...document.querySelectorAll('#page button, #page select, #page input')].filter((it) => it.checkVisibility() && !it.closest('label') && Math.min(it.getBoundingClientRect().width, it.getBoundingClientRect().height) < 24).map((it) => it.outerHTML.slice(0, 90))";
    assert.deepEqual(await browser.value(small), []);
    for (let order = 0; order < 4; order += 1) {
        await taps("#step");
        await halt(browser);
    }
    await browser.reveal("tr[data-address='0009'] button");
    await browser.value(
        "new Promise((resolve) => { let pictures = 0; const next = () => { pictures += 1; if (pictures < 4) requestAnimationFrame(next); else resolve(); }; next(); })"
    );
    await taps("tr[data-address='0009'] button");
    assert.match(await textOf(browser, ".why"), /put there by y 0009 at 0005/);
    await taps("#back");
    assert.equal((await panelOf(browser)).clock, "181");
    await browser.tap(".menu");
    await browser.tap("#save");
    await browser.waitFor("document.querySelector('dialog')");
    await browser.tap("dialog > button");
    await browser.waitFor("document.querySelector('dialog') === null");
    await browser.size(1500, 1250);
}

const all = {
    ...visitsOfTasks(address),
    ...visitsOfGames(address),
    ...visitsOfHand(address),
    ...visitsOfExamples(address),
    ...visitsOfStorage(address),
    ...visitsOfKiosk(address),
    ...visitsOfExhibits(address, pictures),
    ...visitsOfLook(address),
    ...visitsOfOrder(address),
    ...visitsOfPaper(address),
    ...visitsOfSending(address),
    ...visitsOfSure(address),
    ...visitsOfPeople(address),
    ...visitsOfProjector(address),
    ...visitsOfTimeline(address),
    ...visitsOfWishes(address),
    ...visitsOfPoints(address),
    ...visitsOfEditor(address),
    ...visitsOfScenes(address),
    ...visitsOfDay(address),
    ...visitsOfRows(address),
    ...visitsOfWorkbench(address),
    kiosk,
    addresses,
    changes,
    thereAndBack,
    openSource,
    whatToPress,
    operated,
    endlessPrint,
    firstHour,
    lesson,
    stories,
    scope,
    doors,
    look,
    ...lessonVisits({ address, press, settled, steps, picture, textOf, sideways }),
    sound,
    saved,
    notLost,
    source,
    profile,
    costs,
    badInput,
    usedUp,
    longRun,
    paces,
    forPeople,
    widths,
    everyone,
    byKeys,
    readOut,
    stillness,
    touch,
    withoutWebAssembly,
    cannotOpen,
};
const wanted = wantedVisits(Object.keys(all), { named: process.env.VISITS, isMain: Engine !== Chromium, left });
const visits = Object.fromEntries(wanted.map((name) => [name, all[name]]));
let browser = await Engine.start();
const toldByPages = [];
let failed = 0;

/** Visits the page, and says in a line how that went. The window has its usual size, wherever the visit before has ended. */
async function visited(name) {
    const began = Date.now();
    const seconds = () => `${((Date.now() - began) / 1000).toFixed(1)} s`;
    try {
        await browser.size(1500, 1250);
        const found = await visits[name](browser);
        if (name === "longRun") assert.ok(found >= LEAST_SPEED, `${Math.round(found)} orders a second`);
        const lines = ["withoutWebAssembly", "cannotOpen"].includes(name) ? null : await endsThere(browser);
        const saves = lines === null ? "" : `, ${lines[1]} lines saved of ${lines[0]}`;
        return {
            isWell: true,
            line: `${name}: well${found === undefined
                ? ""
                : `, ${typeof found === "number" ? Math.round(found) : found}`}${saves}, ${seconds()}`,
        };
    } catch (failure) {
        return { isWell: false, line: `${name}: ${failure.message}, ${seconds()}` };
    }
}

/** Ends the engine, and keeps what its page has told. */
async function end() {
    toldByPages.push(...browser.told);
    await browser.end();
}

/**
 * How often a visit is tried: an engine that has crashed, or a machine that stood still, says nothing of the page, unless the same comes
 * again in new engines.
 */
const TRIES = 3;

/**
 * Tries a visit until it is well. Gives whether it was, and the lines of all tries, the last one first; what a page told in a try before
 * the last is told with that.
 */
async function tried(name) {
    const lines = [];
    for (let more = TRIES - 1; ; more -= 1) {
        const before = browser.told.length;
        const { isWell, line } = await visited(name);
        if (isWell || more === 0) return { isWell, lines: [line, ...lines] };
        lines.unshift([line, ...browser.told.splice(before)].join("; told: "));
        await end();
        browser = await Engine.start();
    }
}

for (const name of Object.keys(visits)) {
    const { isWell, lines } = await tried(name);
    failed += isWell ? 0 : 1;
    console.log(lines.join("; the time before: ").replaceAll("\n", " "));
}
await end();
if (toldByPages.length > 0) {
    failed += 1;
    console.log(`the page has told: ${toldByPages.join("\n")}`);
}
process.exitCode = failed === 0 ? 0 : 1;
