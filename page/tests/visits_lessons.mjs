// The lessons as a pupil does them at the page: each step once with a usual mistake, which is met by a hint, and then rightly. In the
// window of a usual screen nothing has to be
// scrolled: the step, what it is done with, and what it looks at are seen together.
import assert from "node:assert/strict";
import { dirname, join } from "node:path";
import { fileURLToPath } from "node:url";
import { lessonsBelow } from "../documents.mjs";
import { solveLesson } from "../lesson_solver.mjs";
import { textsIn } from "../words.mjs";
import { hiddenTexts, numbersOf, unhit, unseen } from "./seen.mjs";

const lessons = lessonsBelow(join(dirname(fileURLToPath(import.meta.url)), "../../teaching/lessons"));

const NOW = ".lesson li.now";
const START = ".console button[data-name='start']";
const rowOf = (address) => `tr[data-address='${address}']`;

/** What a pupil does with hand and eye: each action is given the browser and the calls of the visits. */
const types = (...lines) => async (browser, { settled }) => {
    for (const line of lines) {
        await browser.value(
            `(() => { const form = document.querySelector("${NOW} .types"); form.querySelector("input").value = ${JSON.stringify(line)}; form.requestSubmit(); })()`
        );
        await settled(browser);
    }
};
const presses = (...selectors) => async (browser, { press }) => { for (const selector of selectors) await press(browser, selector); };
const steps = (count) => (browser, calls) => calls.steps(browser, count);
const back = (count) => presses(...Array(count).fill("#back"));
const run = (browser, { settled }) => browser.go("fast").then(() => settled(browser));
const start = presses(START);
const hint = presses(`${NOW} .for-hint`);
const shows = (address) => async (browser, { press }) => {
    await browser.value(`document.querySelector(".listing form input").value = "${address}"`);
    await press(browser, ".listing form button");
};
const asks = (address) => one(shows(address), presses(`${rowOf(address)} button`));
const one = (...actions) => async (browser, calls) => { for (const action of actions) await action(browser, calls); };
const puts = (...words) => types(...words.map((word) => `put ${word}`));
const word = (letters) => types(...[...letters].map((letter, place) => `put 000${place} p =${letter}`));

const reads = (...numbers) => one(...numbers.flatMap((number) => [types(`type ${number} '`), run]));

const [drum, scope, phases, clock, paper] = [".drum-box", ".scope", ".phases", ".clock-turn", ".sheet"];

/**
 * The steps of the lessons: what is done first, if anything; a usual mistake, as a wrong answer or as an action, after which the step is
 * not done; and what mends it, if that is more
 * than the right answer. `sees` is what the step asks for and looks at.
 */
const DONE = {
    "a-computer-on-a-drum": [
        { says: "01", sees: [drum] }, { says: "00", sees: [scope] },
        { errs: types("put 0000 b O050"), does: types("put 0000 b 0050", "put 0050 = 6"), sees: [rowOf("0000"), drum] },
        { errs: one(start, run), does: one(back(2), steps(1)), sees: [START, "#step"] },
        { says: "12", sees: [scope] }, { says: "64", sees: [phases] }, { says: "1", sees: [phases] }, { says: "50", sees: [phases] },
        { says: "9", sees: [drum] },
        { first: steps(1), says: "64", sees: ["#step", phases] },
        { first: steps(2), says: "6", sees: ["#step", phases] },
        { first: steps(2), says: "1", sees: ["#step", phases] },
        {
            errs: one(puts("0000 b 0057"), start, steps(2)),
            does: one(types("new", "put 0000 b 0143"), start, steps(2)),
            sees: [START, "#step", drum, clock],
        },
        { says: "1", sees: [drum] },
        { errs: types("put 0000 p=h"), does: types("put 0000 p =h", "put 0001 p =i", "put 0002 z 0000"), sees: [rowOf("0002")] },
        { first: one(start, steps(1)), says: "451", sees: [START, "#step", phases] },
        { first: steps(2), says: "844", sees: ["#step", clock, paper] },
        { first: back(2), says: "hi", sees: ["#back", paper] },
        { errs: one(word("cat"), start, run), does: one(types("new"), word("drum"), start, run), sees: [START, "#go-on", paper] },
        { says: "1636", sees: [clock] }, { errs: hint, does: steps(4), sees: ["#pace-order", "#go-on", paper] },
    ],
    "rewriting": [
        { errs: types("put 0000 1004"), does: types("put 0000 00010004"), sees: [rowOf("0000")] },
        { says: "b 0010", sees: [rowOf("0000")] },
        { first: types("put 0000 00010008"), says: "b 0001", sees: [rowOf("0000")] },
        { errs: one(types("put 0000 000100wk"), hint), does: types("put 0000 00010100"), sees: [rowOf("0000")] },
        { says: "000100wj", sees: [rowOf("0000")] },
        { errs: hint, does: steps(3), sees: ["#step", scope] }, { first: steps(1), says: "00000009", sees: ["#step", scope] },
        { first: steps(2), says: "a 0013", sees: ["#step", rowOf("0001")] },
        { first: one(types("watch 0001"), run), says: "a 0010", sees: ["#go-on", rowOf("0001")] },
        { first: run, says: "00000006", sees: ["#go-on", rowOf("0007")] },
        { errs: run, does: one(presses(".lesson h3:nth-of-type(3) button"), steps(3)), sees: ["#step", scope] },
        { says: "57", sees: [drum] },
        { first: steps(1), says: "0005", sees: ["#step", drum, rowOf("0009"), ".rewritten"] },
        { first: back(1), says: "a 0100", sees: ["#back", rowOf("0009")] },
        { errs: hint, does: steps(9), sees: ["#step", rowOf("0009")] },
        { first: run, says: "a 0103", sees: ["#go-on", rowOf("0009")] },
        { first: presses(`${rowOf("0009")} button`), says: "0005", sees: [rowOf("0009"), ".why"] },
        { errs: hint, does: steps(7), sees: ["#step", clock] },
        { first: steps(7), says: "512", sees: ["#step", clock] },
        { says: "8", sees: [] },
    ],
    "reading-a-listing": [
        {
            errs: one(puts("0200 00010300", "0201 000w0304", "0202 000g0224", "0203 000j0300", "0204 000f0200", "0205 00000000"), hint),
            does: puts("0202 000g0214"),
            sees: [rowOf("0200"), rowOf("0205")],
        },
        { errs: one(puts("0300 00000040", "0301 00000002"), hint), does: puts("0300 00000014"), sees: [rowOf("0300"), rowOf("0301")] },
        { says: "t 0214", sees: [rowOf("0202")] }, { says: "z 0014", sees: [rowOf("0300")] },
        { errs: one(types("break 0200"), hint), does: types("go 0200"), sees: [scope] },
        { first: run, says: "256", sees: ["#go-on", clock] },
        { first: steps(5), says: "295", sees: ["#step", clock] },
        { says: "64", sees: [] },
        {
            first: run,
            isEarly: "00000000",
            mends: one(types("drop 0"), run, shows("0300")),
            says: "00000014",
            sees: ["#go-on", ".listing form input", rowOf("0300")],
        },
    ],
    "where-a-word-costs-least": [
        { errs: run, does: one(presses(".lesson h3 button"), steps(2)), sees: ["#step", scope] },
        { first: steps(2), says: "9", sees: ["#step", phases] },
        { says: "9", sees: [phases] },
        { errs: hint, does: run, sees: ["#go-on"] },
        { isEarly: "6", mends: asks("0128"), says: "64", sees: [".listing form input", rowOf("0128"), drum] },
        { says: "28", sees: [drum] },
        { says: "150,629", sees: [".costs-told"] },
        { first: asks("0129"), says: "25", sees: [rowOf("0129"), drum] }, { first: asks("0132"), says: "29", sees: [rowOf("0132"), drum] },
    ],
    "what-can-a-forecast-know": [
        { first: one(types("break steps"), run, run, run), says: "0010", sees: ["#go-on", paper] },
        { first: types("numbers x 1"), says: "0009", sees: [`${NOW} .reply`, paper] },
        {
            first: types("run 188800"),
            isEarly: "1720",
            mends: one(types("press transfer down"), run),
            says: "1720",
            sees: ["#go-on", paper],
        },
        {
            errs: one(reads("1000", "-0059", "-0058"), types("type 0240 '"), hint),
            does: types("press transfer up"),
            sees: ["#go-on", paper],
        },
        { first: types("run 79500"), says: "1475", sees: [paper] }, { says: "1630", sees: [paper] },
        { first: types("run 160000"), says: "1615", sees: [paper] }, { says: "1645", sees: [paper] },
    ],
};

const doneIn = (browser) => browser.value("document.querySelectorAll('.lesson li.done').length");

/** The hint that is shown; null where the step has gone on. */
const hintNow = (browser) => browser.value(`document.querySelector("${NOW} .hint")?.textContent ?? null`);

/** Waits until a hint is shown: a run may end after its press. */
async function hintIs(browser, wanted) {
    await browser.waitFor(`document.querySelector("${NOW} .hint")?.textContent === ${JSON.stringify(wanted)}`).catch(() => {});
    assert.equal(await hintNow(browser), wanted);
}

async function answers(browser, text) {
    await browser.value(
        `(() => { const form = document.querySelector("${NOW} .answer"); form.querySelector("input").value = ${JSON.stringify(text)}; form.requestSubmit(); })()`
    );
}

/** Waits until a number of steps is ticked off; and until the step of this place is in work, or the lesson has ended. */
const ticked = (browser, done) => browser.waitFor(`document.querySelectorAll('.lesson li.done').length === ${done}`);
const reached = (browser, place) => browser.waitFor(
    `document.querySelector("${NOW} .mark")?.textContent === "${place + 1}" || document.querySelector('.lesson-end').textContent !== ""`
);
const next = (browser) => browser.press("#step-next");

const plainly = (text) => text.replaceAll("`", "");

/** A mistake, and what the page says to it. The first wrong answer is met by the hint, the second by what is right as well. */
async function errs(browser, calls, { errs: action, says, isEarly, mends }, { hint: wanted }, right, { text }) {
    const before = await doneIn(browser);
    if (isEarly !== undefined) {
        await answers(browser, isEarly);
        await hintIs(browser, text("lessonNotThere"));
        await mends(browser, calls);
    }
    if (action !== undefined) await action(browser, calls);
    if (says !== undefined) await answers(browser, says);
    await hintIs(browser, plainly(wanted));
    assert.deepEqual(await unseen(browser, [`${NOW} .hint`]), []);
    if (says === undefined) return assert.equal(await doneIn(browser), before);
    await answers(browser, `${says}0`);
    return hintIs(browser, plainly(`${wanted} ${text("lessonWouldBe", { answer: right })}`));
}

/** One lesson in one language, step by step. `atStep` is called before each step's actions. */
async function goThrough(browser, calls, name, code, atStep = () => {}) {
    const [written, texts, { answers: right }] = [lessons[code][name], textsIn(code), await solveLesson(name)];
    await calls.press(browser, `[data-lesson="${name}"]`);
    await browser.value("document.activeElement.blur()");
    for (const [place, step] of DONE[name].entries()) {
        const where = `step ${place + 1} of ${name} in ${code}`;
        try {
            await reached(browser, place);
            await atStep(place);
            await step.first?.(browser, calls);
            await errs(browser, calls, step, written.steps[place], right[place], texts);
            assert.deepEqual(await unseen(browser, [`${NOW} .what`, `${NOW} .controls-of-step > *`, ...step.sees]), [], "not seen");
            assert.equal(await browser.value("scrollY"), 0);
            await step.does?.(browser, calls);
            if (step.says !== undefined) await answers(browser, right[place]);
            await ticked(browser, place + 1);
            assert.deepEqual(
                [
                    await unseen(browser, ["#step-next"]),
                    await browser.value("document.querySelector('#step-next').classList.contains('primary')"),
                ],
                [[], true]
            );
            await next(browser);
        } catch (failure) {
            failure.message = `${where}: ${failure.message}`;
            throw failure;
        }
    }
    await browser.waitFor(`document.querySelector('.lesson-end').textContent === ${JSON.stringify(written.end)}`);
}

/** A lesson in both languages, in the window of a usual screen, and what comes after it. */
const inBoth = (name, then = () => {}) => async (browser, calls) => {
    await browser.size(1366, 768);
    for (const code of ["de", "en"]) {
        await browser.open(`${calls.address}?lang=${code}&door=learn`);
        await goThrough(browser, calls, name, code, async (place) => {
            if (name === "rewriting" && code === "en" && place === 14) await calls.picture(browser, "learn");
        });
    }
    await then(browser, calls);
    await browser.size(1500, 1250);
};

/** The address names a lesson; the name of a part begins it anew, and a change of the language changes the words alone. */
async function partsOfLessons(browser, calls) {
    const { address, press, steps: stepped, settled, textOf } = calls;
    await browser.open(`${address}?lang=en&lesson=nonesuch`);
    assert.equal(
        await textOf(browser, "#notice"),
        "The address of this page names an unknown lesson: nonesuch. The lessons are a-computer-on-a-drum, where-a-word-costs-least, rewriting, reading-a-listing, what-can-a-forecast-know."
    );
    await browser.open(`${address}?lang=en&lesson=rewriting`);
    await reached(browser, 0);
    assert.equal(await textOf(browser, ".lesson summary"), lessons.en.rewriting.title);
    await press(browser, ".lesson h3:nth-of-type(3) button");
    await reached(browser, 10);
    await stepped(browser, 3);
    await ticked(browser, 1);
    await press(browser, ".lesson h3:nth-of-type(3) button");
    await ticked(browser, 0);
    await reached(browser, 10);
    await settled(browser);
    assert.deepEqual(await browser.value("[laboratoryOfPage().panel.counter, laboratoryOfPage().panel.status]"), ["0000", "going"]);
    await stepped(browser, 3);
    await ticked(browser, 1);
    await next(browser);
    await reached(browser, 11);
    await browser.value(
        "(() => { const it = document.querySelector('#language'); it.value = 'de'; it.dispatchEvent(new Event('change')); })()"
    );
    await settled(browser);
    await reached(browser, 11);
    assert.equal(await textOf(browser, `${NOW} .what`), plainly(lessons.de.rewriting.steps[11].text));
    assert.deepEqual([await doneIn(browser), await browser.value("laboratoryOfPage().panel.counter")], [1, "0005"]);
    await lessonAtWidths(browser, calls);
}

/** What a system shows that has none of the page's faces for labels: a wider one. */
const WIDE_FACE = '"DejaVu Sans", Verdana, sans-serif';

/**
 * Head, step, Next and the time line are in one window on each screen, and nothing is scrolled sideways; on a telephone the drum stands
 * above the step.
 */
async function lessonAtWidths(browser, { sideways }) {
    const isWide = () => browser.value("document.documentElement.scrollWidth <= innerWidth");
    for (const [width, height] of [[390, 844], [768, 1024], [1024, 768], [1366, 768]]) {
        await browser.size(width, height);
        assert.deepEqual([await sideways(browser), await isWide()], [[], true], `at ${width}`);
        assert.deepEqual(
            await unseen(browser, [
                "header .doors", drum, `${NOW} .what`, `${NOW} .controls-of-step > *`, "#step-back", "#step-next", ".along input", "#step",
                "#go-on", "#back", clock,
            ]),
            [],
            `at ${width}`
        );
        assert.deepEqual(
            [...await hiddenTexts(browser), ...await unhit(browser)].filter((trouble) => (
                width > 760 || !/beyond the window|is not hit but undefined/.test(trouble)
            )),
            [],
            `at ${width}`
        );
        const numbers = await numbersOf(browser);
        assert.ok(numbers >= 12.9, `numbers of the drum at ${width}: ${numbers}`);
    }
    for (const labels of [WIDE_FACE, ""]) {
        await browser.value(`document.documentElement.style.setProperty("--labels", ${JSON.stringify(labels)})`);
        for (const [width, height] of [[1280, 720], [1920, 1080]]) {
            await browser.size(width, height);
            assert.deepEqual(
                [
                    await unseen(browser, [`${NOW} .what`, "#step", "#step-next", drum, scope, clock, ".listing form", paper]),
                    await isWide(),
                ],
                [[], true],
                `at ${width} ${labels}`
            );
        }
    }
    await browser.size(1500, 1250);
}

/** The race: five addresses are changed in the source, and the profile tells the result. */
async function race(browser, { press, textOf }) {
    await press(browser, '.doors [data-door-to="work"]');
    const places = ["0225", "0226", "0227", "0228", "0300"];
    await browser.write(
        ["wage", "rent", "food", "coal", "fares"].reduce(
            (text, name, at) => text.replace(new RegExp(`org \\d{4}\n${name}`), `org ${places[at]}\n${name}`), await browser.written()
        )
    );
    for (const selector of ["#load", ".profile button"]) await press(browser, selector);
    await browser.reveal(".profile");
    assert.match(await textOf(browser, ".profile"), /2,355 orders, 25,189 word times, 393\.5 turns of the drum/);
}

const VISITS = {
    lessonOfADrum: inBoth("a-computer-on-a-drum"), lessonOfRewriting: inBoth("rewriting"), lessonOfAListing: inBoth("reading-a-listing"),
    lessonOfWeather: inBoth("what-can-a-forecast-know"), lessonOfCosts: inBoth("where-a-word-costs-least", race), partsOfLessons,
};

/** The visits of the lessons, by their names, with the calls of the other visits. */
export const lessonVisits = (calls) => (
    Object.fromEntries(Object.entries(VISITS).map(([name, visit]) => [name, (browser) => visit(browser, calls)]))
);
