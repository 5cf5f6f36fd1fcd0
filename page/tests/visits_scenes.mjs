// A visit of scenes: what a visitor sees at each door and in the exhibits, brought up at the size of a screen, in both languages, and
// looked at light, dark, in forced colours, and where nothing may move: nothing is cut, covered, too small or beyond the window, and what
// each scene has to have is there and as large as it has to be. The exhibits take long, and are looked at in German, whose words are
// longer; SCENES=all looks at them in English too.
import assert from "node:assert/strict";
import { hiddenTexts, laidOut, numbersOf, unhit } from "./seen.mjs";
import { isDone, isIn, open, strike } from "./visits_exhibits.mjs";
import { smallTexts } from "./visits_kiosk.mjs";

const settled = (browser) => browser.value("laboratoryOfPage().settled()");
/** What a reader may ask of a page, besides what is usual. */
const MODES = [
    {}, { "prefers-color-scheme": "dark" }, { "forced-colors": "active" }, { "prefers-reduced-motion": "reduce" },
];
/** How long a scene of an exhibit may take, at a busy computer. */
const LONG = 300_000;

/** In the page: the box of what a selector names. */
const box = (selector) => `document.querySelector(${JSON.stringify(selector)}).getBoundingClientRect()`;
/** How many rows of a list are whole in it. */
const rowsIn = (list, rows) => `(() => {
    const { top, bottom } = ${box(list)};
    return [...document.querySelectorAll(${JSON.stringify(rows)})].map((it) => it.getBoundingClientRect()).filter((it) => it.height > 0 && it.top >= top - 1 && it.bottom <= bottom + 1).length;
})()`;
/** Texts in which more is written than is seen. */
const cutTexts = (selector) => `[...document.querySelectorAll(${JSON.stringify(selector)})].filter((it) => it.checkVisibility() && (it.scrollHeight > it.clientHeight + 1 || it.scrollWidth > it.clientWidth + 1)).map(({ textContent }) => textContent)`;
/** Lists with a bar of the browser's own. */
const BARS = "[...document.querySelectorAll('#page *')].filter((it) => it.checkVisibility() && it.clientWidth > 0 && getComputedStyle(it).display !== 'inline').filter((it) => { const { borderLeftWidth: left, borderRightWidth: right } = getComputedStyle(it); return /auto|scroll/.test(getComputedStyle(it).overflowY) && it.offsetWidth - it.clientWidth - parseFloat(left) - parseFloat(right) > 1; }).map((it) => it.tagName + '.' + it.className)";
/** The lines of the paper that stand in more than one row. */
const BROKEN = `(() => {
    const range = document.createRange();
    range.selectNodeContents(document.querySelector(".paper"));
    const rows = new Set([...range.getClientRects()].filter(({ width }) => width > 0).map(({ bottom }) => Math.round(bottom)));
    return rows.size - laboratoryOfPage().printed.text.split("\\n").filter((line) => line.trim() !== "").length;
})()`;
/** Texts in the hub of the drum that lie upon one another. */
const UPON = `(() => {
    const texts = [...document.querySelectorAll(".fixed text[class^='hub-']")].filter((it) => it.checkVisibility() && it.textContent !== "");
    const middles = texts.map((it) => [it, (({ top, bottom }) => (top + bottom) / 2)(it.getBoundingClientRect()), parseFloat(getComputedStyle(it).fontSize) * it.getScreenCTM().a]);
    return middles.flatMap(([one, at, size], place) => middles.slice(place + 1).filter(([, other, its]) => Math.abs(other - at) < 0.75 * Math.min(size, its)).map(([other]) => one.textContent + " upon " + other.textContent));
})()`;

/** The scenes outside of the kiosk: their window, how each is brought up, and what holds there, as an expression and its value. */
const DOORS = {
    hall: [[1366, 768], "&door=hall", async (browser) => {
        const [x, y, radius] = await browser.value(
            `(({ left, top, width, height }) => [left + width / 2, top + height / 2, width * 0.44])(${box(".drum-box .well")})`
        );
        const places = Array.from({ length: 10 }, (unused, at) => [
            Math.round(x + radius * Math.cos(at * Math.PI / 18)), Math.round(y - radius * Math.sin(at * Math.PI / 18)),
        ]);
        await browser.lead([places[0], "down", ...places.slice(1)]);
        await browser.waitFor("/^\\+1[5-7] /.test(document.querySelector('.drum-box').dataset.turned)");
    }, {
        "[document.querySelector('.drum-box').dataset.turned.split(' ')[0], document.querySelector('.hub-count').textContent].every((it) => document.querySelector('.by-hand').textContent.includes(it))": true,
        [`${box(".drum-box")}.width >= 0.4 * innerWidth`]: true,
    }],
    paper: [[1366, 768], "&story=3&caption=3", (browser) => browser.waitFor("document.querySelector('.paper').textContent === 'g'"), {
        [`${box(".flexowriter")}.width >= 520`]: true,
        "Math.min(...[...document.querySelectorAll('.keys .key')].map((it) => it.getBoundingClientRect().height)) >= 23.9": true,
        "document.querySelector('.code-plate b').textContent": "g",
    }],
    order: [[1366, 768], "&story=2&caption=4", async (browser) => {
        await browser.waitFor("document.querySelector('.drum .fixed').dataset.phase === 'done'");
        await settled(browser);
    }, {
        [`${rowsIn(".listing .with-arrows", ".words-table tbody tr")} >= 8`]: true,
        [cutTexts(".words-table td.told")]: [],
        "document.querySelectorAll('.words-table [aria-current=\"step\"]').length": 1,
        "document.querySelector('.pin.now').dataset.address === document.querySelector('tr.now').dataset.address": true,
    }],
    learn: [[1024, 768], "&lesson=a-computer-on-a-drum&step=9", settled, {
        [`${box(".cabinet")}.width >= 0.55 * innerWidth`]: true,
        "[...document.querySelectorAll('.cell text')].filter((it) => it.checkVisibility({ visibilityProperty: true })).length": 64,
        "(() => { const names = [...document.querySelectorAll('#page button')].filter((it) => it.checkVisibility()).map(({ textContent }) => textContent); return names.filter((name, place) => names.indexOf(name) !== place); })()": [],
    }, (browser) => numbersOf(browser).then((size) => assert.ok(size >= 12.9, `numbers of ${size} pixels`))],
    ...Object.fromEntries([[1366, 768], [1440, 900]].map((size) => [`work ${size}`, [size, "&door=work#self-modifying", async (browser) => {
        await browser.value("laboratoryOfPage().step(12)");
        await settled(browser);
    }, {
        [`${rowsIn(".source .CodeMirror", ".source .CodeMirror-line")} >= 23`]: true,
        [`${box(".flexowriter")}.width >= 346`]: true,
        [BARS]: [],
    }]])),
    pulledUp: [[1440, 900], "&door=work#weather/lorenz", async (browser) => {
        await browser.value("laboratoryOfPage().runUntil(() => laboratoryOfPage().printed.text.includes('\\n0250'), 20000, 4000000)");
        await settled(browser);
        await browser.press("#pull-up");
        await browser.press("#tear-off");
        await browser.press("[data-name='twoPieces']");
    }, {
        "document.querySelectorAll('.piece-row').length < 140": true,
        [`${box(".pulled-up")}.left >= ${box(".source")}.right && ${box(".pulled-up")}.bottom <= ${box(".pace")}.top`]: true,
        [BARS]: [],
    }],
};

/** What is wrong with what is seen now, in each mode. */
async function lookedAt(browser, where, holds, more) {
    for (const mode of browser.media === undefined ? [{}] : MODES) {
        await browser.media?.(mode);
        await laidOut(browser);
        const what = `${where}, ${JSON.stringify(mode)}`;
        assert.deepEqual([...await hiddenTexts(browser), ...await unhit(browser), ...await browser.value(UPON)], [], what);
        for (const [expression, value] of Object.entries(holds)) assert.deepEqual(await browser.value(expression), value, `${what}: ${expression}`);
        assert.deepEqual(
            await browser.value("[document.documentElement.scrollHeight <= innerHeight, document.documentElement.scrollWidth <= innerWidth]"),
            [true, true],
            what
        );
        await more?.(browser);
    }
    await browser.media?.({});
}

/** What holds in each scene of the kiosk. */
const AT_KIOSK = {
    "document.querySelectorAll('.kiosk-bar button').length": 4,
    "document.querySelectorAll('.kiosk-bar .primary').length <= 1": true,
    [`${box(".kiosk-bar")}.height >= 0.12 * Math.min(innerWidth, innerHeight)`]: true,
    [`${box(".beside, .cabinet")}.top >= 0.145 * Math.min(innerWidth, innerHeight)`]: true,
};
const bets = { ...AT_KIOSK, "document.querySelectorAll('.kiosk-bar .primary').length": 0 };
const rowsOfPaper = (count) => ({
    [`(({ clientHeight }, row) => Math.round(clientHeight / row))(document.querySelector(".sheet"), parseFloat(getComputedStyle(document.querySelector(".paper")).lineHeight)) >= ${count}`]: true,
});
const isLarge = async (browser) => assert.deepEqual(await smallTexts(browser), []);
const [ACROSS, UPRIGHT] = [[1366, 768], [1080, 1920]];

/** The weather: by itself, typed again, and drawn; the loop: the bet, and the carry. */
async function atKiosk(browser, address, code) {
    const look = async (where, sizes) => {
        for (const [size, holds] of sizes) {
            await browser.size(...size);
            await lookedAt(browser, `${where}, ${code}, at ${size}`, holds, isLarge);
        }
        await browser.size(...ACROSS);
    };
    await open(browser, address, "weather", code, ACROSS, "&idle=900");
    await browser.waitFor("laboratoryOfPage().printed.text.includes('\\n0780')", LONG);
    await look("attract", [[ACROSS, { ...AT_KIOSK, ...rowsOfPaper(8) }], [UPRIGHT, { ...AT_KIOSK, ...rowsOfPaper(13) }]]);
    await strike(browser, "2");
    await browser.waitFor(`${isIn("again")} && document.querySelector('.torn .row-now') !== null`, LONG);
    await strike(browser, "1");
    const sameRow = "((told, row) => told === null || row?.textContent.startsWith(told.textContent))(document.querySelector('.row-told'), document.querySelector('.torn .row-now'))";
    await look("again", [[ACROSS, { ...AT_KIOSK, ...rowsOfPaper(8), [sameRow]: true }]]);
    await strike(browser, "3");
    await browser.waitFor(isDone("drawn"), LONG);
    await look("drawn", [[ACROSS, { ...bets, [BROKEN]: 0 }], [UPRIGHT, { ...bets, [BROKEN]: 0 }]]);
    await open(browser, address, "loop", code, ACROSS, "&idle=900");
    await strike(browser, "1");
    await browser.waitFor(isDone("rounds"), LONG);
    await look("bet", [[ACROSS, bets]]);
    await strike(browser, "3");
    await browser.waitFor(`${isIn("carry")} && document.querySelector('.bit.now') !== null`, LONG);
    await strike(browser, "2");
    const bits = "[...document.querySelectorAll('.bit')].every((it) => it.getBoundingClientRect().width >= 50)";
    await look("carry", [[ACROSS, { ...AT_KIOSK, [bits]: true, "document.querySelectorAll('.bit').length": 18 }]]);
}

async function scenes(browser, address) {
    for (const code of ["en", "de"]) {
        for (const [name, [size, query, bring, holds, more]] of Object.entries(DOORS)) {
            await browser.size(...size);
            await browser.open(`${address}?lang=${code}${query}`);
            // what another visit has left is offered above
            await browser.value("document.querySelectorAll('#kept').forEach((it) => { it.hidden = true; })");
            await bring(browser);
            await lookedAt(browser, `${name}, ${code}`, holds, more);
            if (name === "hall") await browser.lead(["up"]);
        }
        if (code === "de" || process.env.SCENES === "all") await atKiosk(browser, address, code);
    }
    await browser.open(`${address}?lang=en&door=work`);
    await browser.size(1500, 1250);
}

/** The visit, by its name. */
export const visitsOfScenes = (address) => ({ scenes: (browser) => scenes(browser, address) });
