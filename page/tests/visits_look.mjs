// Visits of Look: in every caption of every story head, caption, Next and the row that changes are in one window, on each screen; and what
// is told is true of what is shown.
import assert from "node:assert/strict";
import { sectorAt } from "../machine.mjs";
import { TALES } from "../views/tales.mjs";
import { signedOf } from "../../libraries/javascript/replies.mjs";
import { boxes, hiddenTexts, laidOut, numbersOf, unhit, unseenAtLast } from "./seen.mjs";
import { SEEN, WATCH } from "./visits_order.mjs";

const settled = (browser) => browser.value("laboratoryOfPage().settled()");
const SIZES = [[1366, 768], [1280, 720], [1024, 768], [390, 844]];

/**
 * The rows that a caption is about: the next order, and what the last one has written, as far as it is among the words around the counter.
 */
const rowsOf = (browser) => browser.value(
    "(({ panel, accounts, words }) => [panel.counter, accounts.at(-1)?.stored?.address].filter((it) => words.some(({ address }) => address === it)).map((address) => `tr[data-address='${address}']`))(laboratoryOfPage())"
);

/** Goes to a caption, to the first one by its address and to the others by Next, with what it plays played to its end. */
async function caption(browser, address, code, story, at) {
    if (at === 1) await browser.open(`${address}?lang=${code}&story=${story}`);
    else await browser.press("#caption-next");
    await browser.waitFor(
        `document.querySelector('.caption-at').textContent.startsWith('${at} ') && document.querySelector('.caption').getAttribute('aria-busy') === 'false'`
    );
    await settled(browser);
    for (let halts = 0; halts < 2; halts += 1) {
        await browser.halt();
        await settled(browser);
    }
}

/**
 * Head, caption, Next and the rows that a caption is about are seen together. What a program does that runs on is stopped at any of its
 * orders.
 */
async function together(browser, address) {
    for (const code of ["en", "de"]) for (const [story, { plays, name }] of TALES.entries()) for (const at of plays.keys()) {
        await caption(browser, address, code, story + 1, at + 1);
        for (const [width, height] of SIZES) {
            await browser.size(width, height);
            const where = `${name}, caption ${at + 1}, ${code}, at ${width} by ${height}`;
            const rows = TALES[story].runs && at === plays.length - 1 ? [] : await rowsOf(browser);
            assert.deepEqual(
                await unseenAtLast(browser, [
                    ...(width > 760 ? [".head-name"] : []), ".hub-phase", ".caption", ".telling > .line button:first-of-type",
                    "#caption-next", ...rows,
                ]),
                [],
                where
            );
            assert.deepEqual(
                [
                    await browser.value(
                        "[scrollY, document.documentElement.scrollHeight <= innerHeight, document.documentElement.scrollWidth <= innerWidth]"
                    ),
                    ...await hiddenTexts(browser),
                    ...await unhit(browser),
                ],
                [[0, true, true]],
                where
            );
            assert.ok(await numbersOf(browser) >= 9.95, where);
            assert.deepEqual(
                await browser.value(
                    "[...document.querySelectorAll('.words-table td.told')].filter((it) => it.checkVisibility() && it.scrollWidth > it.clientWidth + 1).map((it) => it.textContent)"
                ),
                [],
                `${where}: what is said of a word is cut`
            );
        }
    }
    await browser.size(1500, 1250);
}

/** What the machine is while a caption is shown: the last order, the words of the list, the paper, and what the list tells of a word. */
const stateOf = (browser) => browser.value(`(({ accounts, words, printed, history }) => {
    const { at, word, order, find, seek, act, sum, before, after, stored, printed: sign } = accounts.at(-1);
    return {
        last: { at, word, order, find, seek, act, sum, before, after, stored, sign }, paper: printed.text, kept: history.behind,
        orders: Object.fromEntries(words.map(({ address, order: name }) => [address, name])),
        digits: Object.fromEntries(words.map(({ address, digits }) => [address, digits])),
        why: document.querySelector(".why")?.textContent ?? "",
    };
})(laboratoryOfPage())`);

/** What each caption claims, looked up in the machine as it is then. */
const CLAIMS = {
    wait: [
        ({ last }) => last.at === "0000",
        ({ last }) => last.at === "0001" && last.find > 0.7 * 64 && last.find < 0.75 * 64,
        ({ last }) => last.at === "0004" && last.word === "0020" && last.find > 1 && last.seek > 1,
        ({ last }) => (last.find + last.seek - 2) / last.sum > 0.8,
        () => [0, 1, 2, 9].map(sectorAt).join() === "0,57,50,1",
    ],
    rewrite: [
        ({ orders }) => orders["0009"] === "a 0100",
        ({ last, digits }) => last.order === "b 0009" && last.after === digits["0009"],
        ({ last }) => last.order.startsWith("a ") && signedOf(last.after) - signedOf(last.before) === 4,
        ({ last, orders }) => last.stored?.address === "0009" && orders["0009"] === "a 0101",
        ({ last, digits }) => last.stored?.after.digits === digits["0009"],
    ],
    type: [
        ({ orders, paper }) => orders["0013"] === "p 4600" && paper === "",
        ({ last, orders }) => last.stored?.address === "0005" && orders["0005"] === "p 4600",
        ({ last, paper }) => last.sign?.sign === "g" && paper === "g" && Math.floor(last.act / 64) === 6,
        ({ last, orders }) => last.stored?.address === "0002" && orders["0002"] === "b 0014",
        ({ paper }) => paper.length > 0 && "good day".startsWith(paper.trimEnd()),
    ],
    who: [
        ({ orders }) => orders["0009"] === "a 0100",
        ({ last }) => last.order === "y 0009" && last.at === "0013" && last.stored?.address === "0009",
        ({ kept }) => kept === 12,
        ({ why }) => ["0009", "y 0009", "0013", "a 0100"].every((named) => why.includes(named)),
        ({ orders }) => Object.keys(orders).length > 4,
    ],
    rewind: [
        ({ paper }) => paper.startsWith("1\n2\n2\n"),
        ({ last, orders, paper }) => last.sign?.sign === "2" && orders["0000"] === "p 1001" && paper.trimEnd() === "1\n2\n2",
        ({ orders, digits, why }) => orders["0003"] === "a 0012" && digits["0012"] === "00000004" && why.includes("h 0012"),
        ({ last }) => last.at === "0007" && last.stored?.address === "0012" && last.stored.before.digits === "00000400",
        ({ digits }) => digits["0012"] === "00000004",
    ],
};

/**
 * A caption while it is played: what was seen, and the orders seen below it that are neither of those that it plays nor the last one done
 * before.
 */
async function seenBelow(browser, { before, plays, back = [], runs }, at) {
    const [last, kept] = await browser.value(
        "(({ accounts, history }) => [accounts.at(-1)?.at, history.behind])(laboratoryOfPage())"
    );
    const runsOn = runs && at === plays.length - 1;
    await browser.value(`void ${WATCH}`);
    if (at > 0) await browser.press("#caption-next");
    const begun = at === 0 ? before : kept - (back[at - 1] ?? 0);
    await captionPlayed(browser, at + 1, runsOn ? Infinity : begun + plays[at]);
    const seen = await browser.value(SEEN);
    const orders = await browser.value("laboratoryOfPage().accounts.map(({ at }) => at)");
    const [played, done] = [orders.slice(orders.length - plays[at]), [last, orders.at(-1 - plays[at])]];
    const isStray = (phase, place) => !played.includes(place) && !(phase === "done" && (at === 0 || done.includes(place)));
    const below = seen.captions.map((it) => it.split(" ")).filter(([, shown]) => shown === String(at + 1));
    return { ...seen, stray: runsOn ? [] : below.filter((it) => isStray(it.at(-2), it.at(-1))) };
}

/**
 * At each picture of each story the list, the ring, its pin, the hub and the register are of one order; that is one that the caption plays,
 * or the last one done before; and what a caption claims is so of the machine.
 */
async function captionsAreSo(browser, address) {
    let pictures = 0;
    await browser.size(1366, 768);
    for (const code of ["en", "de"]) for (const [story, tale] of TALES.entries()) for (const at of tale.plays.keys()) {
        if (at === 0) await browser.open(`${address}?lang=${code}&story=${story + 1}`);
        const seen = await seenBelow(browser, tale, at);
        const [where, state] = [`${tale.name}, caption ${at + 1}, ${code}`, await stateOf(browser)];
        assert.deepEqual([seen.wrong, seen.stray, seen.pictures > 0], [[], [], true], where);
        assert.ok(CLAIMS[tale.name][at](state), `${where}: ${JSON.stringify(state)}`);
        pictures += seen.pictures;
    }
    await browser.size(1500, 1250);
    return `${pictures} pictures`;
}

/** Waits until a caption is there and what it plays is played to its end; where it runs on, until it has printed something. */
async function captionPlayed(browser, at, kept) {
    await browser.waitFor(
        `document.querySelector('.caption-at').textContent.startsWith('${at} ') && document.querySelector('.caption').getAttribute('aria-busy') === 'false'`
    );
    if (kept === Infinity) {
        await browser.waitFor("laboratoryOfPage().printed.text.length > 2");
        await browser.halt();
    }
    await browser.waitFor(
        `(${kept} === Infinity || laboratoryOfPage().history.behind === ${kept}) && document.querySelector('.drum .fixed').dataset.phase === 'done'`
    );
    await settled(browser);
    await laidOut(browser);
}

/**
 * Look plays its first story by itself, with Back and Next; a story that prints shows the paper in place of the accumulator, and an act of
 * many turns says that it passes faster.
 */
async function printing(browser, address) {
    await browser.open(`${address}?lang=en&door=look`);
    const seen = () => browser.value(
        "['.paper', '.scope', '#caption-next', '.pace', '.console', '.flexo-body'].filter((it) => document.querySelector(it)?.checkVisibility())"
    );
    await browser.waitFor(
        "document.querySelector('.caption-at').textContent === '1 of 5' && document.querySelector('.drum-box').dataset.moving === 'true'"
    );
    assert.deepEqual(await seen(), [".scope", "#caption-next"]);
    await browser.open(`${address}?lang=en&story=2`);
    assert.deepEqual(await seen(), [".scope", "#caption-next"]);
    await browser.open(`${address}?lang=en&story=3&caption=2`);
    assert.deepEqual(await seen(), [".paper", "#caption-next"]);
    await browser.waitFor("document.querySelector('.caption').getAttribute('aria-busy') === 'false'");
    await browser.press("#caption-next");
    await browser.waitFor("document.querySelector('.hub-below').textContent === '6 turns, faster'");
    await browser.waitFor("document.querySelector('.paper').textContent === 'g'");
}

/** What follows the last story is the game. */
async function gameAfterStories(browser, address) {
    await browser.open(`${address}?lang=en&story=5&caption=5`);
    await settled(browser);
    await browser.waitFor("document.querySelector('#caption-next').textContent === 'Make it faster'");
    await browser.press("#caption-next");
    await browser.waitFor(
        "document.querySelector('.faster')?.getAttribute('aria-busy') === 'false' && document.body.hasAttribute('data-game')"
    );
    const [colours, said] = [new Set(), new Set()];
    for (const word of ["0021", "0022", "0024"]) for (let place = 0; place < 64; place += 1) {
        if (place === 0) await browser.value(`document.querySelector('.faster .grip[data-word="${word}"]').focus()`);
        await browser.strike("ArrowRight");
        const [told, cells] = await browser.value(
            "[document.querySelector('.game .lead').textContent, [...document.querySelectorAll('.faster .round td:last-child')].filter((it) => it.textContent !== '').map((it) => [it.textContent[0], getComputedStyle(it).color].join(' '))]"
        );
        for (const cell of cells) colours.add(cell);
        if (/saves nothing|more than at first/.test(told)) {
            said.add(/ For \w at \d{4} it comes \d+ places? too (late|early)/.exec(told)?.[1] ?? told);
        }
    }
    const [more, less] = ["+", "−"].map((sign) => [...colours].filter((it) => it.startsWith(sign)).map((it) => it.slice(2)));
    assert.deepEqual([more.length, less.length, more[0] === less[0]], [1, 1, false], [...colours].join("; "));
    assert.ok(said.size > 0 && [...said].every((it) => ["late", "early"].includes(it)), [...said].join("; "));
}

/** The drum of the hall can be taken at once: a turn by hand is told, and a while after it the drum goes on. */
async function hallDrum(browser, address) {
    await browser.open(`${address}?lang=en&door=hall`);
    const [x, y] = await browser.value(
        "(({ left, top, width, height }) => [left + width * 0.9, top + height / 2].map(Math.round))(document.querySelector('.drum-box .well').getBoundingClientRect())"
    );
    await browser.lead([[x, y], "down", [x - 8, y + 60], [x - 30, y + 120]]);
    assert.match(await browser.value("document.querySelector('.drum-box').dataset.turned ?? ''"), /^[+−]\d+ word times$/);
    assert.equal(await browser.value("document.querySelector('#hall-stop').textContent"), "Let it turn");
    await browser.lead(["up"]);
    await browser.waitFor(
        "document.querySelector('.drum-box').dataset.moving === 'true' && document.querySelector('#hall-stop').textContent === 'Stop'"
    );
    await browser.press("#hall-stop");
    await settled(browser);
}

/**
 * Holds back what the page sends to its laboratories, from the first line on that opens a source or puts a word in, until `letGo` is
 * called: the machine is not there yet, however fast it would be.
 */
const HOLDS_BACK = `(() => {
    const [Real, held] = [globalThis.Worker, []];
    let isHeld = false;
    globalThis.Worker = class extends Real {
        postMessage(message) {
            isHeld ||= /^(put |source)/.test(message.lines?.[0] ?? "");
            if (isHeld) held.push(() => super.postMessage(message));
            else super.postMessage(message);
        }
    };
    globalThis.isHeldBack = () => held.length > 0;
    globalThis.letGo = () => { held.forEach((send) => send()); globalThis.Worker.prototype.postMessage = Real.prototype.postMessage; };
})()`;

/** No caption speaks of a machine that is not there yet. */
async function captionsWait(browser, address) {
    if (browser.preload === undefined) return "but not looked at, since this browser's page cannot be changed before it begins";
    const release = await browser.preload(HOLDS_BACK);
    try {
        await browser.navigate("about:blank");
        await browser.navigate(`${address}?lang=en&story=2&caption=3`);
        await browser.waitFor("document.querySelector('.caption')?.getAttribute('aria-busy') === 'true'");
        assert.deepEqual(
            await browser.value("[document.querySelector('.caption').textContent, document.querySelector('.caption-at').textContent]"),
            ["", "3 of 5"]
        );
        await browser.value("void letGo()");
        await browser.waitFor("document.querySelector('.caption').textContent.startsWith('… adds one to the address')");
        assert.notEqual(await browser.value("laboratoryOfPage().words[0].digits"), "00000000");
    } finally {
        await release?.();
    }
    return undefined;
}

/** What is told of the machine, where it is. */
const TELLS =
    ".fixed text:not(.head-name), .pin, .words-table td, .trace-value code, .kiosk-told, .way, .when, .told-tabs p, .story p, .score, .caption";

/** Until the machine is there nothing is told of it, in no section; and nothing that can be seen moves when it is there. */
async function quietAtFirst(browser, address) {
    if (browser.preload === undefined) return "but not looked at, since this browser's page cannot be changed before it begins";
    const release = await browser.preload(HOLDS_BACK);
    try {
        for (const query of ["door=hall", "story=1", "door=work#self-modifying", "kiosk=message", "game=faster"]) {
            await browser.navigate("about:blank");
            await browser.navigate(`${address}?lang=de&${query}`);
            await browser.waitFor("isHeldBack()");
            await laidOut(browser);
            assert.deepEqual(
                await browser.value(
                    `[...document.querySelectorAll(${JSON.stringify(TELLS)})].filter((it) => it.textContent.trim() !== "" && it.checkVisibility({ visibilityProperty: true })).map((it) => it.textContent)`
                ),
                [],
                query
            );
            const placesNow = async () => [
                ...await boxes(browser),
                ...await browser.value(
                    "[...document.querySelectorAll('.listing, .sheet, .game > *')].filter((it) => it.checkVisibility({ visibilityProperty: true }) && it.textContent !== '').map((it) => `${it.className} ${Math.round(it.getBoundingClientRect().top)}`)"
                ),
            ];
            const before = await placesNow();
            await browser.value("void letGo()");
            await browser.waitFor(
                "document.documentElement.dataset.ready === 'true' && [...document.querySelectorAll('.faster[aria-busy=true]')].every((it) => !it.checkVisibility())"
            );
            const after = new Set(await placesNow());
            assert.deepEqual(before.filter((it) => !after.has(it)), [], query);
        }
    } finally {
        await release?.();
    }
    return undefined;
}

/** A button of the game has its name before the machine is there. */
async function namesAtOnce(browser, address) {
    if (browser.preload === undefined) return "but not looked at, since this browser's page cannot be changed before it begins";
    const release = await browser.preload(HOLDS_BACK);
    try {
        await browser.navigate("about:blank");
        await browser.navigate(`${address}?lang=en&game=faster`);
        await browser.waitFor("document.querySelector('#faster-why')?.checkVisibility()");
        const nameless =
            "[...document.querySelectorAll('#page button')].filter((it) => it.checkVisibility() && it.textContent.trim() === '' && it.getAttribute('aria-label') === null).map(({ id }) => id)";
        assert.deepEqual(await browser.value(`[document.querySelector('.faster').getAttribute('aria-busy'), ${nameless}]`), ["true", []]);
        await browser.value("void letGo()");
        await browser.waitFor("document.querySelector('.faster').getAttribute('aria-busy') === 'false'");
        assert.equal(await browser.value("document.querySelector('#faster-why').getAttribute('aria-disabled')"), "false");
    } finally {
        await release?.();
    }
    return undefined;
}

const VISITS = {
    captionsAreSo, captionsWait, namesAtOnce, quietAtFirst, gameAfterStories, hallDrum, lookTogether: together, lookPrinting: printing,
};

/** The visits of Look, by their names. */
export const visitsOfLook = (address) => (
    Object.fromEntries(Object.entries(VISITS).map(([name, visit]) => [name, (browser) => visit(browser, address)]))
);
