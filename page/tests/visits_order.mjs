// Visits of the order under way: at each picture the list, the ring, its pin, the hub, the register and what is told speak of one order,
// which is one that the monitor has told.
import assert from "node:assert/strict";
import { KIOSK } from "../exhibit.mjs";
import { checkOf, examplesOfPart } from "./exhibited.mjs";
import { chance } from "./visits_kiosk.mjs";

const settled = (browser) => browser.value("laboratoryOfPage().settled()");

/**
 * In the page: looks at each picture at all that shows the order under way, and keeps what does not agree, which phases were seen, and
 * which orders were under way below which caption of a story, or the last ones done.
 */
export const WATCH = `(() => {
    const seen = globalThis.seen = { pictures: 0, phases: new Set(), captions: new Set(), wrong: [], isOn: true };
    const textOf = (selector) => document.querySelector(selector)?.textContent ?? null;
    const look = () => {
        if (!seen.isOn) return;
        requestAnimationFrame(look);
        const laboratory = laboratoryOfPage();
        const phase = document.querySelector(".drum .fixed")?.dataset.phase;
        if (laboratory.isActing || !["find", "take", "seek", "act", "done"].includes(phase)) return;
        // an order that the console gives lies nowhere on the drum: it has no row, no pin and no sector
        const row = document.querySelector("tr.now");
        const pin = document.querySelector(".drum .pin.now:not(.away)");
        const sector = textOf(".drum .cell.now text");
        const order = textOf(".drum .hub-order");
        const told = laboratory.accounts.some((account) => account.at === (pin?.dataset.address ?? null) && account.order.startsWith(order));
        const caption = document.querySelector(".kiosk-told")?.dataset.of ?? "";
        const register = [...document.querySelectorAll(".trace-value")][1]?.querySelector("small")?.textContent.split(" ").slice(0, 2).join(" ") ?? order;
        // once it is done, the console may fill the register with a word that no order was
        const isTaken = phase === "seek" || phase === "act" || (phase === "done" && register !== "");
        const places = [row?.dataset.address ?? pin?.dataset.address, pin?.dataset.address, caption === "" ? pin?.dataset.address : caption];
        const isOne = new Set(places).size === 1 && (places[0] === undefined ? sector === null : Number(sector) === Number(places[0].slice(2))) && (row === null || row.dataset.phase === phase) && (!isTaken || register === order);
        seen.pictures += 1;
        seen.phases.add(phase);
        const below = document.querySelector(".caption[aria-busy=false]");
        if (below !== null) seen.captions.add([below.dataset.story, parseInt(textOf(".caption-at")), phase === "done" ? "done" : "under way", places[0]].join(" "));
        if (!isOne || !told || document.querySelectorAll('.words-table [aria-current="step"]').length > 1) seen.wrong.push([phase, sector, order, register, told, row?.dataset.phase, ...places].join(" "));
    };
    look();
})()`;

/** Ends the looking. Gives the pictures, the phases, what was seen below captions, and the first ones that did not agree. */
export const SEEN =
    "(() => { const { seen } = globalThis; seen.isOn = false; return { pictures: seen.pictures, phases: [...seen.phases].sort(), captions: [...seen.captions], wrong: seen.wrong.slice(0, 3) }; })()";

/** What is looked at: an address, and what sets the machine going there. */
const DOORS = {
    look: [
        "?lang=en&story=2",
        async (browser) => {
            for (let caption = 0; caption < 3; caption += 1) {
                await browser.press("#caption-next");
                await browser.waitFor("document.querySelector('.drum .fixed').dataset.phase === 'done'");
            }
        },
    ],
    paper: [
        "?lang=en&story=3&caption=2",
        (browser) => (
            browser.waitFor("laboratoryOfPage().history.behind >= 5 && document.querySelector('.drum .fixed').dataset.phase === 'done'")
        ),
    ],
    learn: [
        "?lang=en&lesson=rewriting&step=12",
        async (browser) => {
            await browser.press("#step");
            await browser.waitFor("document.querySelector('.drum .fixed').dataset.phase === 'done'");
        },
    ],
    learnByOrder: [
        "?lang=en&lesson=rewriting&step=12",
        async (browser) => {
            const before = await browser.value("laboratoryOfPage().history.behind");
            await browser.go("order");
            await browser.waitFor(
                `laboratoryOfPage().history.behind >= ${before + 2} && document.querySelector('.drum .fixed').dataset.phase === 'done'`
            );
            await browser.halt();
        },
    ],
    task: ["?lang=en&task=sum", async (browser) => {
        await browser.write("start   b 0300\n        a 0301\n        h 0302\n        z\n        end start", ".task-desk");
        await browser.press("#put-task");
        await browser.waitFor("document.querySelector('.task-answer').textContent !== ''");
        await settled(browser);
        const before = await browser.value("laboratoryOfPage().history.behind");
        await browser.go("slow");
        await browser.waitFor(
            `laboratoryOfPage().history.behind >= ${before + 2} && document.querySelector('.drum .fixed').dataset.phase === 'done'`
        );
        await browser.halt();
    }],
    byOrder: [
        "?lang=en#self-modifying",
        async (browser) => {
            await browser.go("order");
            await browser.waitFor("laboratoryOfPage().history.behind >= 3");
            await browser.halt();
        },
    ],
    slow: [
        "?lang=en#subroutine",
        async (browser) => {
            await browser.go("slow");
            await browser.waitFor("laboratoryOfPage().notice?.kind === 'rule'");
            await browser.press("#notice button:last-of-type");
            await browser.go("slow");
            await browser.waitFor("laboratoryOfPage().history.behind >= 4");
            await browser.halt();
        },
    ],
    own: [
        "?lang=en#self-modifying",
        async (browser) => {
            await browser.go("own");
            await browser.waitFor(
                "laboratoryOfPage().panel.status === 'halted stop' && document.querySelector('#go-on').dataset.on === 'false'"
            );
        },
    ],
    fast: [
        "?lang=en#self-modifying",
        async (browser) => {
            await browser.go("fast");
            await browser.waitFor("laboratoryOfPage().panel.status === 'halted stop'");
            await browser.press("#back");
        },
    ],
    kiosk: [
        "?lang=en&kiosk=message",
        (browser) => browser.waitFor("laboratoryOfPage().history.behind >= 12 && document.querySelector('.kiosk-told code') !== null"),
    ],
    kioskStory: [
        "?lang=en&kiosk=self-modifying",
        async (browser) => {
            for (let order = 1; order <= 3; order += 1) {
                await browser.press(order === 1 ? "#kiosk-1" : "#kiosk-2");
                await browser.waitFor(
                    `document.querySelector('.kiosk-hint').textContent === 'Order ${order}' && laboratoryOfPage().history.behind === ${order} && document.querySelector('.drum .fixed').dataset.phase === 'done'`
                );
            }
        },
    ],
};

async function orderUnderWay(browser, address) {
    let pictures = 0;
    await browser.size(1366, 768);
    for (const [door, [query, goes]] of Object.entries(DOORS)) {
        await browser.open(address + query);
        await settled(browser);
        await browser.value(`void ${WATCH}`);
        await goes(browser);
        await settled(browser);
        await browser.value("new Promise((resolve) => requestAnimationFrame(() => requestAnimationFrame(resolve)))");
        const seen = await browser.value(SEEN);
        assert.deepEqual(
            [seen.wrong, seen.pictures > 0, seen.phases.includes("done")], [[], true, true], `${door}: ${JSON.stringify(seen)}`
        );
        pictures += seen.pictures;
    }
    await browser.open(`${address}?lang=en&door=work`);
    await browser.size(1500, 1250);
    return `${pictures} pictures`;
}

/** How often visitors touch each example at each size of a window, and these sizes. */
const [TOUCHES, SIZES] = [Number(process.env.TOUCHES ?? 20), [[1024, 768], [1920, 1080], [1080, 1920]]];
/** The keys that visitors press: those of the buttons, the second one more often than the others, and some that are none. */
const KEYS = ["1", "2", "2", "2", "2", "2", "2", "3", "4", "x", "Enter", "Escape"];

/**
 * In the page: presses keys and touches places, waits after each for some pictures, or for the machine as well, and gives what the kiosk is
 * then.
 */
const touchedBy = (touches) => `(async () => {
    const seen = [];
    const picture = () => new Promise((resolve) => requestAnimationFrame(() => setTimeout(resolve)));
    for (const { key, x, y, pause } of ${JSON.stringify(touches)}) {
        if (key === undefined) document.elementFromPoint(x, y)?.dispatchEvent(new MouseEvent("click", { bubbles: true, cancelable: true, clientX: x, clientY: y }));
        else document.body.dispatchEvent(new KeyboardEvent("keydown", { key, bubbles: true, cancelable: true }));
        if (pause === 0) await laboratoryOfPage().settled();
        for (let left = pause; left >= 0; left -= 1) await picture();
        const { printed, script, isActing } = laboratoryOfPage();
        const black = [...document.querySelectorAll(".kiosk-bar .primary")].length;
        seen.push({ state: document.body.dataset.state, buttons: document.querySelectorAll(".kiosk-bar button").length, black, caption: document.querySelector(".kiosk-told")?.textContent ?? "", program: script?.name ?? null, paper: isActing ? "" : printed.text });
    }
    return seen;
})()`;

/**
 * Visitors touch an example in a window: at each picture caption, hub, pin and register are of one order, and after each touch the paper is
 * a beginning of what the program prints, and something is told.
 */
async function touchedIn(browser, address, name, checks, [width, height]) {
    const among = chance(width + name.length);
    const touches = Array.from(
        { length: TOUCHES },
        () => ({ pause: among(8), ...(among(4) === 0 ? { x: among(width), y: among(height) } : { key: KEYS[among(KEYS.length)] }) })
    );
    await browser.size(width, height);
    await browser.open(`${address}?lang=en&kiosk=${name}`);
    await browser.value(`void ${WATCH}`);
    const after = await browser.value(touchedBy(touches));
    const { wrong, pictures } = await browser.value(SEEN);
    const isWell = ({ state, buttons, black, caption, program, paper }) => (
        ["attract", "story", "show", "end", "matches", "faster"].includes(state)
            && buttons === 4
            && black <= 1
            && caption !== ""
            && (program === null || checks[program]?.(paper) !== false)
    );
    assert.deepEqual(
        [wrong, after.filter((it) => !isWell(it)).slice(0, 3), after.length], [[], [], TOUCHES], `${name} at ${width} by ${height}`
    );
    return pictures;
}

/** Each example of the kiosk is touched at random in three windows; PART says which of them, since many touches take long. */
async function touchedAtRandom(browser, address) {
    let pictures = 0;
    const game = await checkOf(KIOSK.game);
    for (const name of examplesOfPart) {
        const checks = { [name]: await checkOf(name), [KIOSK.game]: game };
        for (const size of SIZES) pictures += await touchedIn(browser, address, name, checks, size);
    }
    assert.ok(pictures > examplesOfPart.length, `only ${pictures} pictures had an order under way`);
    await browser.open(`${address}?lang=en&door=work`);
    await browser.size(1500, 1250);
    return `${examplesOfPart.length} examples, ${TOUCHES} touches each in ${SIZES.length} windows, ${pictures} pictures of an order under way`;
}

const VISITS = { orderUnderWay, touchedAtRandom };

/** The visits of the page at an address, by their names. */
export const visitsOfOrder = (address) => (
    Object.fromEntries(Object.entries(VISITS).map(([name, visit]) => [name, (browser) => visit(browser, address)]))
);
