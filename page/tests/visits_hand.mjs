// Visits of the drum in the hand: words are carried to other sectors, and what is told of that is what the monitor says, at each sector, by
// hand and by keys.
import assert from "node:assert/strict";
import { readFileSync } from "node:fs";
import { dirname, join } from "node:path";
import { fileURLToPath } from "node:url";
import { SECTORS, sectorOf } from "../addresses.mjs";
import { Controller } from "../controller.mjs";
import { setUpFor } from "../lesson_steps.mjs";
import { positionOf, sectorAt } from "../machine.mjs";
import { ModuleLink } from "../module_link.mjs";
import { PLACING_GAMES, PROGRAMS } from "../placing_game.mjs";
import { disorder, faint, nameless, noteMouse, unreached } from "./access.mjs";
import { isAttract, keptIn } from "./visits_kiosk.mjs";

const top = join(dirname(fileURLToPath(import.meta.url)), "../..");

/** What the orders of a program take with each of its words at each sector, as the monitor says, and what they take as it is. */
async function told({ example, words }) {
    const laboratory = new Controller(new ModuleLink(join(top, "libraries/javascript/lgp_c_region.wasm")));
    await laboratory.open();
    await setUpFor(laboratory, { opens: example }, (name) => readFileSync(join(top, `examples/${name}.txt`), "utf8"));
    await laboratory.run();
    const { accounts, words: costs } = await laboratory.askPlacing(words);
    return {
        accounts,
        took: costs[0].times,
        least: costs[0].times - costs.reduce((sum, { saved }) => sum + saved, 0),
        at: new Map(costs.map(({ address, sectors }) => [address, new Map(sectors.map(({ sector, times }) => [sector, times]))])),
    };
}

const gripOf = (address) => `.faster .grip[data-word='${address}']`;

/** Forgets what was kept of earlier visits: from the kiosk, which keeps nothing. */
async function forget(browser, address) {
    await browser.open(`${address}?kiosk=message`);
    await browser.value(`new Promise((resolve, reject) => {
        for (const name of Object.keys(localStorage)) if (name.startsWith("condugwa/")) localStorage.removeItem(name);
        Object.assign(indexedDB.deleteDatabase("condugwa"), { onsuccess: () => resolve(true), onerror: reject });
    })`);
}

/** Opens the page with a game that nobody has played. */
async function open(browser, address) {
    await forget(browser, address.split("?")[0]);
    await browser.open(address);
    await browser.waitFor("document.querySelector('.faster')?.getAttribute('aria-busy') === 'false'");
}

/** What the game shows: its number, the sum of what is drawn, the turns of a round, the sum of its rows, and of a word the sector. */
const shown = (browser, word) => browser.value(`(() => {
    const numberIn = (selector) => Number(document.querySelector(selector).textContent.replace(/[^0-9]/g, ""));
    const rows = [...document.querySelectorAll(".faster .round tr")].reduce((sum, row) => sum + Number(row.cells[3].textContent), 0);
    return { times: numberIn(".faster .big"), drawn: Number(document.querySelector(".faster .drum-box").dataset.drawn), rows, round: 64 * numberIn(".faster .hub-count"), text: document.querySelector(${JSON.stringify(gripOf(word))}).getAttribute("aria-valuetext") };
})()`);

/** Where the middle of a sector's cell is in the window. */
const placeOf = (browser, sector) => browser.value(`(() => {
    const { left, top, width, height } = document.querySelectorAll(".faster .cell .face")[${sector}].getBoundingClientRect();
    return [left + width / 2, top + height / 2].map(Math.round);
})()`);

const middleOf = (browser, selector) => browser.value(
    `(() => { const { x, y, width, height } = document.querySelector(${JSON.stringify(selector)}).getBoundingClientRect(); return [x + width / 2, y + height / 2].map(Math.round); })()`
);

/**
 * A word is carried over all sectors by the mouse, and then goes through all of them by keys: each number is the monitor's, and so is the
 * sum of what is drawn; other words are elsewhere meanwhile.
 */
async function exact(browser, address) {
    const costs = await told(PROGRAMS[0]);
    await browser.size(1440, 900);
    await open(browser, `${address}?game=faster&lang=en`);
    const sectors = new Map(PROGRAMS[0].words.map((word) => [word, sectorOf(word)]));
    let [compared, least] = [0, Infinity];
    const compare = async (word, sector) => {
        sectors.set(word, sector);
        const wanted = [...sectors].reduce((sum, [it, at]) => sum + costs.at.get(it).get(at), costs.took * (1 - sectors.size));
        const { times, drawn, rows, round, text } = await shown(browser, word);
        assert.deepEqual([times, drawn, rows], [wanted, wanted, round], `${word} at sector ${sector}`);
        assert.match(text, new RegExp(`^sector ${String(sector).padStart(2, "0")}: `));
        [compared, least] = [compared + 1, Math.min(least, times)];
    };
    for (const word of PROGRAMS[0].words) {
        await browser.lead([await middleOf(browser, gripOf(word)), "down"]);
        for (let sector = 0; sector < SECTORS; sector += 1) {
            await browser.lead([await placeOf(browser, sector)]);
            await compare(word, sector);
        }
        await browser.lead(["up"]);
        for (let place = 1; place <= SECTORS; place += 1) {
            await browser.strike("ArrowRight");
            await compare(word, sectorAt(positionOf(63) + place));
        }
        assert.equal(await browser.value("document.activeElement.dataset.word"), word);
        await browser.strike("Home");
        await compare(word, sectorOf(word));
        const best = [...costs.at.get(word)].sort(([, one], [, other]) => one - other)[0][0];
        await browser.lead([await middleOf(browser, `${gripOf(word)} .hold`), "down", await placeOf(browser, best), "up"]);
        await compare(word, best);
    }
    assert.equal(least, costs.least);
    assert.match(await browser.value("document.querySelector('.faster .lead').textContent"), /^Nothing is faster with these 3 words/);
    await browser.size(1500, 1250);
    return `${compared} placings compared`;
}

const leadIn = (browser) => browser.value("document.querySelector('.faster .lead').textContent");
const timesIn = (browser) => browser.value("Number(document.querySelector('.faster .big').textContent.replace(/[^0-9]/g, ''))");
const isRead = "document.querySelector('.faster')?.getAttribute('aria-busy') === 'false'";

/** Moves a word by keys, by a number of places. */
async function carry(browser, word, places) {
    await browser.value(`document.querySelector(${JSON.stringify(gripOf(word))}).focus()`);
    for (let moved = 0; moved < Math.abs(places); moved += 1) await browser.strike(places < 0 ? "ArrowLeft" : "ArrowRight");
}

/** By how many places a word is led to the nearest sector that is best. */
const wayTo = (costs, word) => {
    const best = Math.min(...costs.at.get(word).values());
    const ways = [...costs.at.get(word)].filter(([, times]) => times === best).map(([sector]) => (
        ((positionOf(sector) - positionOf(sectorOf(word)) + 96) % SECTORS) - 32
    ));
    return ways.sort((one, other) => Math.abs(one) - Math.abs(other))[0];
};

/** Why a sector is free is shown, and all words can be put back; then they are carried again. */
async function explained(browser, { words }, costs) {
    const least = Math.min(...costs.at.get(words.at(-1)).values());
    const free = [...costs.at.get(words.at(-1))]
        .filter(([, times]) => times === least)
        .map(([sector]) => sector)
        .sort((one, other) => one - other);
    await browser.press("#faster-why");
    assert.deepEqual(
        await browser.value(
            "[...document.querySelectorAll('.faster .cell')].flatMap((it, sector) => (it.classList.contains('least') ? [sector] : []))"
        ),
        free
    );
    await browser.press("#faster-back");
    assert.deepEqual(
        [await timesIn(browser), await browser.value("document.querySelectorAll('.faster .cell.origin').length")], [costs.took, 0]
    );
    assert.match(await leadIn(browser), /^In the green sectors “sum” costs least/);
    await browser.press("#faster-why");
    for (const word of words) await carry(browser, word, wayTo(costs, word));
}

/** The programs one after another: each is brought to its best by keys, which leads to the next one. */
async function played(browser, address) {
    await browser.size(1440, 900);
    await forget(browser, address);
    await browser.open(`${address}?lang=en&door=look`);
    await browser.press("[data-game-to='faster']");
    await browser.waitFor(isRead);
    assert.equal(await browser.value("location.search"), "?lang=en&game=faster");
    for (const program of PROGRAMS) {
        const costs = await told(program);
        await browser.waitFor(`${isRead} && document.querySelector(${JSON.stringify(gripOf(program.words[0]))}) !== null`);
        assert.deepEqual(
            [
                await timesIn(browser),
                await browser.value("document.querySelector('#faster-back').getAttribute('aria-disabled') === 'true'"),
            ],
            [costs.took, true],
            program.name
        );
        assert.match(await leadIn(browser), /^Each round of this loop takes \d+ turns of the drum\. Take a word by its grip/);
        for (const word of program.words) await carry(browser, word, wayTo(costs, word));
        assert.deepEqual(
            [await timesIn(browser), (await shown(browser, program.words[0])).drawn], [costs.least, costs.least], program.name
        );
        assert.match(await leadIn(browser), new RegExp(`^Nothing is faster with these ${program.words.length} words`));
        if (program === PROGRAMS[0]) await explained(browser, program, costs);
        await browser.press("#faster-another");
    }
    await browser.waitFor(`${isRead} && document.querySelector(${JSON.stringify(gripOf("0021"))}) !== null`);
    assert.equal(await timesIn(browser), 2142);
    await browser.press("#faster-back");
    await browser.press(".game > .line button:first-child");
    await browser.waitFor(
        "document.querySelector('[data-tale=\"wait\"][aria-pressed=true]') !== null && !document.body.hasAttribute('data-game')"
    );
    assert.equal(await browser.value("location.search"), "?lang=en&story=1&caption=1");
    await browser.value("history.back()");
    await browser.waitFor(`document.body.hasAttribute('data-game') && ${isRead}`);
    await browser.value("laboratoryOfPage().settled()");
    assert.deepEqual([await timesIn(browser), await browser.value("location.search")], [2910, "?lang=en&game=faster"]);
}

/**
 * When the time is over the best can be shown, and the player's own again; where the words lie is kept over a reload and in another
 * language; it is no part of the visitor's work.
 */
async function over(browser, address) {
    await open(browser, `${address}?game=faster&lang=en&seconds=1`);
    await carry(browser, "0022", -3);
    await browser.strike("s");
    const own = await timesIn(browser);
    await browser.waitFor("document.querySelector('#faster-best')?.isConnected");
    await browser.press("#faster-best");
    assert.deepEqual(
        [await timesIn(browser), await leadIn(browser), await browser.value("document.activeElement.id")],
        [
            2142,
            "This is the best: each word comes after an order that uses it, before the next one has gone by. The same orders take 2,142 word times instead of 2,910.",
            "faster-back",
        ]
    );
    await browser.press("#faster-back");
    assert.deepEqual(
        [await timesIn(browser), (await shown(browser, "0022")).text.slice(0, 10)],
        [own, `sector ${String(sectorAt(positionOf(22) - 3)).padStart(2, "0")}:`]
    );
    await browser.value("(globalThis.isOld = true, location.reload())").catch(() => {});
    await browser.waitFor(`globalThis.isOld === undefined && document.documentElement.dataset.ready === 'true' && ${isRead}`);
    const kept = async () => [
        await timesIn(browser),
        await browser.value("document.querySelectorAll('.faster .cell.origin').length"),
        await browser.value("laboratoryOfPage().lines.length"),
    ];
    assert.deepEqual(await kept(), [own, 1, 0]);
    await browser.value(
        "(() => { const it = document.getElementById('language'); it.value = 'de'; it.dispatchEvent(new Event('change')); })()"
    );
    await browser.waitFor(`document.documentElement.lang === 'de' && ${isRead}`);
    assert.deepEqual(await kept(), [own, 1, 0]);
    assert.match(await leadIn(browser), /^In diesem Sektor spart „one“ nichts\. Für a auf 0012 kommt es 16 Plätze zu spät/);
    await browser.open(`${address}?lang=en&game=chess`);
    await browser.value("laboratoryOfPage().settled()");
    assert.match(await browser.value("document.querySelector('#notice').textContent"), /^This page's address names no game: chess/);
}

/**
 * Presses a button of the kiosk by its number, in the page or by its key, and compares what is shown with what the monitor says of the
 * words where they are then.
 */
function makePresses(browser, costs, isByKey) {
    const { words } = PROGRAMS[0];
    const sectors = new Map(words.map((word) => [word, sectorOf(word)]));
    let picked = 0;
    return async (number) => {
        if (number === 3) picked = (picked + 1) % words.length;
        else sectors.set(words[picked], sectorAt(positionOf(sectors.get(words[picked])) + (number === 1 ? -1 : 1)));
        await (isByKey ? browser.strike(`${number}`) : browser.press(`#kiosk-${number}`));
        const wanted = [...sectors].reduce((sum, [word, at]) => sum + costs.at.get(word).get(at), costs.took * (1 - sectors.size));
        const { times, drawn, rows, round, text } = await shown(browser, words[picked]);
        assert.deepEqual([times, drawn, rows], [wanted, wanted, round], `button ${number}`);
        assert.match(text, new RegExp(`^sector ${String(sectors.get(words[picked])).padStart(2, "0")}: `));
        assert.equal(await browser.value("document.querySelector('.movable [aria-pressed=true]').dataset.name"), words[picked]);
    };
}

/**
 * At the kiosk button 2, or its key, leads into the game. Its buttons move a word by a place, take the next word, and end it: first the
 * best is shown, then the kiosk is at its beginning. Nothing is kept, and the address stays.
 */
async function kiosk(browser, address) {
    const costs = await told(PROGRAMS[0]);
    await browser.size(1366, 768);
    await browser.open(`${address}?lang=en&door=work`);
    await browser.write("; mine");
    await browser.open(`${address}?kiosk=message&lang=en&idle=600`);
    const [before, href] = [await keptIn(browser), await browser.value("location.href")];
    for (const isByKey of [false, true]) {
        await browser.waitFor(isAttract);
        await (isByKey ? browser.strike("2") : browser.press("#kiosk-2"));
        await browser.waitFor(`document.body.dataset.state === 'faster' && ${isRead}`);
        assert.deepEqual(
            await browser.value("[1, 2, 3, 4].map((number) => document.querySelector(`#kiosk-${number}`).textContent)"),
            ["◂ one place back", "one place on ▸", "Next word", "Done"]
        );
        assert.equal(await timesIn(browser), costs.took);
        const press = makePresses(browser, costs, isByKey);
        for (const number of [2, 2, 1, 3, 1, 1, 3, 2, 3, 1]) await press(number);
        await browser.press("#kiosk-4");
        assert.deepEqual([await timesIn(browser), (await leadIn(browser)).slice(0, 17)], [costs.least, "This is the best:"]);
        await browser.press("#kiosk-4");
        await browser.waitFor(isAttract);
        assert.deepEqual([await browser.value("location.href"), await keptIn(browser)], [href, before]);
    }
    await browser.open(`${address}?lang=en&door=work`);
    await browser.size(1500, 1250);
}

/** On a telephone and on an upright screen all of the kiosk's game is seen, in both languages, and nothing moves while it is played. */
async function kioskUpright(browser, address) {
    for (const size of [TELEPHONE, [1080, 1920]]) for (const code of ["en", "de"]) {
        await browser.size(...size);
        await browser.open(`${address}?kiosk=message&lang=${code}&idle=600`);
        await browser.press("#kiosk-2");
        await browser.waitFor(`document.body.dataset.state === 'faster' && ${isRead}`);
        const what = `${size} in ${code}`;
        const parts = await partsOf(browser, what);
        for (const number of [2, 2, 3, 1, 1, 3, 2, 4]) {
            await browser.press(`#kiosk-${number}`);
            assert.deepEqual(await partsOf(browser, `${what}, after ${number}`), parts, `${what}, after ${number}`);
        }
        assert.equal(await browser.value("document.documentElement.scrollHeight <= innerHeight"), true, what);
    }
    await browser.size(1500, 1250);
}

/** A finger carries a word as the mouse does; a touch that the browser takes away puts it back. */
async function finger(browser, address) {
    if (browser.constructor.name !== "Chromium") return "but not looked at, since this browser's finger cannot be led";
    await browser.size(1024, 768);
    await open(browser, `${address}?game=faster&lang=en`);
    const sectorNow = async () => (await shown(browser, "0024")).text.slice(0, 9);
    await browser.lead(
        [await middleOf(browser, gripOf("0024")), "down", await placeOf(browser, 3), await placeOf(browser, 39), "up"], "touch"
    );
    assert.deepEqual([await sectorNow(), await timesIn(browser)], ["sector 39", 2654]);
    await browser.lead([await middleOf(browser, gripOf("0024")), "down", await placeOf(browser, 12), "cancel"], "touch");
    assert.deepEqual([await sectorNow(), await timesIn(browser)], ["sector 39", 2654]);
    await browser.size(1500, 1250);
    return undefined;
}

/** A round that is watched turns the drum and ends where it began; without motion each order is seen, and nothing turns in between. */
async function watched(browser, address) {
    await open(browser, `${address}?game=faster&lang=en`);
    const turned = () => browser.value("document.querySelector('.faster .ring').style.transform");
    const before = await turned();
    await browser.press("#faster-watch");
    await browser.waitFor(
        `document.querySelector('.faster .ring').style.transform !== ${JSON.stringify(before)} && document.querySelectorAll('.faster .round .now').length === 1`
    );
    await browser.press("#faster-watch");
    assert.deepEqual(
        [await turned(), await browser.value("document.querySelector('#faster-watch').textContent")], [before, "Watch a round"]
    );
    if (browser.media === undefined) return "but not without motion, since this browser cannot be told of that";
    await browser.media({ "prefers-reduced-motion": "reduce" });
    const seen = new Set();
    await browser.press("#faster-watch");
    for (let waits = 0; waits < 400 && seen.size < 3; waits += 1) seen.add(await turned());
    await browser.waitFor("document.querySelectorAll('.faster .round .now').length === 1");
    await browser.media({});
    await browser.press("#faster-watch");
    const round = await shown(browser, "0021");
    assert.deepEqual([round.rows, await turned()], [round.round, before]);
    return undefined;
}

/**
 * What of the game lies beyond the window or what cuts it off, what is smaller than 10 pixels, and which controls are hit by something else
 * at their middle.
 */
const wrongIn = (browser) => browser.value(`(() => {
    const wrong = [];
    for (const it of document.querySelectorAll("header button, .faster :is(button, .grip, .big, .lead, .head, .goal b, .goal span, td, th, text, svg, canvas)")) {
        if (!it.checkVisibility() || it.closest(".well") !== null) continue;
        const { left, top, right, bottom, width, height } = it.getBoundingClientRect();
        const name = it.tagName + "." + (it.className.baseVal ?? it.className) + " " + it.textContent.slice(0, 20);
        const size = parseFloat(getComputedStyle(it).fontSize) * (it.closest("svg") === null || it.matches("svg") ? 1 : it.ownerSVGElement.getBoundingClientRect().width / it.ownerSVGElement.viewBox.baseVal.width);
        if (it.textContent.trim() !== "" && it.matches("text, td, th, button, .grip, b, span") && size < 10) wrong.push("small " + name);
        if (width > 0 && (left < -1 || top < -1 || right > innerWidth + 1 || bottom > innerHeight + 1) && it.closest(".line") === null) wrong.push("outside " + name);
        if (it.matches("button:not(:disabled), .grip") && left + width / 2 < innerWidth && !it.contains(document.elementFromPoint(left + width / 2, top + height / 2))) wrong.push("hidden " + name);
        if (it.scrollWidth > it.clientWidth + 1 && it.matches("button, td, th") || it.scrollHeight > it.clientHeight + 1 && it.matches("button, .lead")) wrong.push("cut " + name);
        // a pin is taken beside it too
        if (innerWidth <= 760 && it.matches("button, .grip") && Math.min(width, height - 2 * (parseFloat(getComputedStyle(it, "::before").top) || 0)) < 40) wrong.push("too small to be touched " + name);
    }
    return wrong;
})()`);

const SIZES = [[1440, 900], [1366, 768], [1920, 1080], [1280, 720], [1024, 768], [390, 844]];

/** Where the parts of the game are at each size, as far as all of it is seen there at once. */
async function seenAtEach(browser, what) {
    const tops = [];
    for (const [width, height] of SIZES) {
        await browser.size(width, height);
        await browser.value("new Promise((resolve) => requestAnimationFrame(() => requestAnimationFrame(resolve)))");
        assert.deepEqual(await wrongIn(browser), [], `${what} at ${width} by ${height}`);
        assert.equal(
            await browser.value(
                "document.documentElement.scrollWidth <= innerWidth && document.documentElement.scrollHeight <= innerHeight"
            ),
            true,
            `${width} by ${height}`
        );
        const at = await browser.value(
            `[...document.querySelectorAll('.big, .goal, .movable button, ${width > 760
                ? ".round tr, "
                : ".rounds, "}.foot, .faster .drum-box')].map((it) => [it.dataset.name ?? it.dataset.at ?? it.className, Math.round(it.getBoundingClientRect().top)].join(" "))`
        );
        tops.push([`${width} by ${height}`, ...at]);
    }
    return tops;
}

/** Letters that are wider than those that the page asks for first, as a machine without these may have them. */
const WIDE = { "--tells": "DejaVu Serif, serif", "--labels": "DejaVu Sans, sans-serif" };

/**
 * At the sizes of common windows all of the game is seen at once, in both languages, and in wide letters; nothing moves when other words
 * are told.
 */
async function sizes(browser, address) {
    const costs = await told(PROGRAMS[0]);
    for (const [code, fonts] of [["en", {}], ["de", {}], ["en", WIDE], ["de", WIDE]]) {
        await browser.size(1440, 900);
        await open(browser, `${address}?game=faster&lang=${code}`);
        await browser.value(
            `Object.entries(${JSON.stringify(fonts)}).forEach(([name, value]) => document.documentElement.style.setProperty(name, value))`
        );
        const where = `${code}${fonts === WIDE ? ", in wide letters" : ""}`;
        const tops = await seenAtEach(browser, `the beginning in ${where}`);
        const same = async (what) => assert.deepEqual(await seenAtEach(browser, `${what} in ${where}`), tops, `${what} in ${where}`);
        await browser.press("#faster-why");
        await same("why");
        await browser.press("#faster-why");
        await carry(browser, "0024", 4);
        await same("a better place");
        await browser.strike("Home");
        for (const word of PROGRAMS[0].words) await carry(browser, word, wayTo(costs, word));
        await same("the best");
    }
    await browser.size(1500, 1250);
}

const TELEPHONE = [390, 844];

/** Where the parts of a game are, which are all seen as they should be. */
async function partsOf(browser, what) {
    await browser.value("new Promise((resolve) => requestAnimationFrame(() => requestAnimationFrame(resolve)))");
    assert.deepEqual(await wrongIn(browser), [], what);
    return browser.value(
        "[...document.querySelectorAll('.faster .drum-box, .lead, .big, .goal, .movable button, .rounds, .foot, .foot > *')].filter((it) => it.checkVisibility()).map((it) => { const { top, bottom } = it.getBoundingClientRect(); return `${top.toFixed(1)} ${bottom.toFixed(1)}`; })"
    );
}

/**
 * On a telephone each program of the game is seen whole in each of its states, in both languages: nothing moves from one to the next, also
 * when the time is over and the best is shown, and when it is reached.
 */
async function telephone(browser, address) {
    await browser.size(...TELEPHONE);
    for (const code of ["en", "de"]) {
        await open(browser, `${address}?game=faster&seconds=1&lang=${code}`);
        for (const program of PROGRAMS) {
            await browser.waitFor(`${isRead} && document.querySelector(${JSON.stringify(gripOf(program.words[0]))}) !== null`);
            const name = `${program.name} in ${code}`;
            const tops = await partsOf(browser, name);
            const same = async (state) => assert.deepEqual(await partsOf(browser, `${name}: ${state}`), tops, `${name}: ${state}`);
            await browser.press("#faster-why");
            await same("why");
            await browser.press("#faster-why");
            for (const word of program.words) {
                await carry(browser, word, 9);
                await same(`${word} elsewhere`);
            }
            await browser.waitFor("document.querySelector('#faster-best')?.isConnected");
            await same("over");
            await browser.press("#faster-best");
            await same("shown");
            await browser.press("#faster-watch");
            await same("watched");
            await browser.press("#faster-watch");
            await browser.press("#faster-another");
        }
    }
    await browser.size(1500, 1250);
}

/** A small household, whose wage is named by its label, and whose rent is named by its address. */
const SOURCE =
    "week a wage\n s 0021\n t week\n z\n org 0020\nwage int 30 30\nrent int 12 30\ndebt int -95 30\n org 0040\nstart b debt\n u week\n end start";

/** Asks for the costs of a word, and waits for its pin. */
async function asksCosts(browser, word) {
    await browser.value(`laboratoryOfPage().askCosts("${word}")`);
    await browser.waitFor(`[...document.querySelectorAll(".drum .grip")].some((it) => it.dataset.word === "${word}")`);
}

const textOf = (browser, selector) => browser.value(`document.querySelector(${JSON.stringify(selector)}).textContent`);
const carriedTold = (browser) => browser.value("document.querySelector('.carried-told').textContent");
const notice = (browser, wanted) => browser.waitFor(`${wanted}.test(document.querySelector("#notice").textContent)`);

/** Runs the source, and waits for its end. */
async function runs(browser) {
    await browser.press("#run-program");
    await browser.waitFor(
        "laboratoryOfPage().panel.status === 'halted stop' && laboratoryOfPage().loaded === document.querySelector('.source .CodeMirror').CodeMirror.getValue()"
    );
}

/**
 * In Work the word whose costs are shown is carried on the drum: each number is the monitor's. It is written into the source, which is run,
 * and takes what was foretold; the editor takes it back.
 */
async function carried(browser, address) {
    await browser.open(`${address}?lang=en&door=work`);
    await browser.write(SOURCE);
    await runs(browser);
    await asksCosts(browser, "0020");
    const costs = new Map(await browser.value("laboratoryOfPage().costs.sectors.map(({ sector, times }) => [sector, times])"));
    await browser.value("document.querySelector('.drum .grip').focus()");
    for (let place = 1; place < SECTORS; place += 1) {
        await browser.strike("ArrowRight");
        const sector = sectorAt(positionOf(20) + place);
        const says = await carriedTold(browser);
        assert.ok(
            says.startsWith(
                `In sector ${String(sector).padStart(2, "0")} the same orders would have taken ${costs.get(sector).toLocaleString("en")} word times: `
            ),
            says
        );
    }
    await browser.strike("Home");
    assert.equal(await carriedTold(browser), "Take the word by its pin on the drum, and carry it to another sector.");
    const [best] = [...costs].sort(([, one], [, other]) => one - other)[0];
    const [x, y] = await browser.value(
        `(() => { const { left, top, width, height } = document.querySelectorAll(".drum .cell .face")[${best}].getBoundingClientRect(); return [left + width / 2, top + height / 2].map(Math.round); })()`
    );
    await browser.lead([await middleOf(browser, ".drum .grip"), "down", [x, y], "up"]);
    const [, foretold] = /would have taken ([\d,]+) word times/.exec(await carriedTold(browser));
    await browser.press("#write-moved");
    await notice(
        browser,
        new RegExp(
            `^wage is at \\d{4} now\\. The source was loaded and run: it took (${foretold} word times, as predicted\\.|[\\d,]+ word times, ${foretold} as predicted but for the wait)`
        )
    );
    const [, took] = /it took ([\d,]+) word times/.exec(await textOf(browser, "#notice"));
    assert.ok((await textOf(browser, ".costs-told")).includes(`took ${took} word times`), "the costs and the notice tell one number");
    assert.match(await browser.written(), new RegExp(`\n org \\d\\d${String(best).padStart(2, "0")}\nwage int 30 30\n {5}org 0021\nrent`));
    await browser.value("document.querySelector('.source .CodeMirror').CodeMirror.undo()");
    assert.equal(await browser.written(), SOURCE);
}

/** The same household, whose words are named by their labels. */
const LABELLED = SOURCE.replace("s 0021", "s rent\n s debt");
const WORDS = [["0020", "wage"], ["0021", "rent"], ["0022", "debt"]];

/** What its orders take with each of its words at each sector, as a laboratory without a page says. */
async function costsOfSource() {
    const laboratory = new Controller(new ModuleLink(join(top, "libraries/javascript/lgp_c_region.wasm")));
    await laboratory.open();
    await laboratory.load(LABELLED);
    await laboratory.command("press start");
    await laboratory.run();
    const { words } = await laboratory.askPlacing(WORDS.map(([address]) => address));
    return {
        took: words[0].times,
        at: new Map(words.map(({ address, sectors }) => [address, new Map(sectors.map(({ sector, times }) => [sector, times]))])),
    };
}

const pinOf = (address) => `.drum .grip[data-word="${address}"]`;
const cellOf = (browser, sector) => browser.value(
    `(() => { const { left, top, width, height } = document.querySelectorAll(".drum .cell .face")[${sector}].getBoundingClientRect(); return [left + width / 2, top + height / 2].map(Math.round); })()`
);

/**
 * What is told of words in Work and Learn is compared with the sum of what each of them saves, wherever they are. `places` has the words
 * that are elsewhere, with their sectors.
 */
async function compared(browser, { took, at }, places) {
    const wanted = places.reduce((sum, [address, sector]) => sum + at.get(address).get(sector), took * (1 - places.length));
    const [difference, names] = [took - wanted, new Map(WORDS)];
    const where = places.length === 1
        ? `In sector ${String(places[0][1]).padStart(2, "0")}`
        : `With ${places.map(([address, sector]) => `${names.get(address)} in sector ${String(sector).padStart(2, "0")}`).join(", ")}`;
    const than = difference === 0 ? "as many as they took" : `${Math.abs(difference)} ${difference > 0 ? "fewer" : "more"}`;
    assert.equal(await carriedTold(browser), `${where} the same orders would have taken ${wanted} word times: ${than}.`);
    for (const [address, sector] of places) {
        assert.match(
            await browser.value(`document.querySelector(${JSON.stringify(pinOf(address))}).getAttribute("aria-valuetext")`),
            new RegExp(`^sector ${String(sector).padStart(2, "0")}: ${wanted} word times, `)
        );
    }
    return wanted;
}

const bestOf = (costs, word) => [...costs.at.get(word)].sort(([, one], [, other]) => one - other)[0][0];

/**
 * In Work several words are carried at once, by keys, by a pin and by a cell: each stays where it is, and the number is that of all of
 * them. They stay so in another language, after a step, and when the page is loaded again. All are written into the source at once, and the
 * run takes what was foretold.
 */
async function carriedTogether(browser, address) {
    const costs = await costsOfSource();
    await browser.size(1440, 900);
    await browser.open(`${address}?lang=en&door=work`);
    await browser.write(LABELLED);
    await runs(browser);
    const places = [];
    for (const [word] of WORDS) {
        await browser.value(`laboratoryOfPage().askCosts("${word}")`);
        await browser.waitFor(
            `document.querySelectorAll(".drum .grip").length === ${places.length
                + 1} && document.querySelector(${JSON.stringify(pinOf(word))}) !== null`
        );
        await browser.value(`document.querySelector(${JSON.stringify(pinOf(word))}).focus()`);
        places.push([word, sectorOf(word)]);
        for (const key of ["ArrowRight", "PageUp", "ArrowRight", "PageUp", "ArrowLeft", "ArrowLeft", "ArrowLeft", "PageUp"]) {
            await browser.strike(key);
            places.at(-1)[1] = sectorAt(positionOf(places.at(-1)[1]) + { ArrowRight: 1, ArrowLeft: -1, PageUp: 8 }[key]);
            await compared(browser, costs, places);
        }
        for (const [by, sector] of [["", 33], [" .hold", 50], [" .hold", bestOf(costs, word)]]) {
            await browser.lead([await middleOf(browser, `${pinOf(word)}${by}`), "down", await cellOf(browser, sector), "up"]);
            places.at(-1)[1] = sector;
            await compared(browser, costs, places);
        }
    }
    assert.deepEqual(
        await browser.value("['laid', 'origin'].map((kind) => document.querySelectorAll(`.drum .cell.${kind}`).length)"), [3, 3]
    );
    const foretold = await compared(browser, costs, places);
    await keptCarried(browser, costs, places);
    await browser.press("#write-moved");
    await notice(
        browser,
        /^wage is at \d{4} now\. rent is at \d{4} now\. debt is at \d{4} now\. The source was loaded and run: it took [\d,]+ word times, (?:as pre|[\d,]+ as pre)dicted\.$/
    );
    const written = await browser.written();
    for (const [word, sector] of places) {
        assert.match(written, new RegExp(`org \\d\\d${String(sector).padStart(2, "0")}\n${new Map(WORDS).get(word)} int`));
    }
    await browser.value("document.querySelector('.source .CodeMirror').CodeMirror.undo()");
    assert.equal(await browser.written(), LABELLED);
    await browser.size(1500, 1250);
    return `${foretold} word times in place of ${costs.took}`;
}

/**
 * Words that are carried stay where they are in another language and when the page is loaded again; a word goes back alone, by its key, and
 * all by the button.
 */
async function keptCarried(browser, costs, places) {
    const language = async (code) => {
        await browser.value(
            `(() => { const it = document.getElementById("language"); it.value = "${code}"; it.dispatchEvent(new Event("change")); })()`
        );
        await browser.waitFor(`document.documentElement.lang === "${code}" && document.querySelectorAll(".drum .grip").length === 3`);
    };
    await language("de");
    assert.match(
        await carriedTold(browser),
        /^Mit wage in Sektor \d\d, rent in Sektor \d\d, debt in Sektor \d\d hätten dieselben Befehle \d+ Wortzeiten gebraucht: \d+ weniger\.$/
    );
    await language("en");
    await compared(browser, costs, places);
    await browser.value("laboratoryOfPage().back(1)");
    await browser.waitFor("document.querySelectorAll('.drum .grip').length === 0");
    assert.match(await carriedTold(browser), /^Still elsewhere: wage, rent, debt\. Press an address/);
    await browser.value("laboratoryOfPage().forward(1)");
    await browser.value("(globalThis.isOld = true, location.reload())").catch(() => {});
    await browser.waitFor("globalThis.isOld === undefined && document.documentElement.dataset.ready === 'true'");
    await browser.value("laboratoryOfPage().settled()");
    await asksCosts(browser, "0022");
    await browser.waitFor("document.querySelectorAll('.drum .grip').length === 3");
    await compared(browser, costs, places);
    await browser.value(`document.querySelector(${JSON.stringify(pinOf("0021"))}).focus()`);
    await browser.strike("Escape");
    await compared(browser, costs, [places[0], places[2]]);
    assert.equal(await browser.value("document.activeElement.dataset.word"), "0021");
    await browser.lead([await middleOf(browser, pinOf("0021")), "down", await cellOf(browser, places[1][1]), "up"]);
    await compared(browser, costs, places);
}

/**
 * A word that an order names by its address is not written elsewhere; one that is an order, or that a changed order names, is not carried.
 * Each says why.
 */
async function notCarried(browser, address) {
    await browser.open(`${address}?lang=en&door=work`);
    await browser.write(SOURCE);
    await runs(browser);
    await asksCosts(browser, "0021");
    await browser.value("document.querySelector('.drum .grip').focus()");
    await browser.strike("ArrowRight");
    await browser.press("#write-moved");
    await notice(browser, /^Nothing was written: line 2 does not name the word rent by a label/);
    assert.equal(await browser.written(), SOURCE);
    await browser.open(`${address}?lang=en#self-modifying`);
    await browser.value("laboratoryOfPage().run()");
    for (const [word, why] of [
        ["0009", "It is performed as an order. Elsewhere it would be another program."],
        ["0101", "The program works out this address itself."],
    ]) {
        await asksCosts(browser, word);
        assert.equal(await browser.value("document.querySelector('.drum .grip').tagName"), "BUTTON");
        await browser.press(".drum .grip");
        assert.equal(await carriedTold(browser), why);
    }
}

/**
 * The lesson about places leads to its race, with one word, and from there to all five; its steps are where they were when one comes back.
 */
async function race(browser, address) {
    const [wage] = PLACING_GAMES.get("race");
    const costs = await told(wage);
    await forget(browser, address);
    await browser.open(`${address}?lang=en&lesson=where-a-word-costs-least`);
    await browser.value("laboratoryOfPage().settled()");
    await browser.press("#race");
    await browser.waitFor(`document.body.hasAttribute('data-game') && ${isRead}`);
    assert.deepEqual(
        [
            await browser.value("location.search"),
            await timesIn(browser),
            await browser.value("document.querySelectorAll('.faster .grip').length"),
        ],
        ["?lang=en&game=race", 150_629, 1]
    );
    await carry(browser, "0128", wayTo(costs, "0128"));
    assert.deepEqual(
        [await timesIn(browser), await leadIn(browser)],
        [
            125_541,
            "Nothing is faster with this word. The same orders, the same result: 150,629 word times became 125,541, which is 392 turns of the drum less.",
        ]
    );
    await browser.press("#faster-another");
    await browser.waitFor(`${isRead} && document.querySelectorAll('.faster .grip').length === 5`);
    await browser.press("#back-to-lesson");
    await browser.waitFor("document.body.dataset.door === 'learn'");
    await browser.value("laboratoryOfPage().settled()");
    assert.deepEqual(
        await browser.value("[location.search, document.querySelectorAll('.lesson li.now').length, laboratoryOfPage().panel.counter]"),
        ["?lang=en&lesson=where-a-word-costs-least&step=1", 1, "0200"]
    );
}

/** All of the game has a name and can be read and reached, in light and dark. */
async function reached(browser, address) {
    if (browser.preload === undefined) return "but not looked at, since this browser cannot be told to note what hears the mouse";
    const end = await noteMouse(browser);
    await open(browser, `${address}?game=faster&lang=en`);
    await browser.press("#faster-why");
    assert.deepEqual([await nameless(browser), await disorder(browser), await unreached(browser)], [[], [], []]);
    await end();
    for (const scheme of browser.media === undefined ? [] : ["light", "dark"]) {
        await browser.media({ "prefers-color-scheme": scheme });
        assert.deepEqual(await faint(browser), [], scheme);
    }
    await browser.media?.({});
    await browser.lead([await middleOf(browser, gripOf("0022")), "down", "up"]);
    await browser.waitFor("document.querySelector('.movable [aria-pressed=true]').dataset.name === '0022'");
    return undefined;
}

/**
 * The drum of Work or Learn as it is turned: what the slider says, whether an order is under way, the machine's clock, and the ring's
 * angle.
 */
const turnedNow = (browser) => browser.value(`(() => {
    const turner = document.querySelector(".drum .turner");
    return { says: turner.getAttribute("aria-valuetext"), isMoving: document.querySelector(".drum-box").dataset.moving === "true", clock: Number(laboratoryOfPage().panel.clock), angle: document.querySelector(".drum .ring").style.transform, count: document.querySelector(".drum .hub-count").textContent, behind: laboratoryOfPage().history.behind };
})()`);

/** Waits until the drum stands at a clock, and a number of orders has been done. */
const standsAt = (browser, clock, orders) => browser.waitFor(
    `/^clock ${clock}(, |$)/.test(document.querySelector(".drum .turner").getAttribute("aria-valuetext")) && laboratoryOfPage().history.behind === ${orders}`
);

/**
 * By keys the drum turns on and back, place by place and order by order, on through orders that are performed and back through those that
 * were; where it cannot go it says so.
 */
async function turnedByKeys(browser, address) {
    await browser.open(`${address}?lang=en#self-modifying`);
    await browser.value("laboratoryOfPage().settled()");
    await browser.value("document.querySelector('.drum .turner').focus()");
    const accounts = await told(PROGRAMS[0]).then(({ accounts: all }) => all);
    let clock = 0;
    for (let place = 0; place < 95; place += 1) {
        await browser.strike("ArrowRight");
        clock += 1;
        await standsAt(browser, clock, accounts.filter((account) => Number(account.clock) < clock).length);
        const at = accounts.findLast((account) => Number(account.clock) < clock);
        const offset = clock - Number(at.clock);
        const isWait = offset < at.find || (offset >= at.find + at.take && offset < at.find + at.take + at.seek);
        const ends = offset < at.find ? at.find : at.find + at.take + at.seek;
        const shows = await turnedNow(browser);
        assert.equal(shows.says, isWait ? `clock ${clock}, ${ends - offset} places to go` : `clock ${clock}`);
        assert.deepEqual([shows.isMoving, shows.angle], [offset < at.sum, `rotate(${-(clock % SECTORS) * 5.625}deg)`], `clock ${clock}`);
    }
    await browser.strike("PageUp");
    await standsAt(browser, Number(accounts[2].clock), 2);
    await browser.strike("PageUp");
    await standsAt(browser, Number(accounts[3].clock), 3);
    for (const order of [2, 1, 0]) {
        await browser.strike("PageDown");
        await standsAt(browser, Number(accounts[order].clock), order);
        await browser.waitFor(`laboratoryOfPage().panel.clock === ${accounts[order].clock}n`);
    }
    await browser.strike("ArrowLeft");
    await notice(browser, /^There is no earlier order to go back to\.$/);
    if (browser.media === undefined) return "but not without motion, since this browser cannot be told of that";
    await browser.media({ "prefers-reduced-motion": "reduce" });
    for (const [key, by] of [["ArrowRight", 1], ["ArrowUp", 2], ["ArrowLeft", 1], ["ArrowDown", 0]]) {
        await browser.strike(key);
        await standsAt(browser, by, Math.min(1, by));
    }
    await browser.media({});
    return undefined;
}

/** The place on the ring at an angle, clockwise from above. */
const onRing = (browser, degrees) => browser.value(`(() => {
    const { left, top, width } = document.querySelector(".drum-box").getBoundingClientRect();
    const angle = (${degrees} * Math.PI) / 180;
    return [left + (400 + 290 * Math.sin(angle)) * width / 800, top + (372 - 290 * Math.cos(angle)) * width / 800].map((it) => Math.round(it * 10) / 10);
})()`);

/** The drum, seen twice after it was pressed while a story plays; where the order is over before the press comes, the next one is tried. */
async function heldInStory(browser, address) {
    for (let tries = 0; ; tries += 1) {
        await browser.open(`${address}?lang=en&story=1`);
        await browser.waitFor(
            "document.querySelector('.drum-box').dataset.moving === 'true' && Number(document.querySelector('.drum .hub-count').textContent) > 0 && /[1-9]/.test(document.querySelector('.drum .hub-clock').textContent)"
        );
        await browser.lead([await onRing(browser, 200), "down", "up"]);
        await browser.value("laboratoryOfPage().settled()");
        const seen = [await turnedNow(browser), await turnedNow(browser)];
        if (seen[0].isMoving || tries === 4) return seen;
    }
}

/**
 * A drag to the left leads on, one to the right back: as many word times as the hand has turned, over the ends of orders. A hand that takes
 * the drum while it turns holds it.
 */
async function turnedByDrag(browser, address) {
    await browser.size(1440, 900);
    await browser.open(`${address}?lang=en&lesson=rewriting&step=11`);
    await browser.value("laboratoryOfPage().settled()");
    const circle = async (from, to, step) => {
        for (let angle = from; step > 0 ? angle <= to : angle >= to; angle += step) await browser.lead([await onRing(browser, angle)]);
    };
    await browser.lead([await onRing(browser, 90), "down"]);
    await circle(90, -270, -15);
    await browser.waitFor("document.querySelector('.drum-box').dataset.turned === '+64 word times'");
    await circle(-270, -450, -15);
    await browser.waitFor("document.querySelector('.drum-box').dataset.turned === '+96 word times'");
    await browser.lead(["up"]);
    await standsAt(browser, 96, 2);
    assert.equal(await browser.value("document.querySelector('.drum-box').dataset.turned ?? null"), null);
    await browser.lead([await onRing(browser, 0), "down"]);
    await circle(0, 540, 15);
    await browser.lead(["up"]);
    await standsAt(browser, 0, 0);
    const [one, other] = await heldInStory(browser, address);
    assert.deepEqual([one.isMoving, one], [true, other]);
    await browser.size(1500, 1250);
    if (browser.engine !== "Chromium") return "but not by a wheel, since this browser's cannot be led";
    await browser.open(`${address}?lang=en#self-modifying`);
    await browser.value("laboratoryOfPage().settled()");
    const [x, y] = await onRing(browser, 120);
    for (const [deltaY, clock] of [[100, 1], [100, 2], [-100, 1]]) {
        await browser.ask("Input.dispatchMouseEvent", { type: "mouseWheel", x, y, deltaX: 0, deltaY });
        await standsAt(browser, clock, 1);
    }
    return undefined;
}

const VISITS = {
    carried, carriedTogether, notCarried, turnedByKeys, turnedByDrag, fasterExact: exact, fasterPlayed: played, fasterOver: over,
    fasterFinger: finger, fasterWatched: watched, fasterSizes: sizes, fasterTelephone: telephone, fasterReached: reached,
    fasterKiosk: kiosk, kioskUpright, race,
};

/** The visits of the drum in the hand, of the page at an address, by their names. */
export const visitsOfHand = (address) => (
    Object.fromEntries(Object.entries(VISITS).map(([name, visit]) => [name, (browser) => visit(browser, address)]))
);
