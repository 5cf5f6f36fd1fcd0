// Visits of the workbench: all of it is in one window, nothing moves when a run begins or something is printed, the last orders are told
// after each run, and the map of the drum tells of its words.
import assert from "node:assert/strict";
import { boxes, hiddenTexts, laidOut, unhit, unseenAtLast } from "./seen.mjs";

const settled = (browser) => browser.value("laboratoryOfPage().settled()");
const textOf = (browser, selector) => browser.value(`document.querySelector(${JSON.stringify(selector)})?.innerText ?? ""`);
const pause = (milliseconds) => new Promise((resolve) => { setTimeout(resolve, milliseconds); });

async function press(browser, selector) {
    await browser.press(selector);
    await settled(browser);
}

const PRINTS = "start p =h\n p =i\n b one\n a one\n h sum\n z\none word 00000002\nsum word 00000000\n end start";
const SIZES = [[1440, 900], [1366, 768], [1920, 1080], [1024, 768], [390, 844]];

/** What reaches beyond the window, or is cut off by what it is in and cannot be scrolled to. */
const beyond = (browser) => browser.value(`[...document.querySelectorAll("#page :is(button, input, select, canvas, svg, .editor, .told, .tells, .when, .paper)")].filter((it) => it.checkVisibility() && it.closest(".tab-panel, .drum-box, .CodeMirror, .choices, .notice") === null).filter((it) => {
    const { left, top, right, bottom } = it.getBoundingClientRect();
    return left < -1 || top < -1 || right > innerWidth + 1 || bottom > innerHeight + 1;
}).map((it) => it.tagName + "." + (it.className.baseVal ?? it.className))`);

/** All is in one window, in both languages and at each size; on a telephone under four tabs. */
async function oneWindow(browser, address) {
    for (const code of ["en", "de"]) {
        await browser.open(`${address}?lang=${code}&door=work#self-modifying`);
        for (const [width, height] of SIZES) {
            await browser.size(width, height);
            await browser.waitFor("(innerWidth <= 760) === (document.querySelector('.phone-tabs .tablist') !== null)");
            await laidOut(browser);
            const tabs = width > 760
                ? [null]
                : await browser.value("[...document.querySelectorAll('.phone-tabs > .tablist button')].map((it) => it.id)");
            if (width <= 760) assert.equal(tabs.length, 4);
            for (const tab of tabs) {
                if (tab !== null) await browser.press(`#${tab}`);
                assert.deepEqual(await beyond(browser), [], `${code} at ${width} by ${height} ${tab}`);
                assert.deepEqual(
                    await browser.value(
                        "[document.documentElement.scrollHeight <= innerHeight, document.documentElement.scrollWidth <= innerWidth]"
                    ),
                    [true, true],
                    `${code} at ${width} by ${height} ${tab}`
                );
            }
            const seen = await browser.value(
                "['.source', '.drum-box', '.console', '.accounts', '.drum-map', '.paper', '.timeline', '#run-program'].filter((it) => document.querySelector(it)?.checkVisibility())"
            );
            if (width >= 1280) assert.equal(seen.length, 8, `${code} at ${width}: ${seen}`);
        }
    }
    await browser.size(1500, 1250);
}

/**
 * The three columns have their shares, the third has room for the typewriter, and the map is the first tab there. No comment of a source in
 * English is cut off, nor what an order did, in either language.
 */
async function columns(browser, address) {
    for (const [width, height] of [[1280, 720], [1366, 768], [1440, 900]]) for (const code of ["en", "de"]) {
        await browser.size(width, height);
        await browser.open(`${address}?lang=${code}&door=work#self-modifying`);
        await press(browser, "#run-program");
        await settled(browser);
        await laidOut(browser);
        const where = `${code} at ${width}`;
        const widths = await browser.value("[...document.querySelectorAll('.pane')].map((it) => it.getBoundingClientRect().width)");
        const shares = widths.map((it) => it / widths[0]);
        assert.ok(Math.abs(shares[1] - 33.6 / 40) < 0.01 && widths[2] >= 346, `${where}: ${widths}`);
        if (width >= 1366) assert.ok(Math.abs(shares[2] - 26.4 / 40) < 0.01, `${where}: ${widths}`);
        assert.deepEqual(
            await browser.value("[document.querySelector('.memory-tabs [role=tab]').id, document.querySelector('.drum-map').checkVisibility()]"),
            ["tab-memory-map", true]
        );
        assert.equal(await browser.value("(({ scrollWidth, clientWidth }) => scrollWidth - clientWidth)(document.querySelector('.accounts .scroll'))"), 0, where);
        if (code === "de" || width < 1366) continue;
        assert.deepEqual(
            await browser.value("[...document.querySelectorAll('.source .cm-comment')].filter((it) => it.getBoundingClientRect().right > it.closest('.CodeMirror').getBoundingClientRect().right).map((it) => it.textContent)"),
            [],
            where
        );
    }
    await browser.size(1500, 1250);
}

/** What of Work is seen in which state: what is opened, and what is done there. */
const STATES = {
    run: ["#self-modifying", (browser) => press(browser, "#go-on")],
    fault: [
        "",
        async (browser) => {
            await browser.write("start b one\n a tow\n z\none word 2\n end start");
            await browser.waitFor("/^Line|^Zeile/.test(document.querySelector('.source .told').textContent)");
        },
    ],
    keys: ["#input-and-output/decimal-input", (browser) => press(browser, "#go-on")],
    card: ["", async (browser) => { await browser.write("start b one"); await press(browser, "#card-open"); }],
    refused: ["#self-modifying", (browser) => press(browser, ".console button[data-name='start']")],
};

/** The states whose texts are longer in German. */
const IN_GERMAN = ["run", "fault"];

/** The tabs that are seen, by what leads to each: of tabs within tabs the outer ones are chosen first. */
const TABS = "[...document.querySelectorAll('.tablist button')].map(({ id }) => id)";

/**
 * Texts that are hidden, and controls that are not hit, but where a card lies upon them, once the page has been laid out: a drawing that
 * comes to be seen has its size some pictures after that.
 */
async function notWhole(browser, hasCard) {
    const look = async () => [...await hiddenTexts(browser), ...hasCard ? [] : await unhit(browser)];
    let found = await look();
    for (let looks = 0; looks < 20 && found.length > 0; looks += 1) {
        await laidOut(browser);
        found = await look();
    }
    return found;
}

/** In each state, at each size and under each tab no text is too small or cut off, and each control is hit by itself. */
async function seenWhole(browser, address) {
    for (const [code, [state, [behind, action]]] of ["en", "de"].flatMap((it) => (
        Object.entries(STATES).filter(([name]) => it === "en" || IN_GERMAN.includes(name)).map((entry) => [it, entry])
    ))) {
        await browser.size(...SIZES[0]);
        await browser.open(`${address}?lang=${code}&door=work${behind}`);
        await action(browser);
        for (const [width, height] of [...SIZES, [1280, 720], [768, 1024]]) {
            await browser.size(width, height);
            await browser.waitFor("(innerWidth <= 760) === (document.querySelector('.phone-tabs .tablist') !== null)");
            await laidOut(browser);
            for (const tab of await browser.value(TABS)) {
                if (!await browser.value(
                    `(() => { const it = document.getElementById("${tab}"); it?.click(); return it?.checkVisibility() === true; })()`
                )) {
                    continue;
                }
                assert.deepEqual(await notWhole(browser, state === "card"), [], `${code}, ${state}, ${tab} at ${width} by ${height}`);
            }
        }
    }
    await browser.size(1500, 1250);
}

const ENDLESS = "start b one\n u start\none word 00000002\n end start";

/**
 * What is told beside the time line and is not in its place: it reaches beyond it by more than a notice with buttons may, or has to be
 * scrolled sideways.
 */
const outOfPlace = (browser) => browser.value(`(() => {
    const tells = document.querySelector(".tells");
    const [{ top, bottom }, isScrolled] = [tells.getBoundingClientRect(), getComputedStyle(tells).overflowY !== "visible"];
    return [tells, ...tells.querySelectorAll(".way, .notice")].filter((it) => it.checkVisibility()).flatMap((it) => {
        const box = it.getBoundingClientRect();
        const name = it.id || it.className;
        return [...!isScrolled && (box.top < top - 6 || box.bottom > bottom + 6) ? [name + " beyond its place"] : [], ...it.scrollWidth > it.clientWidth + 1 ? [name + " sideways"] : []];
    });
})()`);

/**
 * A run that goes on until it is stopped moves nothing, at no size and in no language, not while what it does is told nor after it; the
 * offer of an earlier work steps back for that, unless it has the focus.
 */
async function nothingMovesMeanwhile(browser, address) {
    await browser.open(`${address}?lang=en&door=work`);
    await browser.write("; mine");
    for (const code of ["en", "de"]) {
        await browser.open(`${address}?lang=${code}&door=work`);
        await browser.write(ENDLESS);
        await browser.waitFor("/No fault|Kein Fehler/.test(document.querySelector('.source .told').textContent)");
        for (const [width, height] of [...SIZES, [1280, 720], [1100, 800], [768, 1024], [360, 740]]) {
            await browser.size(width, height);
            await browser.waitFor("(innerWidth <= 760) === (document.querySelector('.phone-tabs .tablist') !== null)");
            await browser.value("laboratoryOfPage().say('panel')");
            await laidOut(browser);
            assert.equal(await browser.value("document.querySelector('#kept').checkVisibility()"), true);
            const before = await boxes(browser);
            const still = async (when) => assert.deepEqual(
                [await boxes(browser), await outOfPlace(browser)], [before, []], `${code} at ${width} by ${height}, ${when}`
            );
            await still("before");
            await browser.press("#run-program");
            await browser.waitFor("laboratoryOfPage().progress !== null && document.querySelector('#progress').checkVisibility()");
            await laidOut(browser);
            await still("while it goes on");
            assert.equal(await browser.value("document.querySelector('#kept').checkVisibility()"), false);
            await browser.halt();
            await settled(browser);
            await still("after it");
        }
    }
    await browser.value("laboratoryOfPage().say('panel')");
    await browser.value("document.querySelector('#kept button').focus()");
    if (!await browser.value("document.querySelector('#kept').matches(':focus-within')")) return;
    await browser.press("#run-program");
    await browser.waitFor("laboratoryOfPage().progress !== null && document.querySelector('#progress').checkVisibility()");
    assert.deepEqual(
        [
            await browser.value("document.activeElement.closest('#kept') !== null && document.activeElement.checkVisibility()"),
            await outOfPlace(browser),
        ],
        [true, []]
    );
    await browser.halt();
    await settled(browser);
}

/**
 * What is told of a run is seen without scrolling, and so is the sentence above it: while the run goes on, after it, and where a program
 * waits for its operator.
 */
async function runToldWhole(browser, address) {
    for (const code of ["en", "de"]) for (const [width, height] of [[1280, 720], [1366, 768], [1440, 900]]) {
        const whole = async (when) => {
            const missing = await unseenAtLast(browser, [".tells .way", "#progress", ".when output", ".clock-turn"]);
            assert.deepEqual(
                [
                    missing,
                    await outOfPlace(browser),
                    await browser.value(
                        "(({ scrollHeight, clientHeight }) => scrollHeight <= clientHeight)(document.querySelector('.tells'))"
                    ),
                ],
                [[], [], true],
                `${code} at ${width} by ${height}, ${when}`
            );
        };
        await browser.size(width, height);
        await browser.open(`${address}?lang=${code}&door=work`);
        await browser.write(ENDLESS);
        await browser.waitFor("/No fault|Kein Fehler/.test(document.querySelector('.source .told').textContent)");
        await browser.press("#run-program");
        await browser.waitFor("laboratoryOfPage().progress !== null && document.querySelector('#progress').checkVisibility()");
        await whole("while it goes on");
        await browser.halt();
        await settled(browser);
        await whole("after it");
        await browser.open(`${address}?lang=${code}&door=work#input-and-output/decimal-input`);
        await press(browser, "#go-on");
        await whole("where keys are waited for");
    }
    await browser.size(1500, 1250);
}

/** What each tab of a telephone has that is needed first. */
const FIRST = {
    write: [".source .editor", ".verdict", "#load"],
    machine: [".status-of", ".drum-box", ".console .square", ".console .lever"],
    memory: [".listing tr.next", ".listing form input", ".listing form button"],
    typewriter: [".sheet", ".key-rows", "#tab-flexo-tape"],
};

/** On a small telephone nothing has to be scrolled to what is needed first, under no tab. */
async function smallTelephone(browser, address) {
    // the window of WebKit does not become as narrow as 320 pixels
    const sizes = browser.engine === "WebKit" ? [[360, 640]] : [[320, 640], [360, 640]];
    for (const code of ["en", "de"]) for (const [width, height] of sizes) {
        await browser.size(width, height);
        await browser.open(`${address}?lang=${code}&door=work#self-modifying`);
        await settled(browser);
        for (const [tab, first] of Object.entries(FIRST)) {
            await browser.press(`#tab-phone-${tab}`);
            await laidOut(browser);
            const missing = await unseenAtLast(browser, [
                ...first, ".phone-tabs > .tablist button", ".along input", "#run-program", ".drive", ".paces label", ".tells", ".when",
            ]);
            assert.deepEqual([missing, await notWhole(browser, false)], [[], []], `${code}, ${tab} at ${width} by ${height}`);
            assert.deepEqual(
                await browser.value(
                    "[document.documentElement.scrollHeight <= innerHeight, document.documentElement.scrollWidth <= innerWidth]"
                ),
                [true, true],
                `${code}, ${tab} at ${width} by ${height}`
            );
        }
    }
    await browser.size(1500, 1250);
}

/** A notice of any height gives the window no bar. */
async function noBarOfNotices(browser, address) {
    await browser.size(390, 844);
    await browser.open(`${address}?lang=en&door=work`);
    await browser.value("laboratoryOfPage().tell({ kind: 'printedMuch', count: 20000 })");
    await browser.value("void Object.assign(document.querySelector('#notice').style, { maxHeight: 'none', height: '600px' })");
    assert.deepEqual(
        await browser.value(
            "[document.querySelector('#notice').getBoundingClientRect().height, document.documentElement.scrollHeight <= innerHeight]"
        ),
        [600, true]
    );
}

/** Nothing moves: not when a run begins, nor when something is printed, nor when a notice comes. */
async function nothingMoves(browser, address) {
    await nothingMovesMeanwhile(browser, address);
    await noBarOfNotices(browser, address);
    for (const [place, [width, height]] of SIZES.entries()) {
        await browser.size(width, height);
        await browser.open(`${address}?lang=${place % 2 === 0 ? "en" : "de"}&door=work`);
        await browser.write(PRINTS);
        await browser.waitFor("/No fault|Kein Fehler/.test(document.querySelector('.source .told').textContent)");
        const before = await boxes(browser);
        await press(browser, "#load");
        assert.deepEqual(await boxes(browser), before, "after it was loaded");
        await browser.press("#run-program");
        await pause(700);
        assert.deepEqual(await boxes(browser), before, "700 ms after the start");
        await browser.waitFor("laboratoryOfPage().panel.status === 'halted stop'");
        await settled(browser);
        assert.equal((await textOf(browser, ".paper")).trim(), "hi");
        assert.deepEqual(await boxes(browser), before, "after a print");
        await press(browser, ".console button[data-name='execute']");
        assert.notEqual(await textOf(browser, "#notice"), "");
        assert.deepEqual(await boxes(browser), before, "with a notice");
    }
    await browser.size(1500, 1250);
}

/**
 * After each run the last orders are told, with their bars, and nothing of how they were told is in the transcript; a press on one goes
 * back to before it.
 */
async function lastOrders(browser, address) {
    await browser.open(`${address}?lang=en&door=work#self-modifying`);
    await browser.value("laboratoryOfPage().say('break 0013')");
    await press(browser, "#go-on");
    const rows = () => browser.value(
        "[...document.querySelectorAll('.accounts tbody tr:not(.below)')].map((it) => it.cells[1].textContent + ' ' + it.cells[2].textContent)"
    );
    const first = await rows();
    assert.equal(first[0], "0012 a 0022");
    assert.ok(first.length >= 9, String(first.length));
    assert.deepEqual(await browser.value("laboratoryOfPage().rules.map((rule) => rule.split(' ').slice(0, 2).join(' '))"), ["break 0013"]);
    await browser.value("laboratoryOfPage().say('drop 0')");
    await press(browser, "#go-on");
    assert.equal((await rows()).length, 12);
    assert.doesNotMatch(await browser.value("laboratoryOfPage().transcript()"), /back|trace/);
    assert.equal(await browser.value("document.querySelectorAll('.accounts .account-bar .piece').length > 40"), true);
    const { clock } = await browser.value("(({ clock }) => ({ clock: String(clock) }))(laboratoryOfPage().accounts.at(-3))");
    await press(browser, ".accounts tbody tr:not(.below):nth-of-type(1) button");
    assert.equal(await browser.value("laboratoryOfPage().history.ahead"), 1);
    await press(browser, "#step");
    await browser.halt();
    await browser.value("[...document.querySelectorAll('.accounts tbody tr:not(.below) button.plain')][2].click()");
    await settled(browser);
    assert.equal(await browser.value("String(laboratoryOfPage().panel.clock)"), clock);
}

/**
 * The map tells of each word, by mouse and by keys: what it is, what orders did with it, who put it there, what it costs; and a stop when
 * it changes can be set.
 */
async function drumMap(browser, address) {
    await browser.open(`${address}?lang=en&door=work#self-modifying`);
    await press(browser, "#go-on");
    await press(browser, "#tab-memory-map");
    const told = () => textOf(browser, ".map-told");
    await browser.waitFor(
        "document.querySelector('.drum-map').getContext('2d').getImageData(30, 20, 200, 10).data.some((part, place) => place % 4 === 0 && part > 100)"
    );
    await browser.value("document.querySelector('.map').focus()");
    await press(browser, "[data-name='mapNumbers']");
    await browser.value("document.querySelector('.map').focus()");
    for (let count = 0; count < 5; count += 1) await browser.strike("ArrowRight");
    assert.match(await told(), /^0009 000q0110 · performed \d×, read \d×, written \d×$/);
    await press(browser, "[data-name='map-who']");
    assert.match(await textOf(browser, ".map-answer"), /^0009: .*put there by y 0009 at 0013/);
    await press(browser, "[data-name='map-watch']");
    assert.deepEqual(await browser.value("laboratoryOfPage().rules"), ["watch 0009"]);
    // the word in column 24 of the first track, whose numbers take 22 pixels at the left and 14 above
    await browser.value(
        "(() => { const it = document.querySelector('.drum-map'); const cell = Math.floor((it.clientWidth - 22) / 64); it.dispatchEvent(Object.defineProperties(new MouseEvent('click', { bubbles: true }), { offsetX: { value: 22 + 24.5 * cell }, offsetY: { value: 18 } })); })()"
    );
    assert.match(await told(), /^0024 /);
    await press(browser, "[data-name='map-costs']");
    assert.match(await textOf(browser, ".costs-told"), /^0024 is in sector 24/);
    assert.equal(await browser.value("document.querySelector('.costs').checkVisibility()"), true);
    await press(browser, "#tab-memory-map");
    await press(browser, "[data-name='mapPasses']");
    assert.equal(await browser.value("document.querySelector('.map-head').hidden"), false);
    await press(browser, "#tab-memory-program");
}

/**
 * The row below the time line: Back, Go on or Stop, Step, and the paces as one group, by keys too. What was gone back over stays ahead
 * until something else is done, and what was not told is counted.
 */
async function paceRow(browser, address) {
    await browser.open(`${address}?lang=en&door=work#self-modifying`);
    const row = () => browser.value("[...document.querySelectorAll('.drives .drive')].map((it) => it.querySelector('.word').textContent)");
    assert.deepEqual(await row(), ["Back", "Go on", "Step"]);
    assert.deepEqual(
        await browser.value("[...document.querySelectorAll('[role=radiogroup] input')].map((it) => [it.value, it.checked])"),
        [["order", false], ["slow", false], ["own", false], ["fast", true]]
    );
    await press(browser, "#go-on");
    assert.deepEqual(
        await browser.value("[document.querySelector('.timeline').dataset.untold, document.querySelector('.when output').textContent]"),
        ["30", "order 42 of 42"]
    );
    for (let order = 0; order < 3; order += 1) await press(browser, "#back");
    assert.equal(await textOf(browser, ".when output"), "order 39 of 42");
    await press(browser, "#step");
    await browser.halt();
    assert.equal(await textOf(browser, ".when output"), "order 40 of 42");
    await browser.value("document.querySelector('.along input').focus()");
    if (await browser.value("document.hasFocus()")) {
        await browser.strike("ArrowRight");
        await settled(browser);
        assert.deepEqual(
            await browser.value("[document.activeElement.getAttribute('aria-valuetext'), laboratoryOfPage().history.behind]"),
            ["order 41 of 42", 41]
        );
        await browser.strike("ArrowLeft");
        await settled(browser);
    }
    await browser.value("document.querySelector('#pace-fast').focus()");
    await browser.strike("ArrowLeft");
    await browser.strike("ArrowLeft");
    if (await browser.value("document.hasFocus()")) {
        assert.equal(await browser.value("document.querySelector('.paces :checked').value"), "slow");
    }
    for (let order = 0; order < 30; order += 1) await press(browser, "#back");
    await browser.go("slow");
    assert.deepEqual(await row(), ["Back", "Stop", "Step"]);
    await browser.waitFor("document.querySelector('.when output').textContent === 'order 12 of 42'");
    await browser.strike("Escape");
    await browser.waitFor("document.querySelector('#go-on').dataset.on === 'false'");
    await settled(browser);
    assert.deepEqual([await row(), (await textOf(browser, ".when output")).endsWith("of 42")], [["Back", "Go on", "Step"], true]);
    await browser.value(
        "(() => { const it = document.getElementById('language'); it.value = 'de'; it.dispatchEvent(new Event('change')); })()"
    );
    assert.deepEqual(
        [await row(), await browser.value("document.querySelector('.paces :checked').value")], [["Zurück", "Weiter", "Schritt"], "slow"]
    );
    await browser.press("#pace-fast");
}

/**
 * While an order that reads the tape is played, the tape moves forward, never back, and stands where the machine has it at its end; in a
 * fast run it has moved at once. How long a code takes, the player's test says: a slow browser shows some of them only.
 */
async function tapeMoves(browser, address) {
    await browser.open(`${address}?lang=en&door=work`);
    await browser.value(
        "laboratoryOfPage().say('put 0000 p 0000', 'put 0001 i 0000', 'put 0002 h 0050', 'put 0003 z', \"mount 123f'5'\", 'press start')"
    );
    await browser.value(
        "(() => { globalThis.passed = []; const note = () => passed.push(document.querySelectorAll('.tape-strip .past').length); note(); new MutationObserver(note).observe(document.querySelector('.tape-place'), { childList: true }); })()"
    );
    await press(browser, "#step");
    await browser.waitFor("laboratoryOfPage().panel.readerOn");
    await press(browser, "#step");
    await browser.waitFor("document.querySelector('.drum-box').dataset.moving === 'false'");
    const [passed, tape] = await browser.value("[passed, laboratoryOfPage().panel.tape]");
    assert.deepEqual([passed, tape, passed[0], passed.at(-1)], [passed.toSorted((one, other) => one - other), 2, 0, 5]);
    assert.equal(await textOf(browser, ".tape p"), "2 codes left reader off");
    await press(browser, "#back");
    assert.equal(await textOf(browser, ".tape p"), "7 codes left reader on");
    await browser.value("void (passed.length = 0)");
    await press(browser, "#go-on");
    assert.deepEqual(await browser.value("[passed.filter((count) => ![0, 5].includes(count)), passed.at(-1)]"), [[], 5]);
}

/**
 * Beside the time line stands how many faults the source has that is written, and, from loading up to the first order, what was loaded; a
 * refusal comes before both.
 */
async function sourceToldFirst(browser, address) {
    await browser.open(`${address}?lang=en&door=work`);
    assert.equal(await browser.value("document.querySelector('.source .go-to-fault').checkVisibility()"), false);
    const says = (wanted) => browser.waitFor(`${wanted}.test(document.querySelector(".way").textContent)`);
    await browser.write(" q\n z\n end 0000");
    await says(/^One fault: correct it, then run\.$/);
    await browser.write(" q\n q\n end 0000");
    await says(/^2 faults: correct them, then run\.$/);
    await press(browser, "#step");
    assert.deepEqual(
        await browser.value("[document.querySelector('#notice').checkVisibility(), document.querySelector('.way').checkVisibility()]"),
        [true, false]
    );
    await browser.write(" h 0002\n z\n end 0000");
    await says(/^The machine is stopped\. Press Start to run it\.$/);
    await press(browser, "#load");
    const [orders] = await browser.value("/[0-9]+/.exec(laboratoryOfPage().talk.findLast(({ line }) => line === 'load').reply)");
    await says(new RegExp(`^Loaded: 2 words, by the loader in ${orders} orders\\. The machine is going: Step performs its next order`));
    await press(browser, "#step");
    await says(/^The machine is going: Step performs its next order/);
    await browser.write(" q\n z\n end 0000");
    await says(/^One fault: correct it, then run\. The machine holds what was loaded last\.$/);
    await browser.value(
        "(() => { const it = document.getElementById('language'); it.value = 'de'; it.dispatchEvent(new Event('change')); })()"
    );
    await says(/^Ein Fehler im Quelltext: erst beheben, dann starten\. In der Maschine ist, was zuletzt geladen wurde\.$/);
}

const VISITS = {
    oneWindow, columns, seenWhole, runToldWhole, smallTelephone, nothingMoves, lastOrders, drumMap, paceRow, tapeMoves, sourceToldFirst,
};

/** The visits of the workbench of the page at an address, by their names. */
export const visitsOfWorkbench = (address) => (
    Object.fromEntries(Object.entries(VISITS).map(([name, visit]) => [name, (browser) => visit(browser, address)]))
);
