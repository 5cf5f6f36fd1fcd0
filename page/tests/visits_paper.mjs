// Visits of the typewriter: its keys go down by what is printed, its carriage stands above the next column, what is typed is on the paper;
// and the paper is pulled up, torn off, and a row of it is typed again.
import assert from "node:assert/strict";
import { hiddenTexts, laidOut, unhit } from "./seen.mjs";

const settled = (browser) => browser.value("laboratoryOfPage().settled()");
const READS = "?lang=en&door=work#input-and-output/decimal-input";
const waits = "laboratoryOfPage().way.kind === 'keys'";

/** How far the point of the carriage is from the next column, from its paper. */
const offColumn = (browser) => browser.value(`(async () => {
    await Promise.allSettled(document.getAnimations().map(({ finished }) => finished));
    const [paper, point] = [document.querySelector(".paper"), document.querySelector(".carriage .point").getBoundingClientRect()];
    const walker = document.createTreeWalker(paper, NodeFilter.SHOW_TEXT);
    let last = null;
    for (let node = walker.nextNode(); node !== null; node = walker.nextNode()) if (node.data !== "") last = node;
    if (last === null || last.data.endsWith("\\n")) return point.left + point.width / 2 - paper.getBoundingClientRect().left - parseFloat(getComputedStyle(paper).paddingLeft);
    const range = document.createRange();
    range.setStart(last, last.data.length - 1);
    range.setEnd(last, last.data.length);
    return point.left + point.width / 2 - range.getBoundingClientRect().right;
})()`);

/** Every sign that a key strikes is printed: its key goes down, the plate has its holes, and the point stands above the next column. */
async function struckKeys(browser, address) {
    await browser.open(`${address}?lang=en&door=work`);
    await browser.write("start p =q\n p =7\n p =+\n p 0300\n p =h\n z\n end start");
    await browser.press("#load");
    await settled(browser);
    await browser.value(
        "(() => { globalThis.wentDown = []; new MutationObserver((changes) => { for (const { target } of changes) if (target.classList.contains('down')) wentDown.push(target.dataset.key); }).observe(document.querySelector('.key-rows'), { subtree: true, attributeFilter: ['class'] }); })()"
    );
    await browser.value("laboratoryOfPage().command('press start')");
    for (const [at, sign] of [..."q7+ h"].entries()) {
        await browser.value("laboratoryOfPage().step(1)");
        assert.equal(await browser.value("document.querySelector('.paper').textContent"), "q7+ h".slice(0, at + 1));
        assert.equal(await browser.value("document.querySelector('.code-plate b').textContent"), sign);
        const told = await browser.value(
            "(({ code }) => Array.from({ length: 6 }, (unused, bit) => ((code >> bit) & 1) === 1))(laboratoryOfPage().struck)"
        );
        const holes = await browser.value(
            "[...document.querySelectorAll('.code-plate circle')].filter((unused, at) => at !== 3).map((hole) => hole.getAttribute('class') === 'hole')"
        );
        assert.deepEqual(holes, told, sign);
        if (sign !== " ") assert.ok(Math.abs(await offColumn(browser)) <= 1.5, `${sign}: ${await offColumn(browser)}`);
    }
    assert.deepEqual([...new Set(await browser.value("wentDown"))], [..."q7+ h"]);
}

/**
 * Only where the machine waits its keys do something; what is typed is on the paper in another ink, and no part of its text; gone back
 * over, it is gone.
 */
async function typedKeys(browser, address) {
    await browser.open(`${address}${READS}`);
    const isLive = "[...document.querySelectorAll('.deck .key')].every((key) => key.getAttribute('aria-disabled') === 'false')";
    assert.equal(await browser.value(isLive), false);
    await browser.press("#go-on");
    await browser.waitFor(waits);
    await settled(browser);
    assert.deepEqual(
        [await browser.value(isLive), await browser.value("document.querySelector('.deck').dataset.state")], [true, "waiting"]
    );
    const before = await browser.value("document.querySelector('.paper').textContent");
    for (const key of "42") await browser.press(`.deck [data-key='${key}']`);
    await settled(browser);
    assert.deepEqual(
        await browser.value(
            "[document.querySelector('.deck').dataset.state, document.querySelector('.paper .typed').dataset.typed, document.querySelector('.paper').textContent]"
        ),
        ["typed", "42", before]
    );
    assert.equal(await browser.value("document.querySelectorAll('.deck .key[tabindex=\"0\"]').length"), 1);
    await browser.press("#back");
    await settled(browser);
    assert.equal(await browser.value("document.querySelectorAll('.paper .typed').length"), 0);
}

const ROWS = "start b one\nagain p =1\n p =2\n p 1600\n u again\none word 00000002\n end start";

/** The paper is pulled up over the right side by a key: what was there stays, rows far away are no nodes, and Esc lets it down. */
async function pulledUp(browser, address) {
    await browser.open(`${address}?lang=en&door=work`);
    await browser.write(ROWS);
    await browser.press("#load");
    await settled(browser);
    const boxes = () => browser.value(
        "[...document.querySelectorAll('.source, .cabinet, .pace, .flexowriter')].map((it) => { const { left, top, width, height } = it.getBoundingClientRect(); return [left, top, width, height].map(Math.round); })"
    );
    await browser.value(
        "(async () => { const it = laboratoryOfPage(); await it.command('press start'); for (let runs = 0; runs < 20 && it.printed.text.split('\\n').length < 2000; runs += 1) await it.run(2000); })()"
    );
    const before = await boxes();
    await browser.strike("F4");
    await browser.waitFor("document.querySelector('.pulled-up').checkVisibility()");
    assert.deepEqual(await boxes(), before);
    assert.equal(await browser.value("laboratoryOfPage().printed.text.split('\\n').length >= 2000"), true);
    for (const key of ["Home", "PageDown", "PageDown", "End", "ArrowUp"]) {
        await browser.strike(key);
        await laidOut(browser);
        assert.ok(await browser.value("document.querySelectorAll('.pulled-up *').length") < 240);
        assert.equal(
            await browser.value(
                "(() => { const [row, list] = ['.piece-right .marked', '.piece-right .piece-rows'].map((it) => document.querySelector(it).getBoundingClientRect()); return row.top >= list.top - 1 && row.bottom <= list.bottom + 1; })()"
            ),
            true,
            key
        );
    }
    for (const [width, height] of [[1366, 768], [1920, 1080], [1024, 768], [390, 844]]) {
        await browser.size(width, height);
        await laidOut(browser);
        const thumbs = await browser.value(
            "[...document.querySelectorAll('.thumb:not([hidden])')].filter((it) => { const [thumb, paper] = [it, document.querySelector('.pulled-up')].map((box) => box.getBoundingClientRect()); return thumb.left > paper.left && thumb.right < paper.right && thumb.top < document.querySelector('.piece-right .piece-rows').getBoundingClientRect().top; }).length"
        );
        assert.deepEqual(
            [
                await hiddenTexts(browser),
                await unhit(browser),
                thumbs,
                await browser.value("document.documentElement.scrollWidth <= innerWidth"),
            ],
            [[], [], 0, true],
            `at ${width} by ${height}`
        );
        assert.equal(
            await browser.value(
                "(({ offsetWidth, clientWidth }) => offsetWidth - clientWidth)(document.querySelector('.piece-right .piece-rows'))"
            ),
            0
        );
    }
    await browser.size(1500, 1250);
    await browser.strike("Escape");
    assert.equal(await browser.value("document.querySelector('.pulled-up').checkVisibility()"), false);
}

/** A row is typed again as keys, which the transcript tells; a piece is torn off, stays after a reload, and lies beside the next one. */
async function typedAgain(browser, address) {
    await browser.open(`${address}${READS}`);
    await browser.press("#go-on");
    await browser.waitFor(waits);
    await settled(browser);
    await browser.press("#pull-up");
    await browser.press(".piece-right [data-row='0']");
    const number = await browser.value("document.querySelector('.struck-keys code').textContent");
    await browser.press(".row-open .primary");
    await settled(browser);
    assert.equal(await browser.value("laboratoryOfPage().lines.at(-1)"), `type ${number}'`);
    await browser.waitFor(`[...document.querySelectorAll('.was-typed')].some((row) => row.textContent === ${JSON.stringify(number)})`);
    await browser.press(".piece-right [data-row='1']");
    assert.match(await browser.value("document.querySelector('.row-open').textContent"), /The machine is not waiting for keys/);
    await browser.strike("Escape");
    assert.deepEqual(
        await browser.value("[document.querySelector('.row-open'), document.querySelector('.pulled-up').checkVisibility()]"), [null, true]
    );
    const whole = await browser.value("laboratoryOfPage().printed.text");
    await browser.press("#tear-off");
    await browser.waitFor("document.querySelector('.paper').textContent === ''");
    assert.deepEqual(
        [
            await browser.value("laboratoryOfPage().printed.text"),
            await browser.value("document.querySelectorAll('.piece-right .piece-row').length"),
        ],
        [whole, 0]
    );
    await browser.press("[data-name='twoPieces']");
    assert.match(await browser.value("document.querySelector('.piece-left').textContent"), new RegExp(number));
    // what the paper lies upon is not there for the keys either
    assert.deepEqual(
        [await unhit(browser), await browser.value("document.querySelector('.console').checkVisibility({ visibilityProperty: true })")],
        [[], false]
    );
    await new Promise((resolve) => setTimeout(resolve, 600));
    await browser.value("(globalThis.isOld = true, location.reload())").catch(() => {});
    await browser.waitFor(
        "globalThis.isOld === undefined && document.documentElement.dataset.ready === 'true' && laboratoryOfPage().printed.count > 0"
    );
    await settled(browser);
    assert.deepEqual(
        await browser.value("[document.querySelector('.paper').textContent, document.querySelectorAll('.piece-left option').length]"),
        ["", 0]
    );
    await browser.press("#pull-up");
    assert.equal(await browser.value("document.querySelectorAll('.piece-left option').length"), 2);
    await browser.open(`${address}?lang=en&door=work`);
}

const VISITS = { struckKeys, typedKeys, pulledUp, typedAgain };

/** The visits, each by its name. */
export const visitsOfPaper = (address) => (
    Object.fromEntries(Object.entries(VISITS).map(([name, visit]) => [name, (browser) => visit(browser, address)]))
);
