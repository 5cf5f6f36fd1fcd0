// A visit of the examples in German: what is shown of one is in the page's language, and changes with it.
import assert from "node:assert/strict";

const settled = (browser) => browser.value("laboratoryOfPage().settled()");
const textOf = (browser, selector) => browser.value(`document.querySelector(${JSON.stringify(selector)}).innerText`);

async function choose(browser, id, value) {
    await browser.value(
        `(() => { const it = document.getElementById("${id}"); it.value = "${value}"; it.dispatchEvent(new Event("change")); })()`
    );
    await settled(browser);
}

/** Titles, explanation, script, the words' comments and the source of an example are German; another language has its own. */
async function examplesInGerman(browser, address) {
    await browser.open(`${address}?lang=de#self-modifying`);
    assert.equal(
        await textOf(browser, "option[value='first-run']"),
        "first-run: Der erste Lauf: Zwei Zahlen werden addiert, die Summe wird gespeichert, und die Maschine hält an"
    );
    assert.match(await textOf(browser, ".explanation-text"), /^Ein Programm, das seine eigenen Befehle ändert/);
    assert.match(await textOf(browser, ".script pre"), /; Die Routine: Sie addiert die Wörter auf 0100 bis 0103\./);
    assert.match(await textOf(browser, "tr[data-address='0003']"), /anhalten/);
    await choose(browser, "example", "drum/household");
    assert.match(await browser.written(), /a wage +; die Schleife: was geschuldet wird, bleibt im Akkumulator\n/);
    assert.deepEqual(await browser.value("laboratoryOfPage().assembled.faults"), []);
    const before = await browser.value("laboratoryOfPage().script.at");
    await choose(browser, "language", "en");
    assert.match(await textOf(browser, ".explanation-text"), /^The household of placed-badly-and-well/);
    assert.equal(await browser.value("laboratoryOfPage().script.at"), before);
    await choose(browser, "language", "de");
    assert.match(await textOf(browser, ".explanation-text"), /^Der Haushalt von placed-badly-and-well/);
}

/**
 * Work opens with a source in each example, also where a script puts the words in: it is written by nobody, is lit as the machine goes,
 * changes with the language, and is kept once somebody has changed it.
 */
async function sourceBeside(browser, address) {
    await browser.open(`${address}?lang=en&door=work`);
    const names = await browser.value("[...document.querySelectorAll('#example option')].map((it) => it.value).filter((it) => it !== '')");
    assert.ok(names.length > 20, names.join());
    for (const name of names) {
        await choose(browser, "example", name);
        await browser.waitFor(
            "laboratoryOfPage().script !== null && document.querySelector('.source .CodeMirror').CodeMirror.getValue() !== ''"
        );
    }
    await browser.open(`${address}?lang=en#self-modifying`);
    await browser.waitFor("document.querySelector('.source .verdict').dataset.is === 'right'");
    assert.match(await browser.written(), /^; The sum of a table, by orders that change other orders\.\nstart {3}r exit/);
    assert.deepEqual(
        await browser.value(
            "[laboratoryOfPage().source, laboratoryOfPage().loaded, document.querySelector('.source .told').textContent.includes('There is no source')]"
        ),
        ["", null, false]
    );
    await browser.tap("#step");
    await browser.halt();
    await settled(browser);
    const lit = () => browser.value(
        "(({ CodeMirror: it }) => it.lineCount() > 1 && Array.from({ length: it.lineCount() }, (_, line) => it.lineInfo(line)).filter(({ wrapClass, bgClass }) => /now/.test(`${wrapClass} ${bgClass}`)).map(({ text }) => text))(document.querySelector('.source .CodeMirror'))"
    );
    assert.deepEqual((await lit()).map((line) => line.slice(0, 14)), ["start   r exit"]);
    await choose(browser, "language", "de");
    assert.match(await browser.written(), /^; Die Summe einer Tabelle, durch Befehle, die andere Befehle aendern\.\n/);
    await choose(browser, "language", "en");
    const changed = (await browser.written()).replace("00000008", "0000000f");
    await browser.write(changed);
    await choose(browser, "language", "de");
    assert.equal(await browser.written(), changed);
    await browser.tap("#run-program");
    await browser.waitFor("laboratoryOfPage().panel.status === 'halted stop'");
    await settled(browser);
    assert.equal(await browser.value("laboratoryOfPage().source"), changed);
}

/** What is told of a clock, of a fraction and of what an order takes, each digit as a zero. */
const NUMBERS = {
    en: ["clock 00,000 · turn 000.0", "clock 00,000", "whole number 00,000, fraction 0.000000000", "takes 00 word times"],
    de: ["Uhr 00\u202f000 · Umdrehung 000,0", "Uhr 00\u202f000", "ganze Zahl 00\u202f000, Bruch 0,000000000", "dauert 00 Wortzeiten"],
};

/**
 * A word that a source declares as a whole number is read in decimal in the list of words, in what an order has stored and in the
 * accumulator, in the language's signs; other words as orders or digits. What an order did is in one cell, and not cut; its digits are in
 * the title.
 */
async function wholesShown(browser, address) {
    await browser.open(`${address}?lang=en&door=work`);
    await browser.write(
        "start   b many\n        h sum\n        h other\n        z\nmany    int 12345 30\nsum     int -3 30\nother   word 00000004\n        end start"
    );
    await browser.tap("#run-program");
    await browser.waitFor("laboratoryOfPage().panel.status === 'halted stop'");
    await settled(browser);
    const orderAt = (place) => browser.value(`document.querySelector("tr[data-address='${place}'] td:nth-of-type(4) code").textContent`);
    const effects = () => browser.value("[...document.querySelectorAll('.accounts .effect-of')].map((it) => it.textContent)");
    for (const [code, number] of [["en", "12,345"], ["de", "12\u202f345"]]) {
        await choose(browser, "language", code);
        await browser.value("laboratoryOfPage().showAt('0000')");
        await settled(browser);
        assert.deepEqual(
            [await orderAt("0000"), await orderAt("0004"), await orderAt("0005"), await orderAt("0006")],
            ["b 0004", number, number, `word ${await browser.value("laboratoryOfPage().panel.accumulator")}`],
            code
        );
        const [other, sum] = (await effects()).filter((effect) => effect.includes("→"));
        assert.deepEqual([sum, other], [`sum: -3 → ${number}`, "other: 00000004 → 00006072"]);
        assert.deepEqual(await effects(), [code === "en" ? "stops" : "hält an", other, sum, `A = ${number}`]);
        assert.equal(await browser.value("document.querySelectorAll('.trace-value small')[2].textContent"), number);
        assert.match(await browser.value("document.querySelectorAll('.effect-of')[2].title"), /0005 sum: wwwwwwwf → 00006072/);
        assert.deepEqual(
            await browser.value(
                "['.clock-turn', '.hub-clock', '.registers small', '.phases > :last-child'].map((it) => document.querySelector(it).textContent.replace(/[1-9]/g, '0'))"
            ),
            NUMBERS[code],
            code
        );
    }
    for (const [width, height] of [[1366, 768], [1440, 900], [1024, 768], [1500, 1250]]) {
        await browser.size(width, height);
        const cut = await browser.value(
            "(async () => { await new Promise(requestAnimationFrame); return [...document.querySelectorAll('.accounts .effect-of')].filter((it) => it.scrollWidth > it.clientWidth || it.getBoundingClientRect().right > it.closest('.tab-panel').getBoundingClientRect().right || it.getBoundingClientRect().height > 30).map((it) => it.textContent); })()"
        );
        assert.deepEqual(cut, [], `at ${width} by ${height}`);
    }
}

const VISITS = { examplesInGerman, sourceBeside, wholesShown };

/** The visits of the page at an address, by their names. */
export const visitsOfExamples = (address) => (
    Object.fromEntries(Object.entries(VISITS).map(([name, visit]) => [name, (browser) => visit(browser, address)]))
);
