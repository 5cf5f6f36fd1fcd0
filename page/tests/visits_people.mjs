// Visits of people who have read nothing before: they see a control and press it where it is seen, and type; nothing is scrolled for them,
// and their keys and presses are counted.
import assert from "node:assert/strict";

const settled = (browser) => browser.value("laboratoryOfPage().settled()");
const textOf = (browser, selector) => browser.value(`document.querySelector(${JSON.stringify(selector)})?.innerText ?? ""`);

/** The middle of what a selector names, as long as it is what is hit there. */
const middleOf = (browser, selector) => browser.value(`(() => {
    const it = document.querySelector(${JSON.stringify(selector)});
    const { left, top, width, height } = it.getBoundingClientRect();
    const [x, y] = [left + width / 2, top + height / 2].map(Math.round);
    return it.contains(document.elementFromPoint(x, y)) ? [x, y] : null;
})()`);

/** Notes what is scrolled from here on. */
const noteScrolls = (browser) => browser.value(
    "void (globalThis.scrolled = [], addEventListener('scroll', ({ target }) => scrolled.push(target.className ?? 'the page'), true))"
);

/** The hands of somebody, who counts what they do. */
function handsOf(browser) {
    const hands = {
        count: 0,
        async press(selector) {
            const place = await middleOf(browser, selector);
            assert.notEqual(place, null, `${selector} is not hit`);
            hands.count += 1;
            await browser.touch(...place);
            await settled(browser);
        },
        async strike(...keys) {
            hands.count += 1;
            await browser.strike(...keys);
        },
        async type(text) {
            for (const sign of text) await hands.strike(sign);
        },
    };
    return hands;
}

/** How many keys and presses there may be from a blank page to the first letter. */
const MOST = 40;

/** From the hall to the first printed letter: the door, the editor, three lines, and the button. What is typed is offered on the way. */
async function firstLetter(browser, address) {
    await browser.size(1366, 768);
    const counts = [];
    for (const code of ["en", "de"]) {
        const hands = handsOf(browser);
        await browser.open(`${address}?lang=${code}`);
        await noteScrolls(browser);
        await hands.press(".hall [data-door-to='work']");
        await hands.press(".source .editor");
        await hands.type("start p");
        assert.match(await textOf(browser, ".CodeMirror-hints"), /^p.*p =h/);
        await hands.type(" =h");
        await hands.strike("Enter");
        await hands.type("z");
        await hands.strike("Enter");
        await hands.type("end s");
        assert.match(await textOf(browser, ".CodeMirror-hints"), /^start/);
        await hands.strike("Enter");
        assert.equal(await browser.written(), "start p =h\n      z\n      end start");
        await hands.press("#run-program");
        await browser.waitFor("document.querySelector('.paper').textContent === 'h'");
        assert.ok(hands.count < MOST, `${hands.count} keys and presses`);
        assert.deepEqual(
            await browser.value(
                "[scrolled.filter((name) => !/CodeMirror|with-arrows/.test(name)), document.querySelector('dialog'), scrollX, scrollY]"
            ),
            [[], null, 0, 0]
        );
        counts.push(hands.count);
    }
    await browser.size(1500, 1250);
    return `${counts.join(" and ")} keys and presses`;
}

const FAULTY = "start b one\n a tow\n h sum\n z\none word 00000002\ntwo word 00000004\nsum word 00000000\n end start";

/**
 * A fault is mended where the page goes to it; then somebody asks the map who put a word there, and goes back to before that order by its
 * row.
 */
async function whoPutIt(browser, address) {
    await browser.size(1366, 768);
    await browser.open(`${address}?lang=en&door=work`);
    const hands = handsOf(browser);
    await browser.write(FAULTY);
    await browser.waitFor("/^Line 2: tow/.test(document.querySelector('.source .told').textContent)");
    await hands.press("#run-program");
    await browser.waitFor("document.querySelector('.source .CodeMirror').CodeMirror.getSelection() === 'tow'");
    await hands.type("two");
    await browser.waitFor("/^No fault: 7 words/.test(document.querySelector('.source .told').textContent)");
    await hands.strike("Enter", "Control");
    await browser.waitFor("laboratoryOfPage().panel.status === 'halted stop'");
    await settled(browser);
    await hands.press("#tab-memory-map");
    await browser.value("document.querySelector('.map').focus()");
    await browser.press("[data-name='mapNumbers']");
    await browser.value("document.querySelector('.map').focus()");
    for (let places = 0; places < 2; places += 1) await hands.strike("ArrowRight");
    await browser.waitFor("/^0006 sum 00000006/.test(document.querySelector('.map-told').textContent)");
    await hands.press("[data-name='map-who']");
    await browser.waitFor("document.querySelector('.map-answer').textContent !== ''");
    const [, order, at] = /put there by (h 0006) sum at (\d{4})/.exec(await textOf(browser, ".map-answer"));
    assert.deepEqual([order, at], ["h 0006", "0002"]);
    await browser.value(
        `document.querySelectorAll(".accounts tbody button").forEach((it) => it.id = it.textContent.startsWith("${at}") ? "its-row" : "")`
    );
    await hands.press("#its-row");
    assert.deepEqual(
        await browser.value("[laboratoryOfPage().panel.counter, document.querySelector('.when output').textContent]"), [at, "order 2 of 4"]
    );
    await browser.waitFor("/^0006 sum 00000000/.test(document.querySelector('.map-told').textContent)");
    await browser.press("[data-name='mapPasses']");
    await browser.press("#tab-memory-program");
    await browser.size(1500, 1250);
}

const VISITS = { firstLetter, whoPutIt };

/** The visits of people, by their names. */
export const visitsOfPeople = (address) => (
    Object.fromEntries(Object.entries(VISITS).map(([name, visit]) => [name, (browser) => visit(browser, address)]))
);
