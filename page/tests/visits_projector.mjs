// Visits of a teacher who shows a lesson to a class: one step, large, in one window, with its own controls alone.
import assert from "node:assert/strict";

const SIZES = [[1024, 768], [1280, 720], [1920, 1080]];
/** Of each lesson a step: one with an answer, one with lines, one that prints. */
const STEPS = ["a-computer-on-a-drum&step=6", "a-computer-on-a-drum&step=3", "rewriting&step=14", "what-can-a-forecast-know&step=1"];
const OWN = ".steps, .lesson-foot, .telling, .drum, .console, .drives, #leave-projector";

const settled = (browser) => browser.value("laboratoryOfPage().settled()");
const strike = (browser, key) => browser.value(
    `void (document.activeElement ?? document.body).dispatchEvent(new KeyboardEvent("keydown", { key: "${key}", bubbles: true }))`
);
const stepHere = (browser) => browser.value("new URLSearchParams(location.search).get('step')");

/**
 * What is seen: controls that are not the view's own, whether all is in the window, and the size of the step's letters and of its words,
 * against the height of the window.
 */
const seen = (browser) => browser.value(`(() => {
    const size = (selector) => parseFloat(getComputedStyle(document.querySelector(selector)).fontSize);
    const controls = [...document.querySelectorAll("#page :is(button, input, select, a[href], summary)")].filter((it) => it.checkVisibility({ visibilityProperty: true }) && it.closest(${JSON.stringify(OWN)}) === null);
    const within = ["main", ".steps .now", "#step-next", "#step", "#leave-projector", ".drum-box"].filter((it) => { const { right, bottom } = document.querySelector(it).getBoundingClientRect(); return right > innerWidth + 1 || bottom > innerHeight + 1; });
    return { others: controls.map((it) => it.id || it.textContent), within, what: size(".steps .now .what") / Math.min(innerWidth, innerHeight), word: size(".words-table code") / Math.min(innerWidth, innerHeight), drum: document.querySelector(".drum-box").getBoundingClientRect().width / innerWidth };
})()`);

/** Each step is in the window, without the page's other controls, and its letters are large for the window. */
async function projector(browser, address) {
    for (const [width, height] of SIZES) for (const step of STEPS) {
        await browser.size(width, height);
        await browser.open(`${address}?lang=${width === 1280 ? "de" : "en"}&lesson=${step}&projector`);
        await settled(browser);
        const { others, within, what, word, drum } = await seen(browser);
        assert.deepEqual(
            [others, within, what > 0.034, word > 0.02, drum > 0.35],
            [[], [], true, true, true],
            `${step} at ${width} by ${height}: ${what} ${word} ${drum}`
        );
    }
    await browser.size(1500, 1250);
}

/**
 * A link leads from a lesson to the view; a presenter's keys turn the steps, the machine does what the step asks, and Escape leads back to
 * the pupil's view of the same step.
 */
async function projectorKeys(browser, address) {
    await browser.open(`${address}?lang=en&lesson=a-computer-on-a-drum&step=3`);
    await settled(browser);
    await browser.press("#to-projector");
    assert.equal(
        await browser.value("document.body.hasAttribute('data-projector') && new URLSearchParams(location.search).has('projector')"), true
    );
    for (const key of ["PageDown", "PageDown"]) {
        await strike(browser, key);
        await settled(browser);
    }
    await browser.waitFor("new URLSearchParams(location.search).get('step') === '5' && laboratoryOfPage().panel.clock === 67n");
    // the focus is in the field of step 5, whose cursor an arrow moves
    await strike(browser, "ArrowLeft");
    assert.equal(await stepHere(browser), "5");
    await strike(browser, "PageUp");
    await browser.waitFor("new URLSearchParams(location.search).get('step') === '4' && laboratoryOfPage().panel.clock === 0n");
    await strike(browser, "Escape");
    assert.deepEqual(
        [
            await stepHere(browser),
            await browser.value(
                "[document.body.hasAttribute('data-projector'), new URLSearchParams(location.search).has('projector'), document.querySelector('.doors').checkVisibility(), document.querySelector('#leave-projector').checkVisibility()]"
            ),
        ],
        ["4", [false, false, true, false]]
    );
    await browser.value("void history.back()");
    await browser.waitFor("document.body.hasAttribute('data-projector')");
}

const VISITS = { projector, projectorKeys };

/** The visits of a teacher with a projector, by their names. */
export const visitsOfProjector = (address) => (
    Object.fromEntries(Object.entries(VISITS).map(([name, visit]) => [name, (browser) => visit(browser, address)]))
);
