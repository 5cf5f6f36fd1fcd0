// Visits of people who write something and then press all that can be pressed, load the page again, go back and change the language: what
// they wrote is there again each time. And the address says
// where one is.
import assert from "node:assert/strict";

const settled = (browser) => browser.value("laboratoryOfPage().settled()");
const panelOf = (browser) => (
    browser.value("(({ counter, status, clock }) => ({ counter, status, clock: String(clock) }))(laboratoryOfPage().panel)")
);
const textOf = (browser, selector) => browser.value(`document.querySelector(${JSON.stringify(selector)})?.innerText ?? ""`);
const isReady = "document.documentElement.dataset.ready === 'true'";
const NOW = ".lesson li.now";

async function press(browser, selector) {
    await browser.press(selector);
    await settled(browser);
}

/** Loads the page again, as its reader does. */
async function again(browser) {
    await browser.value("(globalThis.isOld = true, location.reload())").catch(() => {});
    await browser.waitFor(`globalThis.isOld === undefined && ${isReady}`);
    await settled(browser);
}

/** Changes the language to the other one. */
async function otherLanguage(browser) {
    await browser.value(
        "(() => { const it = document.getElementById('language'); it.value = it.value === 'de' ? 'en' : 'de'; it.dispatchEvent(new Event('change')); })()"
    );
    await settled(browser);
}

/** How a selector of an editor ends. */
const EDITOR = " .CodeMirror";

async function write(browser, selector, text) {
    if (selector.endsWith(EDITOR)) return browser.write(text, selector.slice(0, -EDITOR.length));
    return browser.value(
        `(() => { const it = document.querySelector(${JSON.stringify(selector)}); it.value = ${JSON.stringify(text)}; it.dispatchEvent(new Event("input")); })()`
    );
}

const choose =
    (browser, id, value) => browser.value(
        `(() => { const it = document.getElementById("${id}"); it.value = "${value}"; it.dispatchEvent(new Event("change")); })()`
    ).then(() => settled(browser));

const SOURCE = ".source .CodeMirror";
const LINE = ".lines input";
/** What stands in a field or an editor, in the page. */
const VALUE = "((it) => it?.CodeMirror?.getValue() ?? it?.value)";
const valueOf = (browser, selector) => browser.value(`${VALUE}(document.querySelector(${JSON.stringify(selector)})) ?? null`);

/** What was written in Work, by its fields. */
const WRITTEN = {
    [SOURCE]: "; not assembled yet\n b 0050", [LINE]: "; a line that is not sent", [".tape input"]: "7'7'", [".listing form input"]: "0123",
};

async function writeAll(browser) {
    for (const [selector, text] of Object.entries(WRITTEN)) await write(browser, selector, text);
}

const areWritten = (browser) => browser.value(
    `Object.entries(${JSON.stringify(WRITTEN)}).filter(([selector, text]) => ${VALUE}(document.querySelector(selector)) !== text).map(([selector]) => selector)`
);

/** Goes back to the work before by the list of works. */
async function backByList(browser, place = 0) {
    await browser.press("#works");
    await browser.waitFor("document.querySelector('.works') !== null");
    await browser.value(`document.querySelectorAll('[data-work]')[${place}].click()`);
    await browser.waitFor("document.querySelector('dialog') === null");
    await settled(browser);
}

/** Leaves what a press may have led to: a dialog, the kiosk, another door. */
async function backToWork(browser) {
    await browser.closeDialog();
    if (await browser.value("document.body.classList.contains('kiosk')")) {
        await browser.value("dispatchKeys()");
        await browser.waitFor("!document.body.classList.contains('kiosk') && document.querySelector('.doors') !== null");
    }
    if (await browser.value("document.body.dataset.door !== 'work'")) await press(browser, ".doors [data-door-to='work']");
    await browser.waitFor("document.body.dataset.door === 'work'");
    await settled(browser);
}

const noteKeys = (browser) => browser.value(
    "void (globalThis.dispatchKeys = () => { document.body.dispatchEvent(new KeyboardEvent('keydown', { key: 'L', ctrlKey: true, shiftKey: true, bubbles: true })); })"
);

/** All that is written is found: in its fields, or, where another work has begun, in the one before. */
async function isFound(browser, where) {
    try {
        await noteKeys(browser);
        await backToWork(browser);
        if ((await areWritten(browser)).length > 0) {
            await backByList(browser);
            // the work before may have been kept at another door
            await backToWork(browser);
        }
        assert.deepEqual(await areWritten(browser), []);
    } catch (failure) {
        failure.message = `${where}: ${failure.message}`;
        throw failure;
    }
}

/**
 * The controls that are seen, by their names; of keys that do the same there is one, and so of the addresses of the program. `Send` sends
 * what is written, and `Open` and the sheet ask the browser for something.
 */
const CONTROLS = `[...document.querySelectorAll("#page :is(button, summary, a[href]):not(#notices *)")].filter((it) => it.checkVisibility()).map((it) => [it.closest("tr[data-address]") !== null ? "an address" : it.id || it.dataset.name || it.dataset.doorTo || it.dataset.lesson || it.dataset.task || it.dataset.tale || it.getAttribute("aria-label") || it.textContent, it])
    .filter(([name], place, all) => all.findIndex((it) => it[0] === name) === place && !["open", "Send", "Sheet to print"].includes(name))`;

/** How long is waited for going back where nothing tells of it: the page was left, or there is nothing to go back to. */
const LONGEST_BACK = 1000;

/** Goes back; where that leaves the page, forward again. */
async function goneBack(browser) {
    const isBack = browser.value(
        "new Promise((resolve) => { addEventListener('popstate', () => resolve(true), { once: true }); history.back(); })"
    ).catch(() => {});
    await Promise.race([isBack, new Promise((resolve) => { setTimeout(resolve, LONGEST_BACK); })]);
    if (await browser.value("document.querySelector('#page') === null").catch(() => true)) {
        await browser.value("void history.forward()").catch(() => {});
    }
    await browser.waitFor(`${isReady}`);
    await settled(browser);
}

/** The ways to leave the page as it is and to come back. */
const WAYS = {
    "loading again": again,
    "another language": otherLanguage,
    "going back": goneBack,
};

/** Which of the controls are pressed: all, or in a slow engine each third. */
const pressed = ({ engine }, place) => engine !== "WebKit" || place % 3 === 1;

/**
 * Presses each control that is seen in a section, one after another, after something was written in Work; and goes each of the ways after
 * each third.
 */
async function pressEach(browser, door) {
    const goThere = () => (door === "work" ? undefined : press(browser, `.doors [data-door-to="${door}"]`));
    await backToWork(browser);
    await goThere();
    const controls = (await browser.value(`${CONTROLS}.map(([name]) => name)`)).filter((unused, place) => pressed(browser, place));
    for (const [round, name] of controls.entries()) {
        if (await browser.value("document.documentElement.lang !== 'en'")) await otherLanguage(browser);
        await goThere();
        await browser.value(`${CONTROLS}.find(([name]) => name === ${JSON.stringify(name)})?.[1].click()`);
        if (name === "kiosk") await browser.waitFor("document.querySelector('.kiosk-bar') !== null");
        await settled(browser);
        await isFound(browser, `after ${name} in ${door}`);
        const [way, go] = Object.entries(WAYS)[round % 3];
        await go(browser);
        await browser.waitFor(isReady);
        await isFound(browser, `after ${name} in ${door} and ${way}`);
    }
    return controls.length;
}

/** Each control of the page is pressed after something was written. */
async function eachControl(browser, address) {
    await browser.open(`${address}?lang=en&door=work#self-modifying`);
    await writeAll(browser);
    await noteKeys(browser);
    let count = 0;
    for (const door of ["work", "learn", "look"]) count += await pressEach(browser, door);
    assert.ok(count > (browser.engine === "WebKit" ? 25 : 80), `${count} controls`);
    await browser.open(`${address}?lang=en&door=work`);
    return `${count} controls`;
}

/** New, an example, a file, the kiosk and a language take nothing away: what was there is had back, with its machine. */
async function undo(browser, address) {
    await browser.open(`${address}?lang=en&door=work`);
    await browser.value("laboratoryOfPage().say('put 0000 b 0003', 'put 0003 = 4', 'press start', 'run 1')");
    await writeAll(browser);
    const before = await panelOf(browser);
    for (const action of [
        () => press(browser, "#new"), () => choose(browser, "example", "first-run"), () => choose(browser, "example", "drum/household"),
    ]) {
        await action();
        await browser.waitFor("document.querySelector('#notice:not([hidden]) button') !== null");
        assert.notDeepEqual(await panelOf(browser), before);
        await browser.press("#notice button");
        await browser.waitFor(`laboratoryOfPage().panel.clock === ${before.clock}n`);
        await settled(browser);
        assert.deepEqual([await panelOf(browser), await areWritten(browser)], [before, []]);
    }
    await press(browser, "#new");
    assert.equal(await valueOf(browser, SOURCE), WRITTEN[SOURCE]);
    await again(browser);
    assert.deepEqual([(await panelOf(browser)).clock, await valueOf(browser, SOURCE)], ["0", WRITTEN[SOURCE]]);
    await backByList(browser);
    assert.deepEqual([await panelOf(browser), await areWritten(browser)], [before, []]);
}

/** After New no example is named, its script is away, and it can be chosen again. */
async function afterNew(browser, address) {
    await browser.open(`${address}?lang=en#self-modifying`);
    const state = () => browser.value(
        "[document.getElementById('example').value, !document.querySelector('.part.script').hidden, !document.querySelector('.explanation').hidden, location.hash]"
    );
    assert.deepEqual(await state(), ["self-modifying", true, true, "#self-modifying"]);
    await press(browser, "#new");
    assert.deepEqual(await state(), ["", false, false, ""]);
    await choose(browser, "example", "self-modifying");
    assert.deepEqual([await state(), (await panelOf(browser)).status], [["self-modifying", true, true, "#self-modifying"], "going"]);
    await choose(browser, "example", "tables/primes");
    assert.equal(await browser.value("location.hash"), "#tables/primes");
    await again(browser);
    assert.deepEqual(await state(), ["tables/primes", true, true, "#tables/primes"]);
    await browser.value("laboratoryOfPage().say('new')");
    assert.deepEqual((await state()).slice(0, 2), ["", false]);
}

/** An example that the hall, a story or a lesson shows is not named as the one that is open, so it can be chosen there. */
async function exampleFromAnywhere(browser, address) {
    for (const query of ["door=hall", "story=2", "lesson=rewriting&step=13"]) {
        await browser.open(`${address}?lang=en&${query}`);
        await settled(browser);
        assert.equal(await browser.value("document.getElementById('example').value"), "", query);
        await choose(browser, "example", "self-modifying");
        await browser.waitFor("document.body.dataset.door === 'work' && location.hash === '#self-modifying'");
        await settled(browser);
        assert.deepEqual(
            [await browser.value("document.getElementById('example').value"), (await panelOf(browser)).status],
            ["self-modifying", "going"],
            query
        );
    }
}

/** The list has the last ten works, the newest first. */
async function tenWorks(browser, address) {
    await browser.open(`${address}?lang=en&door=work`);
    for (let made = 0; made < 12; made += 1) {
        await write(browser, SOURCE, `; work ${made}\n z`);
        await press(browser, "#new");
        await browser.waitFor("document.querySelector('#notice:not([hidden]) button') !== null");
    }
    await browser.press("#works");
    await browser.waitFor("document.querySelector('.works') !== null");
    assert.equal(await browser.value("document.querySelectorAll('.works li').length"), 10);
    await browser.closeDialog();
    await backByList(browser, 3);
    assert.equal(await valueOf(browser, SOURCE), "; work 8\n z");
}

const stepNow = (browser) => (
    browser.value(`[document.querySelector("${NOW} .mark")?.textContent ?? null, new URLSearchParams(location.search).get("step")]`)
);
const reached = (browser, step) => browser.waitFor(`document.querySelector("${NOW} .mark")?.textContent === "${step}"`);

/**
 * Going back and forth in a lesson leaves one work at most, however often; a machine at which the pupil has done something since is kept as
 * one.
 */
async function backAndForth(browser) {
    const count = async () => {
        await browser.press("#works");
        await browser.waitFor("document.querySelector('.works') !== null");
        const works = await browser.value("document.querySelectorAll('.works li').length");
        await browser.closeDialog();
        return works;
    };
    await browser.press("#step-back");
    await reached(browser, 8);
    const before = await count();
    for (const [selector, step] of [["#step-back", 7], ["#step-back", 6], ["#step-next", 7], [".rail li:nth-child(9) button", 9]]) {
        await browser.press(selector);
        await reached(browser, step);
    }
    assert.ok(await count() <= before + 1);
    await browser.value("laboratoryOfPage().say('put 0050 = 7')");
    await browser.press("#step-back");
    await reached(browser, 8);
    await backByList(browser);
    assert.equal(await browser.value("laboratoryOfPage().lines.includes('put 0050 = 7')"), true);
}

/**
 * The address names the step of a lesson: it is reached by it, with its machine; a reload stays there with what was written and done; Back
 * is one step back.
 */
async function stepsByAddress(browser, address) {
    await browser.open(`${address}?lang=en&lesson=rewriting&step=9`);
    await reached(browser, 9);
    assert.deepEqual([await stepNow(browser), (await panelOf(browser)).counter], [["9", "9"], "0006"]);
    await browser.value("laboratoryOfPage().say('watch 0001').then(() => laboratoryOfPage().run())");
    await write(browser, `${NOW} .answer input`, "a 00");
    await write(browser, `${NOW} .types input`, "; half a line");
    const before = await panelOf(browser);
    const state = async () => [
        await panelOf(browser),
        await valueOf(browser, `${NOW} .answer input`),
        await valueOf(browser, `${NOW} .types input`),
        await stepNow(browser),
    ];
    const wanted = [before, "a 00", "; half a line", ["9", "9"]];
    await again(browser);
    await reached(browser, 9);
    assert.deepEqual(await state(), wanted);
    await otherLanguage(browser);
    await reached(browser, 9);
    assert.deepEqual(await state(), wanted);
    await browser.value(
        `(() => { const form = document.querySelector("${NOW} .answer"); form.querySelector("input").value = laboratoryOfPage().words.find(({ address }) => address === "0001").order; form.requestSubmit(); })()`
    );
    await browser.press("#step-next");
    await reached(browser, 10);
    assert.deepEqual(await stepNow(browser), ["10", "10"]);
    await browser.value("history.back()");
    await reached(browser, 9);
    await settled(browser);
    assert.deepEqual([await stepNow(browser), (await panelOf(browser)).counter], [["9", "9"], "0006"]);
    await backAndForth(browser);
    for (const [name, step, counter] of [
        ["a-computer-on-a-drum", 13, "0000"], ["reading-a-listing", 7, "0200"], ["where-a-word-costs-least", 5, "0127"],
    ]) {
        await browser.open(`${address}?lang=en&lesson=${name}&step=${step}`);
        await reached(browser, step);
        assert.deepEqual(await stepNow(browser), [String(step), String(step)], name);
        assert.ok(counter === null || (await panelOf(browser)).status !== "", name);
    }
}

/** A task, a story and a door have their addresses: a reload stays there, and Back goes to the one before. */
async function places(browser, address) {
    await browser.open(`${address}?lang=en&task=sum`);
    assert.match(await textOf(browser, ".lesson summary"), /Add two numbers/);
    await write(browser, ".task-desk .CodeMirror", " z ; mine");
    await browser.value("document.querySelector('[data-task=faster]').click()");
    assert.equal(await browser.value("location.search"), "?lang=en&task=faster");
    await browser.value("history.back()");
    await browser.waitFor("document.querySelector('.task-desk .CodeMirror').CodeMirror.getValue() === ' z ; mine'");
    await again(browser);
    assert.deepEqual(
        [await valueOf(browser, ".task-desk .CodeMirror"), await browser.value("location.search")], [" z ; mine", "?lang=en&task=sum"]
    );
    await browser.press("#begin-task");
    assert.notEqual(await valueOf(browser, ".task-desk .CodeMirror"), " z ; mine");
    await again(browser);
    await write(browser, ".task-desk .CodeMirror", " z ; another");
    await browser.press("#begin-task");
    await again(browser);
    for (const source of [" z ; another", " z ; mine", " z ; another", " z ; mine"]) {
        await browser.press("#take-back-task");
        assert.equal(await valueOf(browser, ".task-desk .CodeMirror"), source);
    }
    await browser.open(`${address}?lang=en&story=2`);
    const caption = () => browser.value(
        "[document.querySelector('[data-tale][aria-pressed=true]')?.dataset.tale, document.querySelector('.caption-at').textContent, location.search]"
    );
    assert.deepEqual(await caption(), ["rewrite", "1 of 5", "?lang=en&story=2&caption=1"]);
    await browser.press("#caption-next");
    await browser.waitFor(
        "document.querySelector('.caption-at').textContent === '2 of 5' && document.querySelector('.caption').getAttribute('aria-busy') === 'false'"
    );
    await again(browser);
    assert.deepEqual(await caption(), ["rewrite", "2 of 5", "?lang=en&story=2&caption=2"]);
    await browser.value("history.back()");
    await browser.waitFor("document.querySelector('.caption-at').textContent === '1 of 5'");
    for (const [query, told] of [
        ["?lang=en&story=9", /unknown story: 9/], ["?lang=en&task=nonesuch", /unknown task: nonesuch\. The tasks are .*sum/],
    ]) {
        await browser.open(address + query);
        assert.match(await textOf(browser, "#notice"), told);
    }
}

/** A language is kept for the next time, where the address names none. */
async function languageKept(browser, address) {
    await browser.open(`${address}?door=work&lang=en`);
    await otherLanguage(browser);
    await browser.open(`${address}?door=work`);
    assert.equal(await browser.value("document.documentElement.lang"), "de");
    await otherLanguage(browser);
    await browser.open(`${address}?door=work`);
    assert.equal(await browser.value("document.documentElement.lang"), "en");
}

const VISITS = { eachControl, undo, afterNew, exampleFromAnywhere, tenWorks, stepsByAddress, places, languageKept };

/** The visits of the page at an address, by their names. */
export const visitsOfStorage = (address) => (
    Object.fromEntries(Object.entries(VISITS).map(([name, visit]) => [name, (browser) => visit(browser, address)]))
);
