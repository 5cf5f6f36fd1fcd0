// Visits of a hand that is never surprised: what was written is there whatever is pressed first, one writes where the cursor is, Escape
// stops, a word that is let go stays, and what is said of a run is so.
import assert from "node:assert/strict";

const EDITOR = "document.querySelector('.source .CodeMirror').CodeMirror";
const settled = (browser) => browser.value("laboratoryOfPage().settled()");
const textOf = (browser, selector) => browser.value(`document.querySelector(${JSON.stringify(selector)}).textContent`);

/** New is pressed as soon as it is there, before the work has come back: what was written is in the list of works, and is found by that. */
async function newAfterReload(browser, address) {
    await browser.open(`${address}?lang=en&door=work`);
    await browser.write("; written before the reload\n z\n end");
    await browser.waitFor("document.querySelector('.source .told').textContent !== ''");
    await settled(browser);
    const undo = await browser.preload?.(
        "addEventListener('DOMContentLoaded', () => { const wait = () => { const it = document.getElementById('new'); if (it === null) setTimeout(wait); else it.click(); }; wait(); });"
    );
    await browser.value("void (globalThis.isOld = true, location.reload())").catch(() => {});
    await browser.waitFor("globalThis.isOld === undefined && document.documentElement.dataset.ready === 'true'");
    await undo?.();
    await settled(browser);
    await browser.value(
        "(() => { const it = document.getElementById('example'); it.value = 'first-run'; it.dispatchEvent(new Event('change')); })()"
    );
    await browser.waitFor("laboratoryOfPage().script?.name === 'first-run'");
    await settled(browser);
    await browser.press("#works");
    await browser.waitFor("document.querySelector('dialog li button') !== null");
    for (let place = 0; !await browser.value(`${EDITOR}.getValue().includes("written before the reload")`); place += 1) {
        await browser.closeDialog();
        await browser.press("#works");
        await browser.waitFor("document.querySelector('dialog li') !== null");
        assert.ok(
            await browser.value(`document.querySelectorAll('dialog li button').length > ${place}`),
            "what was written is in no work of the list"
        );
        await browser.value(`document.querySelectorAll('dialog li button')[${place}].click()`);
        await browser.value("new Promise((resolve) => setTimeout(resolve, 400))");
        await settled(browser);
    }
    await browser.closeDialog();
}

/**
 * At the end of a line with a fault the cursor that is drawn, which is the browser's own, stands where one writes, and Escape stops the
 * machine from there.
 */
async function cursorAndEscape(browser, address) {
    await browser.open(`${address}?lang=en&door=work`);
    await browser.write("start   b zero\n        h sum\nloop    u loop\n        end start");
    await browser.waitFor("document.querySelectorAll('.source .fault').length > 0");
    await browser.value(`(${EDITOR}.focus(), ${EDITOR}.setCursor(0, 3))`);
    for (const line of [0, 1]) {
        await browser.value(`${EDITOR}.setCursor(${line}, 2)`);
        await browser.strike("End");
        const drawn = await browser.value(
            `(() => { const [{ focusNode, focusOffset }, pre, range] = [getSelection(), document.querySelectorAll('.source .CodeMirror-line')[${line}], document.createRange()]; if (!pre.contains(focusNode)) return null; range.setStart(pre, 0); range.setEnd(focusNode, focusOffset); return range.toString().length; })()`
        );
        assert.equal(
            drawn,
            await browser.value(`${EDITOR}.getLine(${line}).length`),
            `line ${line + 1}: the cursor is drawn elsewhere than where one writes`
        );
    }
    await browser.write("start   u start\n        end start");
    await browser.value(`${EDITOR}.focus()`);
    await browser.strike("Enter", "Control");
    await browser.waitFor("document.querySelector('#go-on').dataset.on === 'true' && laboratoryOfPage().progress !== null");
    await browser.value(`${EDITOR}.focus()`);
    await browser.strike("Escape");
    await browser.waitFor("document.querySelector('#go-on').dataset.on === 'false'");
}

/**
 * While one writes from above nobody is blamed: not for the line in work, not for what is still to come. A label goes to its column by
 * itself, and what a run needs is told when it is wanted.
 */
async function quietFaults(browser, address) {
    await browser.open(`${address}?lang=en&door=work`);
    await browser.value(`${EDITOR}.focus()`);
    await browser.type("start   b zero");
    await browser.strike("Enter");
    await browser.type("loop h sum");
    assert.equal(await browser.written(), "start   b zero\nloop    h sum");
    await browser.strike("Enter");
    await browser.type("u lo");
    assert.deepEqual(await browser.value("[...document.querySelectorAll('.CodeMirror-hints li b')].map((it) => it.textContent)"), ["loop"]);
    await browser.strike("Escape");
    await browser.waitFor(`laboratoryOfPage() !== null && document.querySelector('.source .verdict').dataset.is === ''`);
    await browser.value("new Promise((resolve) => setTimeout(resolve, 600))");
    assert.deepEqual(
        await browser.value("[document.querySelectorAll('.source .fault').length, document.querySelector('.source .told').textContent]"),
        [0, ""]
    );
    await browser.press("#run-program");
    await browser.waitFor("/^Line 1: zero – no line has that label/.test(document.querySelector('.source .told').textContent)");
    assert.ok(await browser.value("document.querySelectorAll('.source .fault').length >= 3"));
}

/**
 * A word that is let go by Escape stays where it was, however the pointer moves then; and in Work its number is seen, whatever tab was
 * open.
 */
async function endOfCarry(browser, address) {
    await browser.open(`${address}?lang=en&door=work`);
    await browser.write("start b one\n a one\n h sum\n z\none int 5 30\nsum word 00000000\n end start");
    await browser.press("#run-program");
    await browser.waitFor("laboratoryOfPage().panel.status === 'halted stop'");
    await settled(browser);
    await browser.value("laboratoryOfPage().askCosts('0004')");
    await browser.waitFor("document.querySelector('.drum .grip') !== null");
    const grip = await browser.value(
        "(({ left, top, width, height }) => [left + width / 2, top + height / 2].map(Math.round))(document.querySelector('.drum .grip').getBoundingClientRect())"
    );
    const sector = () => browser.value("document.querySelector('.drum .grip').getAttribute('aria-valuenow')");
    const before = await sector();
    await browser.lead([grip, "down", [grip[0] + 30, grip[1] + 60]]);
    assert.notEqual(await sector(), before);
    assert.equal(await browser.value("document.querySelector('.carried-told').checkVisibility()"), true);
    await browser.strike("Escape");
    assert.equal(await sector(), before);
    await browser.lead([[grip[0] + 32, grip[1] + 90], "up"]);
    assert.equal(await sector(), before);
    assert.equal(await browser.value("document.querySelectorAll('.drum .grip.held').length"), 0);
}

/** Run my program in a task: what is said of it is so, and without a right source the machine stays as it is. */
async function taskRun(browser, address) {
    await browser.open(`${address}?lang=en&task=sum`);
    await settled(browser);
    const said = () => textOf(browser, ".task-answer");
    await browser.write("start   z\n        end start", ".task-desk");
    await browser.press("#run-task");
    await browser.waitFor("laboratoryOfPage().panel.status === 'halted stop'");
    await settled(browser);
    assert.equal(await said(), "");
    const before = await browser.value("[laboratoryOfPage().lines.length, String(laboratoryOfPage().panel.clock)]");
    for (const [source, wanted] of [
        ["", /^There is no program yet/],
        ["start   q\n        end start", /Line 1: there is no such operation/],
        ["start   z\n        end", /does not say where to start/],
    ]) {
        await browser.write(source, ".task-desk");
        await browser.press("#run-task");
        await browser.waitFor("document.querySelector('.task-answer').textContent !== ''");
        await settled(browser);
        assert.match(await said(), wanted);
        assert.deepEqual(await browser.value("[laboratoryOfPage().lines.length, String(laboratoryOfPage().panel.clock)]"), before, source);
    }
    await browser.open(`${address}?lang=en&door=work`);
    await browser.press("#run-program");
    await browser.waitFor("document.querySelector('#notice').textContent.startsWith('There is no source')");
}

/** On a screen of a lesson no two buttons have one name; a step that is done is not said to be open, and the last answer counts. */
async function lessonSays(browser, address) {
    for (const code of ["en", "de"]) {
        await browser.open(`${address}?lang=${code}&lesson=a-computer-on-a-drum&step=3`);
        await settled(browser);
        const twice = await browser.value(
            "(() => { const names = [...document.querySelectorAll('#page button')].filter((it) => it.checkVisibility() && it.closest('table, .rail, .paces') === null).map((it) => it.querySelector('.word')?.textContent ?? it.textContent); return names.filter((name, place) => name !== '' && names.indexOf(name) !== place); })()"
        );
        assert.deepEqual(twice, [], code);
    }
    await browser.open(`${address}?lang=en&lesson=a-computer-on-a-drum&step=3`);
    await settled(browser);
    const types = async (line) => {
        await browser.value(
            `(() => { const form = document.querySelector('.lesson li.now .types'); form.querySelector('input').value = ${JSON.stringify(line)}; form.requestSubmit(); })()`
        );
        await settled(browser);
    };
    await types("put 0000 b 50");
    assert.match(await textOf(browser, ".lesson li.now .hint"), /^Not yet/);
    for (const line of await browser.value("[...document.querySelectorAll('.lesson li.now .what code')].map((it) => it.textContent)")) {
        await types(line);
    }
    await browser.waitFor("document.querySelector('.rail [aria-current]').classList.contains('is-done')");
    assert.equal(await textOf(browser, ".lesson li.now .hint"), "");
}

/**
 * A list of addresses is one stop of Tab: arrows, Home and End go among its rows, and what is pressed there keeps the focus as the list is
 * filled anew.
 */
async function oneStopEach(browser, address) {
    await browser.open(`${address}?lang=en#self-modifying`);
    // a browser that gives a page that is driven no focus tells it of none
    if (!(await browser.value("document.hasFocus()"))) return "but not looked at, since this browser gives the page no focus";
    await settled(browser);
    for (let order = 0; order < 3; order += 1) {
        await browser.press("#step");
        await browser.halt();
        await settled(browser);
    }
    for (const list of [".listing tbody", ".accounts tbody"]) {
        await browser.reveal(list);
        const stops = () => (
            browser.value(`[...document.querySelectorAll('${list} button')].filter((it) => it.tabIndex === 0).map((it) => it.textContent)`)
        );
        const rows = await browser.value(`[...document.querySelectorAll('${list} button')].map((it) => it.textContent)`);
        assert.ok(rows.length >= 3, list);
        // a list that was not seen is made one stop in the next picture
        await browser.waitFor(`[...document.querySelectorAll('${list} button')].filter((it) => it.tabIndex === 0).length === 1`);
        await browser.value(`document.querySelector("${list} button[tabindex='0']").focus()`);
        for (const [key, wanted] of [
            ["Home", rows[0]], ["ArrowUp", rows[0]], ["ArrowDown", rows[1]], ["End", rows.at(-1)], ["ArrowUp", rows.at(-2)],
        ]) {
            await browser.strike(key);
            assert.deepEqual(
                [await browser.value("document.activeElement.textContent"), await stops()], [wanted, [wanted]], `${list} ${key}`
            );
        }
    }
    await browser.value("document.querySelector(\"tr[data-address='0004'] button\").focus()");
    await browser.strike("Enter");
    await settled(browser);
    await browser.strike("s");
    await browser.halt();
    await settled(browser);
    assert.deepEqual(await browser.value("[document.activeElement.dataset.name, document.activeElement.tabIndex]"), ["0004", 0]);
}

const VISITS = { newAfterReload, cursorAndEscape, quietFaults, endOfCarry, taskRun, lessonSays, oneStopEach };

/** The visits of the page at an address, by their names. */
export const visitsOfSure = (address) => (
    Object.fromEntries(Object.entries(VISITS).map(([name, visit]) => [name, (browser) => visit(browser, address)]))
);
