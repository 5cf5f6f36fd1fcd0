// Visits of people who write a source: what they type is coloured, completed and said to be right or wrong at once, by keys alone; and
// however long it is, the page hears each key.
import assert from "node:assert/strict";
import { drawnAt } from "./seen.mjs";

const settled = (browser) => browser.value("laboratoryOfPage().settled()");
const pause = (milliseconds) => new Promise((resolve) => { setTimeout(resolve, milliseconds); });
const given = (name, otherwise) => Number(process.env[name] ?? otherwise);
/** The most milliseconds of a key, and of a task while a text is pasted or the page is opened. */
const [LONGEST_KEY, LONGEST_EDIT] = [given("LONGEST_KEY", 16), given("LONGEST_EDIT", 100)];

const EDITOR = "document.querySelector('.source .CodeMirror').CodeMirror";
const toldIs = (browser, pattern) => browser.waitFor(`${pattern}.test(document.querySelector('.source .told').textContent)`);
const focusEditor = (browser) => browser.value(`void ${EDITOR}.focus()`);
const seen = (browser, selector) => browser.value(
    `[...document.querySelectorAll(${JSON.stringify(selector)})].filter((it) => it.checkVisibility()).map((it) => it.textContent)`
);
const besides = (browser, selector) => browser.value(drawnAt(selector));
const isFocused = (browser) => browser.value("document.activeElement?.closest('.source .CodeMirror') != null");

/** Long tasks are noted from here on; gives the call that ends that. */
const noteTasks = (browser) => browser.preload(
    "globalThis.longTasks = []; new PerformanceObserver((list) => longTasks.push(...list.getEntries().map(({ duration }) => duration))).observe({ type: 'longtask', buffered: true });"
);
const longestTask = (browser) => browser.value("Math.max(0, ...longTasks)");

/** A program is typed by keys alone: with completion, its places, a fault that is told and mended, a stop, and a run. */
async function writing(browser, address) {
    await browser.open(`${address}?lang=en&door=work`);
    await focusEditor(browser);
    await browser.type("start b one");
    assert.deepEqual(await seen(browser, ".CodeMirror-hints li"), []);
    await browser.strike("Enter");
    assert.deepEqual(await browser.value(`[${EDITOR}.getValue(), ${EDITOR}.getCursor().ch]`), ["start b one\n      ", 6]);
    await browser.type("e");
    assert.deepEqual(await seen(browser, ".CodeMirror-hints li b"), ["e", "end"]);
    await browser.strike("ArrowDown");
    await browser.strike("Enter");
    await browser.type(" st");
    assert.deepEqual(await seen(browser, ".CodeMirror-hints li b"), ["start"]);
    await browser.strike("Escape");
    assert.deepEqual(await seen(browser, ".CodeMirror-hints li"), []);
    await browser.strike(" ", "Control");
    await browser.strike("Enter");
    assert.equal(await browser.written(), "start b one\n      end start");
    await toldIs(browser, /^Line 1: one – no line has that label/);
    await browser.strike("F8");
    assert.equal(await browser.value(`${EDITOR}.getSelection()`), "one");
    await browser.type("*+2");
    await browser.strike("Enter");
    await browser.type("z");
    await browser.strike("Enter");
    await browser.type("word 00000004");
    await toldIs(browser, /^No fault: 3 words, starts at 0000\.$/);
    assert.deepEqual(await besides(browser, ".source .place"), ["0000 00010008", "0001 00000000", "0002 00000004"]);
    await browser.strike("ArrowUp");
    await browser.strike("F9");
    await settled(browser);
    await browser.waitFor("document.querySelectorAll('.source .stop').length === 1");
    assert.deepEqual(await browser.value("laboratoryOfPage().rules"), ["break 0001"]);
    await browser.strike("Enter", "Control");
    await browser.waitFor("laboratoryOfPage().panel.accumulator === '00000004'");
    await settled(browser);
    assert.deepEqual(
        await browser.value(
            `[laboratoryOfPage().panel.counter, document.querySelectorAll('.source .CodeMirror-linebackground.next').length, ${EDITOR}.lineInfo(1).bgClass]`
        ),
        ["0001", 1, "next"]
    );
    await browser.strike("F9");
    await settled(browser);
    assert.deepEqual([await browser.value("laboratoryOfPage().rules"), await besides(browser, ".source .stop")], [[], []]);
}

/** What is exposed below a node of Chromium's accessibility tree: each text, and whatever is said of a text besides. */
function exposedBelow(nodes, { childIds = [] }) {
    const below = childIds.map((id) => nodes.find(({ nodeId }) => nodeId === id)).filter((it) => it !== undefined);
    return below.flatMap((node) => {
        if (!node.ignored && node.role.value === "StaticText") return [{ text: node.name.value }];
        const said = [node.name?.value, node.description?.value].filter((it) => !node.ignored && (it ?? "") !== "");
        return [...said.map((it) => ({ said: it })), ...exposedBelow(nodes, node)];
    });
}

/** What is read out of the source is what is written, and nothing else. */
async function readsWhatIsWritten(browser) {
    const written = await browser.written();
    // some engines end the last line too
    assert.equal((await browser.value("document.querySelector('.source [role=textbox]').innerText")).replace(/\n$/, ""), written);
    assert.deepEqual(await seen(browser, ".source [role=textbox] [title]"), []);
    if (browser.engine !== "Chromium") return;
    const { nodes } = await browser.ask("Accessibility.getFullAXTree");
    const box = nodes.find(({ ignored, role, name }) => !ignored && role.value === "textbox" && name?.value === "The program's text");
    const exposed = exposedBelow(nodes, box);
    assert.equal(box.value.value, written);
    assert.deepEqual(exposed.filter(({ said }) => said !== undefined), []);
    assert.equal(exposed.map(({ text }) => text).join(""), written.replaceAll("\n", ""));
}

/** A screen reader is given what is written and nothing else: no number, no place, no stop, and not what is wrong with a word. */
async function sourceReadOut(browser, address) {
    await browser.open(`${address}?lang=en&door=work`);
    await browser.write("start b one ; bring it\n      z\none   word 00000004\n      end start");
    await focusEditor(browser);
    await toldIs(browser, /^No fault/);
    await browser.strike("ArrowUp");
    await browser.strike("F9");
    await browser.waitFor("document.querySelectorAll('.source .stop').length === 1");
    await readsWhatIsWritten(browser);
    await browser.write("start b one ; bring it\n      q 0050 ; no order\none   word 00000004\n      end start");
    await browser.waitFor("document.querySelector('.source .wave') !== null");
    await readsWhatIsWritten(browser);
}

/**
 * Undo and redo, find, and the ways out: Tab leaves the editor, Shift Tab too, and in another language the text is there, with what can be
 * undone.
 */
async function editing(browser, address) {
    await browser.open(`${address}?lang=en&door=work`);
    await browser.write(" b 0050 ; bring\n h 0051 ; keep\n end 0000");
    await focusEditor(browser);
    await browser.strike("z", "Control");
    assert.equal(await browser.written(), "");
    await browser.strike("y", "Control");
    assert.match(await browser.written(), /^ b 0050/);
    await browser.strike("f", "Control");
    await browser.waitFor("document.querySelector('.CodeMirror-dialog input') === document.activeElement");
    assert.ok(await browser.value("document.activeElement.getAttribute('aria-label')"));
    await browser.type("keep");
    await browser.strike("Enter");
    await browser.strike("Escape");
    assert.deepEqual(await browser.value(`[${EDITOR}.getSelection(), document.querySelector('.CodeMirror-dialog')]`), ["keep", null]);
    await browser.value(
        "(() => { const it = document.getElementById('language'); it.value = 'de'; it.dispatchEvent(new Event('change')); })()"
    );
    assert.match(await browser.written(), /^ b 0050/);
    await focusEditor(browser);
    await browser.strike("z", "Control");
    assert.equal(await browser.written(), "");
    await browser.strike("y", "Control");
    for (const held of [[], ["Shift"]]) {
        await focusEditor(browser);
        await browser.strike("Tab", ...held);
        assert.deepEqual([await isFocused(browser), await browser.value("document.activeElement !== document.body")], [false, true]);
    }
    assert.match(await browser.written(), /^ b 0050 ; bring\n h 0051 ; keep\n end 0000$/);
    assert.deepEqual(
        await browser.value(`(({ role, ariaLabel, ariaMultiLine }) => [role, ariaLabel, ariaMultiLine])(${EDITOR}.getInputField())`),
        ["textbox", "Der Text des Programms", "true"]
    );
}

/**
 * Beside the lines of a source that was loaded the drum's words are shown as they are now: what the program has changed is marked, and is
 * as it was where one goes back.
 */
async function changedWords(browser, address) {
    await browser.open(`${address}?lang=en&door=work`);
    await browser.write("start b sum\n a one\n h sum\n z\none word 00000002\nsum word 00000000\n end start");
    await browser.value("document.querySelector('#run-program').click()");
    await browser.waitFor("document.querySelectorAll('.source .place.changed').length === 1");
    assert.deepEqual(await besides(browser, ".source .place.changed"), ["0005 00000002"]);
    await browser.value("laboratoryOfPage().back(3)");
    await browser.waitFor("document.querySelectorAll('.source .place.changed').length === 0");
    await browser.value("laboratoryOfPage().say('press manual', 'put 0004 00000008')");
    await browser.waitFor(`${drawnAt(".source .place.changed")}[0] === '0004 00000008'`);
    assert.doesNotMatch(await browser.value("laboratoryOfPage().transcript()"), /numbers/);
}

/**
 * What the check asks stands in no transcript. A long comment is one row, begins in the column of all comments, and can be read whole where
 * the cursor goes; a comment alone begins where it is written.
 */
async function apart(browser, address) {
    await browser.open(`${address}?lang=en&door=work`);
    await browser.write(` b 0050 ; ${"a long comment ".repeat(20)}\n end 0000`);
    await toldIs(browser, /^No fault: 1 words/);
    assert.deepEqual(await browser.value("[laboratoryOfPage().lines.length, laboratoryOfPage().assembled]"), [0, null]);
    assert.equal(await browser.value("laboratoryOfPage().transcript()"), "");
    const places = () => browser.value(
        `[...document.querySelectorAll(".source .CodeMirror-line .cm-comment")].map((it) => { const { left, height } = it.getBoundingClientRect(); return [Math.round(left), height < 25]; })`
    );
    await browser.write("; alone\n b 0050 ; short\nstart   h 0051       ; in its column\n z; none\n end 0000");
    const [[alone], [first, isLow], [second]] = await places();
    assert.deepEqual([first === second, first > alone + 100, isLow], [true, true, true]);
    await browser.write(` b 0050 ; ${"a long comment ".repeat(20)}\n end 0000`);
    assert.deepEqual((await places())[0], [first, true]);
    const titleUnderMouse = `(() => {
        const comment = document.querySelector('.source .cm-comment');
        comment.dispatchEvent(new MouseEvent('mouseover', { bubbles: true }));
        return comment.title;
    })()`;
    assert.equal(await browser.value(titleUnderMouse), "a long comment ".repeat(20));
    await browser.value(`(${EDITOR}.focus(), ${EDITOR}.setCursor(0, 300), void ${EDITOR}.scrollIntoView(null))`);
    await browser.strike("End");
    await browser.waitFor(
        `${EDITOR}.cursorCoords(true, "window").left < document.querySelector(".source .CodeMirror").getBoundingClientRect().right`
    );
    const [thought, real] = await browser.value(
        `[${EDITOR}.cursorCoords(true, "window").left, (() => { const it = getSelection().getRangeAt(0); return it.getClientRects()[0]?.left ?? null; })()]`
    );
    assert.ok(real === null || Math.abs(thought - real) <= 1, `the caret is at ${real}, and the editor thinks that it is at ${thought}`);
}

/**
 * What the words of a loaded source are stands at the edge of their lines, as what it is, also while the program runs: a whole number, an
 * order that was changed. The digits beside the lines are seen when they are wanted.
 */
async function values(browser, address) {
    await browser.open(`${address}?lang=en&door=work`);
    const edge = () => browser.value(
        "[...document.querySelectorAll('.source .edge span')].map((it) => [it.dataset.line, it.textContent, it.className].join(' '))"
    );
    await browser.write(
        "start   b count\n a one\n h count\n y change\nchange  a 0000\n h mark\n u start\ncount   int 0 29\none     int 1 29\nmark    word 00000000\n end start"
    );
    await toldIs(browser, /^No fault/);
    assert.deepEqual(await edge(), []);
    await browser.value("laboratoryOfPage().load(document.querySelector('.source .CodeMirror').CodeMirror.getValue())");
    await browser.waitFor("document.querySelectorAll('.source .edge span').length === 2");
    assert.deepEqual(await edge(), ["8 0 whole", "9 1 whole"]);
    await browser.value("laboratoryOfPage().command('press start').then(() => laboratoryOfPage().run(700))");
    await browser.waitFor("document.querySelectorAll('.source .edge span').length === 4");
    assert.deepEqual(await edge(), ["5 a 0136 changed", "8 100 changed", "9 1 whole", "10 00000190 changed"]);
    await browser.go("fast");
    const counted = () => (
        browser.value("Number(document.querySelector('.source .edge [data-line=\"8\"]')?.textContent.replaceAll(',', ''))")
    );
    await browser.waitFor(
        "laboratoryOfPage().progress !== null && Number(document.querySelector('.source .edge [data-line=\"8\"]')?.textContent.replaceAll(',', '')) > 1000"
    );
    const before = await counted();
    await pause(800);
    assert.ok(await counted() > before, "the value at the edge stands still while the program runs");
    await browser.halt();
    await settled(browser);
    const isSeen = () => browser.value("document.querySelector('.source .digits').checkVisibility()");
    assert.equal(await isSeen(), false);
    await browser.press("#digits-too");
    assert.deepEqual(
        [await isSeen(), await browser.value("document.querySelector('#digits-too').getAttribute('aria-pressed')")], [true, "true"]
    );
    await browser.press("#digits-too");
}

/** Of 60 keys in a source of 5,000 lines the one that keeps the page busy longest, in milliseconds. */
async function keys(browser, address) {
    await browser.open(`${address}?lang=en&door=work`);
    await browser.write(
        Array.from(
            { length: 5000 }, (unused, line) => `${line < 3000 ? `l${line}` : ""}\t${line < 3000 ? "b 0050" : ""} ; a comment of this line`
        )
            .concat(" end l0")
            .join("\n")
    );
    await toldIs(browser, /^No fault/);
    await browser.value(`(${EDITOR}.focus(), ${EDITOR}.setCursor(2500, 0), ${EDITOR}.scrollIntoView(null, 100))`);
    await pause(500);
    if (browser.ask === undefined) {
        await browser.type(" b 0050 ; abc");
        return assert.match(await browser.value(`${EDITOR}.getLine(2500)`), /^ b 0050 ; abcl2500/);
    }
    await browser.ask("Performance.enable", { timeDomain: "threadTicks" });
    const busy = async () => (await browser.ask("Performance.getMetrics")).metrics.find(({ name }) => name === "TaskDuration").value * 1000;
    const times = [];
    for (const key of " b l2400 ; what is written here is heard at once, whole and early".slice(0, 60)) {
        const before = await busy();
        await browser.strike(key);
        times.push([await busy() - before, key]);
    }
    times.sort(([one], [other]) => one - other);
    const [longest] = times.at(-1);
    assert.ok(
        longest <= LONGEST_KEY,
        `a key takes ${longest} milliseconds, most take ${times[30][0]}: ${times.slice(-6)
            .map(([time, key]) => `${key} ${time.toFixed(1)}`)
            .join(", ")}`
    );
    return `a key takes ${times[30][0].toFixed(1)} ms, the longest ${longest.toFixed(1)} ms`;
}

const PASTED = Array.from({ length: 33_000 }, (unused, line) => `\tb 0050\t; comment ${String(line).padStart(12, "0")}`).join("\n");

/** Pastes a text. Not every engine takes what a paste has from a script, so that is put into the event. */
const paste = (browser, text) => browser.value(`(() => {
    const data = { getData: () => ${JSON.stringify(text)}, setData: () => {}, types: ["text/plain"] };
    ${EDITOR}.getInputField().dispatchEvent(Object.defineProperty(new ClipboardEvent("paste", { bubbles: true, cancelable: true }), "clipboardData", { value: data }));
})()`);

/**
 * 990,000 signs are pasted: in pieces, so that the page hears keys meanwhile. What was pasted is kept whole at once, and one undo takes it
 * back.
 */
async function pasting(browser, address) {
    assert.ok(PASTED.length > 990_000);
    const end = browser.ask === undefined ? null : await noteTasks(browser);
    await browser.open(`${address}?lang=en&door=work`);
    await browser.write("; before\n");
    await focusEditor(browser);
    await pause(1000);
    if (end !== null) await browser.value("void longTasks.splice(0)");
    await paste(browser, PASTED);
    await browser.waitFor(`${EDITOR}.lineCount() === 33001`);
    await pause(2500);
    const longest = end === null ? 0 : await longestTask(browser);
    assert.equal(await browser.value(`${EDITOR}.getValue().length`), PASTED.length + 9);
    await browser.strike("z", "Control");
    assert.equal(await browser.written(), "; before\n");
    await paste(browser, PASTED);
    await browser.value("void (globalThis.isOld = true, location.reload())").catch(() => {});
    await browser.waitFor("globalThis.isOld === undefined && document.documentElement.dataset.ready === 'true'");
    await browser.waitFor(`${EDITOR}.lineCount() === 33001`);
    assert.equal(await browser.value(`${EDITOR}.getValue().length`), PASTED.length + 9);
    await end?.();
    assert.ok(longest <= LONGEST_EDIT, `a task of ${longest} milliseconds while 990,000 signs were pasted`);
    return end === null ? undefined : `longest task ${longest.toFixed(0)} ms`;
}

/** Loading the page at any door, and going from the hall to Work, keeps the page busy for no long time on end. */
async function opening(browser, address) {
    if (browser.ask === undefined) return "but not measured, since this browser tells of no tasks";
    const end = await noteTasks(browser);
    const longest = {};
    for (const query of ["door=work#self-modifying", "story=2", "lesson=rewriting&step=13", "task=sum", "kiosk=message", "door=hall"]) {
        await browser.open(`${address}?lang=en&${query}`);
        await settled(browser);
        await pause(1500);
        longest[query] = await longestTask(browser);
    }
    await browser.value("void longTasks.splice(0)");
    await browser.press(".hall [data-door-to='work']");
    await browser.waitFor("document.body.dataset.door === 'work'");
    await settled(browser);
    await pause(1500);
    longest["from the hall to Work"] = await longestTask(browser);
    await end();
    const told = Object.entries(longest).map(([where, milliseconds]) => `${where} ${milliseconds.toFixed(0)} ms`).join(", ");
    assert.ok(Math.max(...Object.values(longest)) <= LONGEST_EDIT, `the longest tasks while the page was opened: ${told}`);
    return `longest tasks: ${told}`;
}

/**
 * The card comes and goes by one key, beside what is written; it lights the operation of the line, and the focus stays. Other keys run the
 * program, and go an order on and back.
 */
async function card(browser, address) {
    for (const code of ["en", "de"]) {
        await browser.open(`${address}?lang=${code}&door=work`);
        await browser.write("start b one\n z\none word 00000002\n end start");
        await browser.value(`(${EDITOR}.focus(), ${EDITOR}.setCursor(0, 7))`);
        await browser.strike("F1");
        assert.deepEqual(
            await browser.value(
                "[document.getElementById('card').checkVisibility(), [...document.querySelectorAll('#card .lit th')].map((it) => it.textContent), document.querySelectorAll('#card tbody:first-of-type tr').length > 20]"
            ),
            [true, ["b"], true]
        );
        assert.equal(await isFocused(browser), true);
        await browser.value(`${EDITOR}.setCursor(2, 5)`);
        assert.deepEqual(await seen(browser, "#card .lit th"), ["word"]);
        await browser.strike("Escape");
        assert.deepEqual([await seen(browser, "#card"), await isFocused(browser)], [[], true]);
        await browser.value("document.activeElement.blur()");
        await browser.strike("Enter", "Control");
        await browser.waitFor("laboratoryOfPage().panel.status === 'halted stop'");
        await settled(browser);
        await browser.strike("F10", "Shift");
        await settled(browser);
        assert.equal(await browser.value("laboratoryOfPage().panel.counter"), "0001");
        await browser.strike("F10");
        await settled(browser);
        assert.equal(await browser.value("laboratoryOfPage().panel.status"), "halted stop");
    }
}

/** A press on the bar of an order, by the mouse or by keys, says why it has waited, until another order is performed. */
async function bars(browser, address) {
    await browser.open(`${address}?lang=en&door=work`);
    await browser.write("start b one\n a one\n z\none word 00000002\n end start");
    await browser.value("document.querySelector('#run-program').click()");
    await browser.waitFor("document.querySelectorAll('.accounts .account-bar').length === 3");
    await settled(browser);
    const [told, account] = await browser.value(
        "(() => { const { at, order, find, seek, word } = laboratoryOfPage().accounts[1]; document.querySelectorAll('.accounts .account-bar')[1].click(); return [document.querySelector('.sentence-of-order').textContent, { at, order, find, seek, word }]; })()"
    );
    assert.match(
        told,
        new RegExp(
            `^${account.order} is at ${account.at}\\. When it was sought, sector \\d\\d was next under the head, so it came after ${account.find} places\\. Its word is at ${account.word}; then sector \\d\\d was next, so that came after ${account.seek} places\\.`
        )
    );
    await browser.value("document.querySelectorAll('.accounts .account-bar')[2].focus()");
    if (browser.ask === undefined) await browser.value("document.activeElement.click()");
    else await browser.strike("Enter");
    assert.match(await browser.value("document.querySelector('.sentence-of-order').textContent"), /^b 0003 one is at 0000\./);
    await browser.press("#back");
    await settled(browser);
    assert.doesNotMatch(await browser.value("document.querySelector('.sentence-of-order').textContent"), /was next under the head/);
}

const VISITS = { bars, card, changedWords, values, writing, sourceReadOut, editing, apart, keys, pasting, opening };

/** The visits of the editor of the page at an address, by their names. */
export const visitsOfEditor = (address) => (
    Object.fromEntries(Object.entries(VISITS).map(([name, visit]) => [name, (browser) => visit(browser, address)]))
);
