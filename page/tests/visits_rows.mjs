// Visits of people with small windows: the drum of a lesson and the editor of a task have room, lists end with a whole row, and what is
// scrolled has a thumb of the page's own.
import assert from "node:assert/strict";

const settled = (browser) => browser.value("laboratoryOfPage().settled()");
const pictured = "await new Promise((resolve) => requestAnimationFrame(() => requestAnimationFrame(resolve)));";

/**
 * At 1,024 by 768 the drum of a lesson has more than half of the width, with all of its numbers; there and in larger windows a task's
 * editor has nine lines, and nothing of either is outside of the window.
 */
async function roomToLearn(browser, address) {
    for (const code of ["en", "de"]) {
        await browser.size(1024, 768);
        await browser.open(`${address}?lang=${code}&lesson=rewriting&step=12`);
        await settled(browser);
        const [drum, column, numbers] = await browser.value(
            "[document.querySelector('.drum-box').offsetWidth, document.querySelector('.cabinet').offsetWidth / document.querySelector('main').offsetWidth, [...document.querySelectorAll('.cell text')].filter((it) => it.checkVisibility({ visibilityProperty: true })).length]"
        );
        assert.ok(drum >= 500 && column >= 0.55, `the drum of a lesson has ${drum} pixels, ${column} of the width`);
        assert.equal(numbers, 64);
        assert.ok(await browser.value("document.querySelector('.lesson .steps').offsetHeight >= 140"));
        for (const [width, height] of [[1024, 768], [1366, 768]]) {
            await browser.size(width, height);
            await browser.open(`${address}?lang=${code}&task=sum`);
            await settled(browser);
            const lines = await browser.value("document.querySelector('.task-desk .CodeMirror').clientHeight / 21");
            assert.ok(lines >= 9, `a task's editor has ${lines} lines at ${width} by ${height}`);
            const outside = await browser.value(
                "[...document.querySelectorAll('main > *')].map((it) => it.getBoundingClientRect()).filter(({ left, right, bottom }) => left < 0 || right > innerWidth || bottom > innerHeight).length"
            );
            assert.equal(outside, 0);
            const cut = await browser.value(
                "(() => { const end = document.querySelector('.scope').getBoundingClientRect().bottom; return [...document.querySelectorAll('.trace-value > *')].filter((it) => it.checkVisibility() && it.getBoundingClientRect().bottom > end).map((it) => it.textContent); })()"
            );
            assert.deepEqual(cut, [], `values of the registers are cut at ${width} by ${height}`);
            assert.deepEqual(
                await browser.value("[...document.querySelectorAll('.tasks button.primary')].map((it) => it.id)"), ["check-task"]
            );
        }
    }
    await browser.size(1500, 1250);
}

/** What of the lists is seen in part alone, and what has a bar of the browser's, once the page has come to rest. */
async function cutRows(browser) {
    for (let round = 0; round < 20; round += 1) if ((await cutNow(browser)).length === 0) return [];
    return cutNow(browser);
}

const cutNow = (browser) => browser.value(`(async () => {
    ${pictured}
    const found = [];
    for (const box of document.querySelectorAll(".with-arrows, .accounts .scroll")) {
        if (!box.checkVisibility()) continue;
        const { top, left, height } = box.getBoundingClientRect();
        const [first, last] = [top + (box.querySelector("thead")?.offsetHeight ?? 0), top + height - parseFloat(getComputedStyle(box).borderBottomWidth)];
        for (const row of box.querySelectorAll("tbody tr")) {
            const { top: from, bottom: to } = row.getBoundingClientRect();
            if (to - from > 0 && (from < last - 1 && to > last + 1 || from < first - 1 && to > first + 2)) found.push(box.className + ": " + row.textContent);
        }
    }
    // an editor ends with a whole line as well, before it is scrolled
    for (const box of document.querySelectorAll(".editor .CodeMirror")) {
        if (!box.checkVisibility() || box.CodeMirror.getScrollInfo().top > 0) continue;
        const end = box.getBoundingClientRect().bottom;
        for (const line of box.querySelectorAll(".CodeMirror-line")) {
            const { top: from, bottom: to } = line.getBoundingClientRect();
            if (from < end - 2 && to > end + 1) found.push("a line: " + line.textContent);
        }
    }
    // some engines draw a bar that takes no room
    for (const it of document.querySelectorAll("#page *, dialog, dialog *")) if (it.checkVisibility() && it.scrollHeight > it.clientHeight && /auto|scroll/.test(getComputedStyle(it).overflowY) && getComputedStyle(it).scrollbarWidth !== "none") found.push("a bar: " + it.className);
    return found;
})()`);

/** In each section no row is cut, wherever the machine is, and no bar of the browser's is there; the thumb of a list leads to its end. */
async function wholeRows(browser, address) {
    if (browser.ask === undefined) return "but not looked at: in this browser a row at the head of a list may still be cut";
    for (const [width, height] of [
        [1366, 768], [1440, 900], [1024, 768],
    ]) for (const query of ["?story=2&caption=4", "?door=work#self-modifying", "?lesson=rewriting&step=12"]) {
        await browser.size(width, height);
        await browser.open(`${address}${query.replace("?", "?lang=en&")}`);
        await settled(browser);
        for (let round = 0; round < 3; round += 1) {
            await browser.value("laboratoryOfPage().step(4)");
            await settled(browser);
            assert.deepEqual(await cutRows(browser), [], `${query} at ${width} by ${height}`);
        }
    }
    await browser.size(1366, 768);
    await browser.open(`${address}?lang=en&door=work#self-modifying`);
    await browser.press("#about");
    await browser.waitFor("document.querySelector('dialog .transcript, dialog pre') !== null");
    await browser.press("dialog summary");
    await browser.waitFor("document.querySelectorAll('dialog .thumb:not([hidden])').length > 0");
    assert.deepEqual(await cutRows(browser), [], "in a dialog");
    await browser.closeDialog();
    await browser.value("laboratoryOfPage().step(14)");
    await settled(browser);
    const thumb = await browser.value(
        `(async () => { ${pictured} const { left, right } = document.querySelector(".source .CodeMirror").getBoundingClientRect(); const it = [...document.querySelectorAll(".thumb:not([hidden])")].map((node) => node.getBoundingClientRect()).find((at) => Math.abs(at.right - right) < 22); return [it.left + it.width / 2, it.top + 5, document.querySelector(".thumbs").getAttribute("aria-hidden")]; })()`
    );
    assert.equal(thumb[2], "true");
    const [x, y] = thumb.map(Math.round);
    await browser.lead([[x, y], "down", [x, y + 60], [x, y + 700], "up"]);
    assert.ok(
        await browser.value(
            "(({ top, height, clientHeight }) => top >= height - clientHeight - 2)(document.querySelector('.source .CodeMirror').CodeMirror.getScrollInfo())"
        )
    );
    await browser.size(1500, 1250);
    return undefined;
}

/** Runs in the page: the lines of texts and lists that end at the lower edge of what they are scrolled in, but those of an editor. */
const cutLines = (browser) => browser.value(`(async () => {
    for (let picture = 0; picture < 5; picture += 1) { ${pictured} }
    const found = [];
    const cuts = (it) => /auto|scroll|hidden|clip/.test(getComputedStyle(it).overflowY);
    for (const box of document.querySelectorAll("#page *, dialog, dialog *")) {
        if (!box.checkVisibility({ visibilityProperty: true }) || box.closest(".unseen, svg, .CodeMirror") || !cuts(box) || box.scrollHeight <= box.clientHeight + 1) continue;
        const [{ bottom, height }, { borderBottomWidth, clipPath }] = [box.getBoundingClientRect(), getComputedStyle(box)];
        if (height < 12 || clipPath !== "none") continue;
        const end = bottom - parseFloat(borderBottomWidth);
        const [lines, texts] = [document.createRange(), document.createTreeWalker(box, NodeFilter.SHOW_TEXT)];
        while (texts.nextNode() !== null) {
            const { data, parentElement } = texts.currentNode;
            if (data.trim() === "" || parentElement.closest(".unseen, .CodeMirror") || !parentElement.checkVisibility({ visibilityProperty: true })) continue;
            let near = parentElement;
            while (near !== box && !cuts(near)) near = near.parentElement;
            lines.selectNodeContents(texts.currentNode);
            const isCut = ({ top: from, bottom: to, width }) => width > 1 && from + 0.2 * (to - from) < end - 1 && to - 0.2 * (to - from) > end + 1;
            if (near === box && [...lines.getClientRects()].some(isCut)) found.push(box.className + ": " + data.trim().slice(0, 40));
        }
    }
    return found;
})()`);

/** What stands in the sections: each has a text, a list or a sheet that may be longer than its place. */
const PLACES = [
    "door=hall", "story=1&caption=2", "story=3&caption=2", "story=4&caption=4", "door=learn", "lesson=a-computer-on-a-drum&step=3",
    "lesson=rewriting&step=12", "lesson=what-can-a-forecast-know&step=4", "task=sum", "task=peaks", "door=work#weather/lorenz",
];

/** In each section, at each size, nothing that is scrolled ends with a part of a line, and no bar of the browser's is there. */
async function wholeLines(browser, address) {
    for (const [width, height] of [[1024, 768], [1366, 768], [1440, 900], [390, 844]]) {
        await browser.size(width, height);
        for (const code of ["en", "de"]) for (const query of PLACES) {
            await browser.open(`${address}?lang=${code}&n=${width}&${query}`);
            await settled(browser);
            const where = `${query} in ${code} at ${width} by ${height}`;
            let found = await cutLines(browser);
            for (let round = 0; round < 5 && found.length > 0; round += 1) found = await cutLines(browser);
            assert.deepEqual(found, [], where);
            assert.deepEqual((await cutRows(browser)).filter((it) => width > 760 || it.startsWith("a bar")), [], where);
        }
    }
    await browser.open(`${address}?lang=en&door=work`);
    await browser.size(1500, 1250);
}

/** What the menu has in each section, in its order. */
const MENU = {
    hall: ["example", "sound", "kiosk", "language", "about"],
    look: ["example", "sound", "kiosk", "language", "about"],
    learn: ["share", "works", "example", "sound", "kiosk", "language", "about"],
    work: ["new", "open", "save", "share", "works", "example", "sound", "kiosk", "language", "about"],
};

/**
 * In each section, at each size, one button leads to what stood in a row of boxes: nothing of it is seen before, all of it lies in the
 * window, and keys alone open it, go through it, and shut it. A press beside it shuts it too.
 */
async function menu(browser, address) {
    const inMenu = () => browser.value(
        "[...document.querySelectorAll('#choices :is(button, select)')].filter((it) => it.checkVisibility()).map((it) => it.id)"
    );
    const focused = () => browser.value("document.activeElement.id || document.activeElement.className");
    for (const [width, height] of [[1366, 768], [1024, 768], [1920, 1080], [390, 844]]) {
        await browser.size(width, height);
        for (const [door, wanted] of Object.entries(MENU)) {
            await browser.open(`${address}?lang=de&door=${door}&n=${width}`);
            await settled(browser);
            assert.deepEqual([await inMenu(), await browser.value("document.querySelector('.menu').checkVisibility()")], [[], true], door);
            await browser.press(".menu");
            assert.deepEqual(await inMenu(), wanted, door);
            assert.equal(
                await browser.value(
                    "(({ left, top, right, bottom }) => left >= 0 && top >= 0 && right <= innerWidth && bottom <= innerHeight)(document.querySelector('#choices').getBoundingClientRect())"
                ),
                true,
                `${door} at ${width}`
            );
            await browser.press(".menu");
            assert.deepEqual(await inMenu(), []);
        }
    }
    await browser.size(1366, 768);
    await browser.open(`${address}?lang=en&door=work#self-modifying`);
    await settled(browser);
    assert.equal(await browser.value("document.querySelector('.work-name').textContent"), "self-modifying");
    await browser.value("document.querySelector('.menu').focus()");
    await browser.strike("Enter");
    const through = [];
    for (let step = 0; step < 5; step += 1) { await browser.strike("ArrowDown"); through.push(await focused()); }
    await browser.strike("Home");
    await browser.strike("ArrowUp");
    assert.deepEqual([through, await focused()], [MENU.work.slice(0, 5), "new"]);
    await browser.strike("End");
    assert.equal(await focused(), "about");
    await browser.strike("Enter");
    await browser.waitFor("document.querySelector('dialog') !== null");
    await browser.strike("Escape");
    await browser.waitFor("document.querySelector('dialog') === null");
    assert.deepEqual([await focused(), await inMenu()], ["menu", []]);
    await browser.strike("Enter");
    await browser.strike("Escape");
    assert.deepEqual([await focused(), await inMenu()], ["menu", []]);
    await browser.strike("Enter");
    await browser.lead([[300, 400], "down", "up"]);
    assert.deepEqual(await inMenu(), []);
    await browser.size(1500, 1250);
}

const VISITS = { roomToLearn, wholeRows, wholeLines, menu };

/** The visits of the page at an address, by their names. */
export const visitsOfRows = (address) => (
    Object.fromEntries(Object.entries(VISITS).map(([name, visit]) => [name, (browser) => visit(browser, address)]))
);
