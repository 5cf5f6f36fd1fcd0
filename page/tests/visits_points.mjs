// Visits of what is small at the page, and was wrong once: what is seen is whole and in its place, what is shown is true, and each control
// does what it says.
import assert from "node:assert/strict";
import { laidOut } from "./seen.mjs";

const settled = (browser) => browser.value("laboratoryOfPage().settled()");
const textOf = (browser, selector) => browser.value(`document.querySelector(${JSON.stringify(selector)})?.innerText ?? ""`);
const isMoving = "document.querySelector('.drum-box').dataset.moving === 'true'";

async function press(browser, selector) {
    await browser.press(selector);
    await settled(browser);
}

const SIZES = [[390, 800], [768, 1024], [1024, 768], [1280, 720], [1440, 900], [1920, 1080]];

/** Lists and texts that may be scrolled. */
const LISTS =
    ".scroll, .with-arrows, .steps, .script-lines, .log, .transcript, .rows, .task-text, .task-answer, .explanation-text, .paper, .piece-rows, .reply, .lines-of-step pre, .notice, .tells, .editor *, .lesson, .tab-panel, .tales > .line, .unseen";

/** Controls and drawings of which an ancestor cuts something off, and drawings that are too small to be seen. */
const clipped = (browser) => browser.value(`[...document.querySelectorAll("#page :is(button, input, select, .editor, canvas, svg)")].filter((it) => it.checkVisibility() && it.closest(".drum-box") === null).flatMap((it) => {
    const box = it.getBoundingClientRect();
    const name = it.tagName + "." + (it.className.baseVal ?? it.className) + it.textContent.trim().slice(0, 20);
    if (it.matches("svg, canvas") && !it.matches(".arrow, svg svg") && Math.min(box.width, box.height) < 16) return ["small: " + name];
    for (let at = it.parentElement; at !== document.body && at !== null; at = at.parentElement) {
        const { overflowX, overflowY, contain } = getComputedStyle(at);
        if (at.matches(${JSON.stringify(LISTS)})) return [];
        if (overflowX === "visible" && overflowY === "visible" && !/paint|content|strict/.test(contain)) continue;
        const outer = at.getBoundingClientRect();
        if (box.left < outer.left - 1 || box.top < outer.top - 1 || box.right > outer.right + 1 || box.bottom > outer.bottom + 1) return [name + " by " + at.className];
    }
    return [];
})`);

/** No control and no drawing is cut off by what it is in, in no section and at no size; the tape's holes are seen. */
async function nothingClipped(browser, address) {
    for (const query of [
        "?lang=de&door=hall",
        "?lang=de&door=work#input-and-output/checksum",
        "?lang=de&lesson=rewriting",
        "?lang=de&task=sum",
        "?lang=de&story=2",
    ]) {
        await browser.open(address + query);
        await settled(browser);
        for (const [width, height] of SIZES) {
            await browser.size(width, height);
            assert.deepEqual(await clipped(browser), [], `${query} at ${width} by ${height}`);
            if (query.includes("checksum")) await browser.reveal(".tape-strip");
            if (query.includes("checksum")) {
                assert.ok(
                    await browser.value("document.querySelector('.tape-strip').getBoundingClientRect().height >= 80"), `tape at ${width}`
                );
            }
            assert.equal(await browser.value("document.documentElement.scrollWidth <= innerWidth"), true, `${query} at ${width}`);
        }
    }
    await browser.size(1500, 1250);
}

/** Two presses on stories, on one or on two, play one; two presses on Next go two on. */
async function oneStory(browser, address) {
    await browser.open(`${address}?lang=en&door=look`);
    const isHere = (tale, at) => browser.waitFor(
        `document.querySelector('[data-tale][aria-pressed=true]')?.dataset.tale === "${tale}" && document.querySelector('.caption-at').textContent === '${at} of 5' && document.querySelector('.caption').getAttribute('aria-busy') === 'false'`
    );
    for (const [one, other] of [["wait", "wait"], ["wait", "rewrite"], ["type", "wait"]]) {
        await browser.value(
            `(() => { for (const name of ["${one}", "${other}"]) document.querySelector('[data-tale="' + name + '"]').click(); })()`
        );
        await isHere(other, 1);
        await browser.waitFor(`!(${isMoving})`);
        await settled(browser);
        assert.deepEqual(
            await browser.value(
                "[laboratoryOfPage().history.behind, laboratoryOfPage().lines.filter((line) => line === 'press start').length]"
            ),
            [{ wait: 1, rewrite: 9 }[other], 1],
            `${one}, ${other}`
        );
    }
    await browser.value("(() => { for (let pressed = 0; pressed < 2; pressed += 1) document.querySelector('#caption-next').click(); })()");
    await isHere("wait", 3);
    await browser.waitFor(`!(${isMoving})`);
    await settled(browser);
    assert.equal(await browser.value("laboratoryOfPage().history.behind"), 3);
}

/** The hall has a machine of its own: the visitor's does not work there, and where it rests the hall turns all the same. */
async function hallBeside(browser, address) {
    await browser.open(`${address}?lang=en&door=work`);
    await browser.value("laboratoryOfPage().say('put 0000 b 0050', 'put 0001 z', 'press start', 'run 5')");
    const before = await browser.value("JSON.stringify(laboratoryOfPage().lines)");
    await browser.value("(() => { history.pushState(null, '', '?lang=en&door=hall'); dispatchEvent(new PopStateEvent('popstate')); })()");
    await browser.waitFor(`document.body.dataset.door === 'hall' && ${isMoving}`);
    assert.equal(await textOf(browser, "#notice"), "");
    await press(browser, "#hall-stop");
    await press(browser, "#hall-stop");
    await browser.waitFor(isMoving);
    await press(browser, ".hall [data-door-to='work']");
    await browser.waitFor("document.body.dataset.door === 'work'");
    assert.equal(await browser.value("JSON.stringify(laboratoryOfPage().lines)"), before);
}

/** What a run has done stands there until something else is done, and no press of Run moves what lies under the pointer. */
async function runStays(browser, address) {
    await browser.open(`${address}?lang=en#self-modifying`);
    await browser.size(1280, 900);
    const places = () => browser.value(
        "JSON.stringify([...document.querySelectorAll('#go-on, .drum-box, .words-table')].map((it) => { const { x, y, width } = it.getBoundingClientRect(); return [x, y, width].map(Math.round); }))"
    );
    const [before, seen] = [await places(), []];
    await browser.value(
        "(() => { globalThis.tops = new Set(); const look = () => { tops.add(document.querySelector('#go-on').getBoundingClientRect().top); if (globalThis.tops !== null) requestAnimationFrame(look); }; look(); })()"
    );
    await press(browser, "#go-on");
    for (let looks = 0; looks < 3; looks += 1) {
        seen.push(await textOf(browser, "#progress"), await places());
        await browser.value("new Promise((resolve) => requestAnimationFrame(() => requestAnimationFrame(resolve)))");
    }
    for (const told of seen.filter((unused, place) => place % 2 === 0)) assert.match(told, /^4\d orders, [\d,]+ a second$/);
    assert.deepEqual([...new Set(seen.filter((unused, place) => place % 2 === 1))], [before]);
    assert.equal(await browser.value("tops.size"), 1);
    await browser.value("laboratoryOfPage().say('panel')");
    assert.equal(await textOf(browser, "#progress"), "");
    await browser.size(1500, 1250);
}

/**
 * A saved script has what the reader did, and of the page's own questions none; a step is one run of one order, also where the rows of the
 * drum are seen.
 */
async function ownQuestions(browser, address) {
    await browser.open(`${address}?lang=en&door=work`);
    await browser.value("laboratoryOfPage().say('put 0000 b 0050', 'put 0001 z', 'press start')");
    await press(browser, "#step");
    await press(browser, "tr[data-address='0000'] button");
    assert.ok(await browser.value("document.querySelectorAll('.rows > *').length > 0"));
    await browser.press("#save");
    await browser.waitFor("document.querySelector('#with-questions')");
    await browser.press("#with-questions");
    assert.equal(
        await browser.value("document.querySelector('.transcript').textContent"),
        "put 0000 000100j8\nput 0001 00000000\npress start\nrun 1\n"
    );
    await browser.press("dialog > button");
}

/** Nothing has a name that is no text, in no language and in no section. */
async function names(browser, address) {
    for (const code of ["en", "de"]) for (const query of [
        "door=hall", "story=1", "lesson=rewriting", "task=sum", "door=work", "kiosk=message", "kiosk=games/matches",
    ]) {
        await browser.open(`${address}?lang=${code}&${query}`);
        assert.deepEqual(
            await browser.value(
                "[...document.querySelectorAll('*')].filter((it) => /\\[object |undefined|NaN/.test([it.getAttribute('aria-label'), it.title, it.children.length === 0 && !it.matches('script, style') ? it.textContent : ''].join(' '))).map((it) => it.outerHTML.slice(0, 100))"
            ),
            [],
            query
        );
    }
    await browser.open(`${address}?lang=en&door=work`);
}

/** Enter in the field for addresses shows the words there, as its button does. */
async function enterShows(browser, address) {
    await browser.open(`${address}?lang=en&door=work`);
    await browser.value(
        "(() => { const it = document.querySelector('.listing form input'); it.value = '0220'; it.dispatchEvent(new Event('input')); it.form.requestSubmit(); })()"
    );
    await settled(browser);
    assert.equal(await browser.value("document.querySelector(`tr[data-address='0220']`) !== null"), true);
}

/** In a lesson what the reader should know lies on nothing, and a refusal is seen whole beside its hint; an empty answer is none. */
async function lessonTells(browser, address) {
    await browser.size(1366, 768);
    await browser.open(`${address}?lang=de&lesson=rewriting`);
    await browser.value(
        "(() => { const form = document.querySelector('.lesson li.now .types'); form.querySelector('input').value = 'put 0000 1004'; form.requestSubmit(); })()"
    );
    await settled(browser);
    await browser.press(".lesson li.now .for-hint");
    const trouble = await browser.value(`(() => {
        const boxOf = (selector) => document.querySelector(selector).getBoundingClientRect();
        const notice = boxOf("#notice");
        const upon = ["h1", ".lesson summary", ".lesson li.now", "#step", "#go-on", ".drum-box", ".listing form", ".story"].filter((it) => { const box = boxOf(it); return notice.left < box.right && box.left < notice.right && notice.top < box.bottom - 1 && box.top < notice.bottom - 1; });
        const reply = document.querySelector(".lesson li.now .reply");
        return [notice.height > 0, upon, reply.scrollHeight <= reply.clientHeight + 1, /Form/.test(reply.textContent)];
    })()`);
    assert.deepEqual(trouble, [true, [], true, true]);
    await browser.open(`${address}?lang=en&lesson=a-computer-on-a-drum`);
    const answer = (text) => browser.value(
        `(() => { const form = document.querySelector(".lesson li.now .answer"); form.querySelector("input").value = "${text}"; form.requestSubmit(); return document.querySelector(".lesson li.now .hint").textContent; })()`
    );
    for (let pressed = 0; pressed < 3; pressed += 1) assert.equal(await answer(" "), "Write your answer first.");
    assert.doesNotMatch(await answer("99"), /Right is/);
    await browser.size(1500, 1250);
}

/** With forced colours the bar of an order, lamps, levers, drum and tape keep what they show. */
async function forcedColours(browser, address) {
    if (browser.media === undefined) return "but not looked at, since this browser cannot be told of forced colours";
    await browser.open(`${address}?lang=en#self-modifying`);
    await press(browser, "#step");
    await browser.halt();
    await settled(browser);
    await browser.media({ "forced-colors": "active" });
    const colours = await browser.value(
        "[...document.querySelectorAll('.order-bar .piece i')].map((it) => getComputedStyle(it).backgroundColor)"
    );
    assert.ok(new Set(colours).size >= 3 && colours.every((colour) => !/^rgba.*, 0\)$/.test(colour)), colours.join(" "));
    assert.deepEqual(
        await browser.value(
            "['.piece', '.strip', '.drum-box', '.scope', '.timeline', '.lever i'].filter((it) => getComputedStyle(document.querySelector(it)).forcedColorAdjust !== 'none')"
        ),
        []
    );
    // what is left free at the end of a list, so that no row is cut, has the colour of the ground
    const free = [];
    await browser.press("#tab-memory-program");
    for (const size of [[1366, 768], [1440, 900], [1280, 720]]) {
        await browser.size(...size);
        await laidOut(browser);
        free.push(
            ...await browser.value(
                "(() => { const probe = document.createElement('i'); probe.style.color = 'Canvas'; document.body.append(probe); const { color } = getComputedStyle(probe); probe.remove(); return [...document.querySelectorAll('main [style*=border-bottom]')].map((it) => getComputedStyle(it)).filter((it) => parseFloat(it.borderBottomWidth) > 2).map(({ borderBottomColor }) => borderBottomColor === color); })()"
            )
        );
    }
    assert.deepEqual([free.length > 0, free.filter((it) => !it)], [true, []]);
    await browser.size(1500, 1250);
    await browser.media({});
    return undefined;
}

/** The console's buttons in their order; one code is one; a long source has few nodes. */
async function small(browser, address) {
    await browser.open(`${address}?lang=en&door=work`);
    assert.deepEqual(
        await browser.value("[...document.querySelectorAll('.console .square')].map((it) => it.dataset.name)"),
        ["manual", "oneop", "normal", "start", "clear", "fill", "execute", "compute", "read"]
    );
    await browser.value("laboratoryOfPage().say('put 0000 p =h', 'put 0001 z', 'press start', 'run 1')");
    assert.match(await textOf(browser, ".typewriter"), /1 code printed/);
    await browser.write(Array(5000).fill(" b 0050").join("\n"));
    const nodes = () => browser.value("document.querySelectorAll('.editor *').length");
    assert.ok(await nodes() < 2000, String(await nodes()));
}

/** Notices with something to press, each as the page tells it. */
const NOTICES = {
    rule: { kind: "rule", number: 0, rule: "watch 0011 guess", isOfScript: true },
    printed: { kind: "printedMuch", count: 20_000 },
    used: { kind: "usedUp" },
    before: { kind: "before", lines: "put 0000 z", work: "none" },
    kept: { kind: "beforeKept", work: "none" },
};

/** Of the notice that is shown: by how much it has to be scrolled, and which of its controls are not hit by themselves. */
const notWhole = (browser, id = "notice") => browser.value(`(async () => {
    document.getElementById("${id}").scrollIntoView({ block: "center" });
    await new Promise((resolve) => requestAnimationFrame(() => requestAnimationFrame(resolve)));
    const [it, within] = [document.getElementById("${id}"), document.querySelector(".pace") ?? document.body];
    const [box, outer] = [it.getBoundingClientRect(), within.getBoundingClientRect()];
    const unhit = [...it.querySelectorAll("button, a")].filter((control) => { const { left, top, width, height } = control.getBoundingClientRect(); return [0.15, 0.85].some((part) => !control.contains(document.elementFromPoint(left + width / 2, top + part * height))); });
    return [Math.max(0, it.scrollHeight - it.clientHeight), unhit.map((control) => control.textContent), box.top >= outer.top && box.bottom <= outer.bottom];
})()`);

/** A notice is seen whole with all that can be pressed in it, without being scrolled, also beside the time line. */
async function noticesWhole(browser, address) {
    let offers = 0;
    // what is done here is offered when the page is opened again
    await browser.open(`${address}?lang=en&door=work`);
    await browser.write("; mine");
    for (const code of ["en", "de"]) for (const query of ["door=work#square-root", "lesson=rewriting", "story=2"]) {
        await browser.open(`${address}?lang=${code}&${query}`);
        await settled(browser);
        for (const [width, height] of [...SIZES, [1366, 768]]) {
            await browser.size(width, height);
            for (const [name, notice] of Object.entries(NOTICES)) {
                await browser.value(`laboratoryOfPage().tell(${JSON.stringify(notice)})`);
                await browser.reveal("#notice");
                assert.deepEqual(await notWhole(browser), [0, [], true], `${code}, ${name} in ${query} at ${width} by ${height}`);
            }
            await browser.value("laboratoryOfPage().tell(null)");
            if (await browser.value("!document.querySelector('#kept').checkVisibility()")) continue;
            offers += 1;
            assert.deepEqual(
                await notWhole(browser, "kept"), [0, [], true], `${code}, the offer in ${query} at ${width} by ${height}`
            );
            assert.equal(await browser.value("document.querySelector('.pace')?.querySelector('.when').checkVisibility() !== false"), true);
        }
    }
    assert.ok(offers > SIZES.length, `${offers} offers`);
    await browser.size(1500, 1250);
}

/** Focuses a control and presses it; whether it has the focus then, and whether it is dead. */
const pressedAt = (browser, selector) => browser.value(`(async () => {
    const it = document.querySelector(${JSON.stringify(selector)});
    it.focus();
    it.click();
    await laboratoryOfPage().settled();
    return [document.activeElement === it, it.getAttribute("aria-disabled")];
})()`);

/** A control that has nothing more to do keeps the focus; where it goes away itself, the focus goes on. */
async function focusStays(browser, address) {
    await browser.open(`${address}?lang=en&game=faster`);
    await browser.waitFor("document.querySelector('.faster').getAttribute('aria-busy') === 'false'");
    await browser.value(
        "document.querySelector('.faster .grip').dispatchEvent(new KeyboardEvent('keydown', { key: 'ArrowRight', bubbles: true }))"
    );
    assert.deepEqual(await pressedAt(browser, "#faster-back"), [true, "true"]);
    await browser.open(`${address}?lang=en&story=2&caption=2`);
    await browser.waitFor(
        "document.querySelector('.caption-at').textContent === '2 of 5' && document.querySelector('.caption').getAttribute('aria-busy') === 'false'"
    );
    assert.deepEqual(await pressedAt(browser, "#caption-back"), [true, "true"]);
    await browser.open(`${address}?lang=en&door=work#drum/household`);
    await press(browser, "#go-on");
    await browser.value("laboratoryOfPage().showAt('0128')");
    await press(browser, "tr[data-address='0128'] button");
    await browser.waitFor("document.querySelector('.drum .grip') !== null");
    await browser.reveal("#carried-back");
    await browser.value(
        "document.querySelector('.drum .grip').dispatchEvent(new KeyboardEvent('keydown', { key: 'ArrowRight', bubbles: true }))"
    );
    assert.deepEqual(await pressedAt(browser, "#carried-back"), [true, "true"]);
    await browser.value("laboratoryOfPage().say('break 0100')");
    await browser.reveal(".rules");
    await browser.value(
        "(() => { const it = document.querySelector('.rules button'); it.focus(); it.click(); return laboratoryOfPage().settled(); })()"
    );
    assert.deepEqual(
        await browser.value("[laboratoryOfPage().rules, document.activeElement.closest('.listing form') !== null]"), [[], true]
    );
}

/**
 * A teacher's: each lesson has a link to its sheet, which is what a printer gets; a task is set up, and run, by buttons that say so; and so
 * is a source in Work.
 */
async function teachers(browser, address) {
    for (const [code, title] of [["en", "The program that rewrites itself"], ["de", "Das Programm, das sich umschreibt"]]) {
        await browser.open(`${address}?lang=${code}&lesson=rewriting`);
        assert.equal(await browser.value("document.querySelector('.lesson .sheet-link').checkVisibility()"), true);
        const sheet = await browser.value(
            "(async () => { const it = document.querySelector('.sheet-link'); it.removeAttribute('target'); it.addEventListener('click', (event) => event.preventDefault()); it.click(); return it.href.startsWith('blob:') && document.getElementById('printed-sheet').shadowRoot.querySelector('h1').textContent; })()"
        );
        assert.equal(sheet, title);
        if (browser.ask === undefined) continue;
        await browser.ask("Emulation.setEmulatedMedia", { media: "print" });
        assert.deepEqual(
            await browser.value(
                "[document.getElementById('page').checkVisibility(), document.getElementById('printed-sheet').checkVisibility()]"
            ),
            [false, true]
        );
        await browser.ask("Emulation.setEmulatedMedia", { media: "" });
    }
    await browser.open(`${address}?lang=en&task=sum`);
    assert.equal(await browser.value("document.getElementById('printed-sheet').shadowRoot?.childNodes.length ?? 0"), 0);
    assert.deepEqual(
        await browser.value("['run-task', 'put-task'].map((id) => document.getElementById(id).textContent)"),
        ["Run my program", "Set up the machine"]
    );
    await browser.open(`${address}?lang=en&door=work`);
    await browser.write("start p =h\n z\n end start");
    await browser.press("#run-program");
    await browser.waitFor("laboratoryOfPage().printed.text === 'h' && laboratoryOfPage().panel.status === 'halted stop'");
}

const VISITS = {
    noticesWhole, focusStays, nothingClipped, oneStory, hallBeside, runStays, ownQuestions, names, enterShows, lessonTells, forcedColours,
    small, teachers,
};

/** The visits of the page at an address, by their names. */
export const visitsOfPoints = (address) => (
    Object.fromEntries(Object.entries(VISITS).map(([name, visit]) => [name, (browser) => visit(browser, address)]))
);
