// Visits of the kiosk as an exhibit: it keeps nothing and touches nothing, it is left by its address or a key combination alone, it comes
// back to its beginning in its own language, and it fits its window.
import assert from "node:assert/strict";
import { hiddenTexts, laidOut, numbersOf, unhit } from "./seen.mjs";

const settled = (browser) => browser.value("laboratoryOfPage().settled()");
const toldIn = (browser) => browser.value("document.querySelector('.kiosk-told').textContent");
const isKiosk = "document.querySelector('.kiosk-bar') !== null";
export const isAttract = "document.body.dataset.state === 'attract'";
const panelOf = (browser) => (
    browser.value("(({ counter, status, clock }) => ({ counter, status, clock: String(clock) }))(laboratoryOfPage().panel)")
);

const strike = (browser, key, more = {}) => browser.value(
    `void document.body.dispatchEvent(new KeyboardEvent("keydown", { key: ${JSON.stringify(key)}, bubbles: true, ...${JSON.stringify(more)} }))`
);
const leave = (browser) => strike(browser, "L", { ctrlKey: true, shiftKey: true });

/** `Kiosk`, pressed in Work, has a machine of its own: the work is as it was, whether the kiosk is left by keys or by Back. */
async function kioskBeside(browser, address) {
    await browser.open(`${address}?lang=en&door=work#self-modifying`);
    await browser.value("laboratoryOfPage().step(3)");
    await browser.write("; mine");
    const before = await panelOf(browser);
    for (const go of [leave, (it) => it.value("void history.back()")]) {
        await browser.press("#kiosk");
        await browser.waitFor(isKiosk);
        await settled(browser);
        assert.match(await browser.value("location.search"), /kiosk=self-modifying/);
        await strike(browser, "1");
        await browser.waitFor("laboratoryOfPage().history.behind === 1");
        await browser.waitFor(
            "document.querySelector('.rewriting')?.textContent === 'The program has rewritten itself: r 0017 at 0000 turned u 0000 at 0017 into u 0002.'"
        );
        assert.deepEqual(
            await browser.value(
                "[document.querySelectorAll('#leave-kiosk, #page a').length, document.getElementById('progress').checkVisibility()]"
            ),
            [0, false]
        );
        await go(browser);
        await browser.waitFor("document.querySelector('.source .CodeMirror') !== null");
        await settled(browser);
        assert.deepEqual(
            [
                await panelOf(browser),
                await browser.value(
                    "[document.querySelector('.source .CodeMirror').CodeMirror.getValue(), document.body.dataset.door, location.hash]"
                ),
            ],
            [before, ["; mine", "work", "#self-modifying"]]
        );
    }
}

/**
 * After the idle time the exhibit is at its beginning, in its own language and silent; keys from 1 to 4 press its buttons, and others do
 * nothing.
 */
async function kioskReturns(browser, address) {
    await browser.open(`${address}?kiosk=message&lang=de&idle=2`);
    await browser.waitFor(isAttract);
    const german = await browser.value("document.querySelector('#kiosk-1').textContent");
    await strike(browser, "x");
    await strike(browser, "4");
    await browser.waitFor("document.documentElement.lang === 'en'");
    await browser.press("#sound");
    assert.notEqual(await browser.value("document.querySelector('#kiosk-1').textContent"), german);
    await strike(browser, "1");
    await browser.waitFor("document.body.dataset.state === 'story'");
    await browser.waitFor(isAttract);
    await settled(browser);
    await browser.waitFor("document.documentElement.lang === 'de'");
    assert.deepEqual(
        await browser.value(
            "[document.querySelector('#kiosk-1').textContent, document.querySelector('#sound').getAttribute('aria-pressed'), laboratoryOfPage().printed.text]"
        ),
        [german, "false", ""]
    );
    await browser.open(`${address}?kiosk=message&offers=story,matches&lang=en`);
    for (const key of ["x", "Enter", " ", "F5", "5", "0"]) await strike(browser, key);
    assert.equal(await browser.value("document.body.dataset.state"), "attract");
    await strike(browser, "2");
    assert.equal(await browser.value("document.body.dataset.state"), "attract");
    await strike(browser, "1");
    await browser.waitFor("laboratoryOfPage().history.behind === 1 && document.body.dataset.state === 'story'");
    await strike(browser, "2");
    await browser.waitFor("laboratoryOfPage().history.behind === 2");
    await strike(browser, "4");
    await browser.waitFor(isAttract);
    for (const kind of ["contextmenu", "dragstart", "selectstart"]) {
        assert.equal(
            await browser.value(
                `document.querySelector('.kiosk-told').dispatchEvent(new Event('${kind}', { bubbles: true, cancelable: true }))`
            ),
            false,
            kind
        );
    }
    await leave(browser);
    await browser.waitFor("document.querySelector('.hall') !== null && document.documentElement.dataset.ready === 'true'");
    await browser.open(`${address}?lang=en&door=work`);
}

/** All that is kept in the browser. */
export const keptIn = (browser) => browser.value(
    `new Promise((resolve) => { const it = indexedDB.open("condugwa"); it.onsuccess = () => { const store = it.result.transaction("kept").objectStore("kept"); const [keys, values] = [store.getAllKeys(), store.getAll()]; values.onsuccess = () => { it.result.close(); resolve([keys.result, JSON.stringify(values.result), Object.entries(localStorage).sort()]); }; }; })`
);

/** The kiosk keeps nothing: what was kept before is as it was. */
async function kioskKeepsNothing(browser, address) {
    await browser.open(`${address}?lang=en&door=work`);
    await browser.write("; mine");
    await browser.open(`${address}?kiosk=tables/primes&lang=de`);
    const before = await keptIn(browser);
    await browser.press("#kiosk-4");
    await browser.press("#kiosk-1");
    await browser.waitFor("laboratoryOfPage().history.behind === 1");
    await browser.press("#kiosk-4");
    await settled(browser);
    await browser.open(`${address}?kiosk=tables/primes&lang=de`);
    assert.deepEqual(await keptIn(browser), before);
    await browser.open(`${address}?lang=en&door=work`);
}

/** Numbers that look like chance, the same in each run. */
export function chance(seed) {
    let state = seed;
    return (below) => {
        state = (Math.imul(state, 1_664_525) + 1_013_904_223) >>> 0;
        return Math.floor((state / 2 ** 32) * below);
    };
}

/** How many keys and touches a visitor at random has. */
const TOUCHES = 1000;

/**
 * A visitor presses keys and touches places at random: the kiosk is in one of its states, with four buttons, at its own address, and the
 * paper is what its program prints.
 */
async function kioskAtRandom(browser, address) {
    await browser.size(1024, 768);
    await browser.open(`${address}?kiosk=message&lang=en`);
    const [before, among, keys] = [
        await browser.value("location.href"),
        chance(7),
        ["1", "2", "2", "2", "3", "4", "x", "Enter", "Escape", "F5", "Backspace", "ArrowLeft"],
    ];
    for (let done = 0; done < TOUCHES; done += 20) {
        const touches = Array.from(
            { length: 20 }, () => (among(2) === 0 ? { key: keys[among(keys.length)] } : { x: among(1024), y: among(768) })
        );
        await browser.value(`(async () => {
            for (const { key, x, y } of ${JSON.stringify(touches)}) {
                if (key === undefined) document.elementFromPoint(x, y)?.dispatchEvent(new MouseEvent("click", { bubbles: true, cancelable: true, clientX: x, clientY: y }));
                else document.body.dispatchEvent(new KeyboardEvent("keydown", { key, bubbles: true, cancelable: true }));
                await new Promise((resolve) => setTimeout(resolve));
            }
        })()`);
        const [
            state, buttons, href, paper, program
        ] = await browser.value(
            "[document.body.dataset.state, document.querySelectorAll('.kiosk-bar button').length, location.href, laboratoryOfPage().printed.text, laboratoryOfPage().script.name]"
        );
        assert.ok(["attract", "story", "show", "end", "matches", "faster"].includes(state), `${state}`);
        assert.deepEqual(
            [buttons, href, program === "games/matches" || "good day".startsWith(paper.trim())], [4, before, true], `${program}: ${paper}`
        );
    }
    await browser.open(`${address}?lang=en&door=work`);
    await browser.size(1500, 1250);
    return `${TOUCHES} keys and touches`;
}

/** On telephones and tablets no text of the kiosk lies upon another one or beyond the window, and the drum lies on none. */
async function kioskOnTelephones(browser, address) {
    for (const kind of ["message", "games/matches"]) for (const [width, height] of [
        [390, 800], [360, 640], [800, 360], [768, 1024], [1024, 768], [1920, 1080],
    ]) {
        await browser.size(width, height);
        await browser.open(`${address}?kiosk=${kind}&lang=de`);
        await browser.press(".kiosk-told");
        await browser.waitFor(kind === "message" ? "laboratoryOfPage().history.behind === 1" : "laboratoryOfPage().way.kind === 'keys'");
        await settled(browser);
        const trouble = await browser.value(`(() => {
            const boxes = [...document.querySelectorAll(".kiosk-told, .kiosk-bar button, .others button, .plate b, .colours > span, .trace-name, .sheet, .heap svg, .heap p, .drum-box .well")].filter((it) => it.checkVisibility()).map((it) => [it, it.getBoundingClientRect()]);
            const beyond = boxes.filter(([, { left, top, right, bottom }]) => left < -1 || top < -1 || right > innerWidth + 1 || bottom > innerHeight + 1).map(([it]) => "beyond: " + it.className + it.textContent.slice(0, 20));
            const inner = ({ left, top, right, bottom, width, height }, isRound) => (isRound ? { left: left + width * 0.15, right: right - width * 0.15, top: top + height * 0.15, bottom: bottom - height * 0.15 } : { left, top, right, bottom });
            const laid = boxes.map(([it, box]) => [it, inner(box, it.matches(".well"))]);
            const upon = laid.flatMap(([one, a], place) => laid.slice(place + 1).filter(([, b]) => a.left < b.right - 2 && b.left < a.right - 2 && a.top < b.bottom - 2 && b.top < a.bottom - 2).map(([other]) => one.className + " upon " + other.className));
            return [...beyond, ...upon];
        })()`);
        assert.deepEqual(trouble, [], `${kind} at ${width} by ${height}`);
    }
    await browser.size(1500, 1250);
}

/** Where nothing may move the captions change all the same. */
async function kioskCaptions(browser, address) {
    if (browser.media === undefined) return "but not looked at, since this browser cannot be told that nothing may move";
    await browser.media({ "prefers-reduced-motion": "reduce" });
    await browser.open(`${address}?kiosk=message&lang=en`);
    const first = await toldIn(browser);
    await browser.waitFor(`document.querySelector('.kiosk-told').textContent !== ${JSON.stringify(first)}`);
    const second = await toldIn(browser);
    await browser.waitFor(`document.querySelector('.kiosk-told').textContent !== ${JSON.stringify(second)}`);
    await browser.media({});
    return undefined;
}

/** What leads to each state of the kiosk, and what holds there. */
const STATES = {
    attract: [[], isAttract],
    story: [["1", "2", "2"], "laboratoryOfPage().history.behind === 3"],
    matches: [["3"], "laboratoryOfPage().way.kind === 'keys'"],
    end: [["1"], "document.body.dataset.state === 'end' && laboratoryOfPage().panel.status === 'halted stop'"],
    faster: [["2"], "document.body.dataset.state === 'faster' && document.querySelector('.faster').getAttribute('aria-busy') === 'false'"],
};

/**
 * In each state, on lying and upright screens, no text is too small, cut off or upon another one, each of the four buttons is there and is
 * hit by itself, its number is by its text, and one at most stands out.
 */
async function kioskSeen(browser, address) {
    for (const code of ["en", "de"]) for (const [state, [keys, holds]] of Object.entries(STATES)) {
        await browser.size(1366, 768);
        await browser.open(`${address}?kiosk=${state === "story" ? "self-modifying" : "message"}&lang=${code}`);
        for (const key of keys) {
            await strike(browser, key);
            await settled(browser);
        }
        while (state === "end" && await browser.value("document.body.dataset.state !== 'end'")) {
            await strike(browser, "2");
            await settled(browser);
        }
        await browser.waitFor(holds);
        await settled(browser);
        for (const [width, height] of [[1366, 768], [1920, 1080], [1024, 768], [1080, 1920], [768, 1024], [390, 844]]) {
            await browser.size(width, height);
            await laidOut(browser);
            assert.deepEqual([...await hiddenTexts(browser), ...await unhit(browser)], [], `${code}, ${state} at ${width} by ${height}`);
            assert.deepEqual(
                await browser.value(
                    "[[...document.querySelectorAll('.kiosk-bar button')].filter((it) => it.textContent !== '' && it.checkVisibility({ visibilityProperty: true })).length, document.documentElement.scrollHeight <= innerHeight]"
                ),
                [4, true]
            );
            assert.ok(
                await browser.value("[...document.querySelectorAll('.primary')].filter((it) => it.checkVisibility()).length <= 1"),
                `${code}, ${state} at ${width} by ${height}: more than one button stands out`
            );
        }
    }
    await browser.open(`${address}?lang=en&door=work`);
    await browser.size(1500, 1250);
}

/** The texts that are seen at the kiosk in letters of less than 18 pixels, but for the numbers of the sectors. */
export const smallTexts = (browser) => browser.value(`[...document.querySelectorAll("#page *")].filter((it) => it.checkVisibility() && it.closest(".unseen, .cell, .room") === null && [...it.childNodes].some(({ nodeType, data }) => nodeType === 3 && data.trim() !== "")).filter((it) => {
    const scale = it.ownerSVGElement == null ? 1 : it.getScreenCTM().a;
    return parseFloat(getComputedStyle(it).fontSize) * scale < 17.9;
}).map((it) => it.textContent.trim().slice(0, 30) + " of " + (it.getAttribute("class") ?? it.tagName))`);

/**
 * In windows of usual sizes what is told at the kiosk can be read from some steps away: while it plays by itself, in its story and at its
 * end, in the game with the drum, and with the matches.
 */
async function kioskLetters(browser, address) {
    for (const [code, state, keys] of [["de", "attract", ""], ["de", "story", "122"], ["de", "faster", "2"], ["en", "matches", "3"]]) {
        await browser.open(`${address}?kiosk=message&lang=${code}&idle=900`);
        for (const key of keys) {
            await strike(browser, key);
            await settled(browser);
        }
        await browser.waitFor(STATES[state][1]);
        for (const [width, height] of [[1024, 768], [1366, 768], [1920, 1080], [1080, 1920]]) {
            await browser.size(width, height);
            await laidOut(browser);
            assert.deepEqual([await smallTexts(browser), await hiddenTexts(browser)], [[], []], `${state} at ${width} by ${height}`);
            assert.ok(await numbersOf(browser) >= 9.95, `${state} at ${width} by ${height}: the numbers of the sectors`);
        }
    }
    await browser.size(1500, 1250);
}

const VISITS = { kioskLetters, kioskSeen, kioskBeside, kioskReturns, kioskKeepsNothing, kioskAtRandom, kioskOnTelephones, kioskCaptions };

/** The visits of the page at an address, by their names. */
export const visitsOfKiosk = (address) => (
    Object.fromEntries(Object.entries(VISITS).map(([name, visit]) => [name, (browser) => visit(browser, address)]))
);
