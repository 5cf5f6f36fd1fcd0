// Visits of people who see the page in their own way: larger, in few colours, or without motion. All of it can be reached, and what is
// drawn keeps what it shows.
import assert from "node:assert/strict";
import { faint } from "./access.mjs";

const settled = (browser) => browser.value("laboratoryOfPage().settled()");
const PLACES = ["?door=hall", "?story=2&caption=4", "?lesson=rewriting&step=12", "?task=sum", "?door=work", "?kiosk=message"];

/**
 * Controls that are not hit by themselves where they are scrolled to; the last row of a list may lie below the bar by which that is
 * scrolled.
 */
const unreached = (browser) => browser.value(`(async () => {
    const found = [];
    for (const it of document.querySelectorAll("#page :is(button, input, select, a[href], summary)")) {
        if (!it.checkVisibility({ visibilityProperty: true }) || it.closest(".unseen, .skip, .CodeMirror") !== null) continue;
        it.scrollIntoView({ block: "center", inline: "center" });
        const { left, top, width, height } = it.getBoundingClientRect();
        const hit = document.elementFromPoint(left + width / 2, top + height / 2);
        if (hit === null || !(it.contains(hit) || it.closest("label")?.contains(hit) || it.closest("tr") !== null && hit.contains(it.closest("tr")))) found.push((it.id || it.textContent.slice(0, 20)) + " lies below " + hit?.tagName + "." + hit?.getAttribute("class"));
    }
    scrollTo(0, 0);
    return found;
})()`);

/**
 * With letters of twice their size a usual window has half its width and height: nothing is scrolled sideways, and each control can be
 * scrolled to and is hit.
 */
async function zoomed(browser, address) {
    for (const [place, [width, height]] of [[683, 384], [960, 540]].entries()) for (const query of PLACES) {
        await browser.size(width, height);
        await browser.open(`${address}${query}&lang=${place === 0 ? "de" : "en"}`);
        await settled(browser);
        assert.deepEqual(
            [await browser.value("document.documentElement.scrollWidth <= innerWidth"), ...await unreached(browser)],
            [true],
            `${query} at ${width} by ${height}`
        );
    }
    await browser.open(`${address}?lang=en&door=work`);
    await browser.size(1500, 1250);
}

/**
 * With forced colours the drawings keep theirs, and the chosen pace, the order under way, what comes after it and a step that is done are
 * marked; in dark no text is faint.
 */
async function inFewColours(browser, address) {
    if (browser.media === undefined) return "but not looked at, since this browser cannot be told of colours";
    for (const query of ["?story=2&caption=4", "?lesson=rewriting&step=12", "?door=work", "?kiosk=message"]) {
        await browser.open(`${address}${query}&lang=en`);
        await settled(browser);
        await browser.media({ "forced-colors": "active" });
        const drawn = [".drum-box", ".scope", ".tape-strip", ".timeline", ".platen", ".piece", ".strip", ".lever i", ".map-ground"];
        assert.deepEqual(
            await browser.value(
                `${JSON.stringify(drawn)}.filter((it) => document.querySelector(it) !== null && getComputedStyle(document.querySelector(it)).forcedColorAdjust !== "none")`
            ),
            [],
            query
        );
        assert.equal(
            await browser.value(
                "(() => { const it = document.querySelector('.paces :checked')?.closest('label'); return it == null || getComputedStyle(it).backgroundColor !== getComputedStyle(it.nextElementSibling ?? it.previousElementSibling).backgroundColor; })()"
            ),
            true,
            query
        );
        assert.equal(
            await browser.value(
                "[['tr.now', 'solid'], ['tr.next', 'dashed']].every(([name, style]) => { const it = document.querySelector(name); return it === null || getComputedStyle(it).outlineStyle === style; })"
            ),
            true,
            query
        );
        const chosen = ".tablist [aria-selected='true'], .doors [aria-current], button.primary, #caption-next";
        assert.deepEqual(
            await browser.value(
                `(() => { const probe = document.createElement("i"); probe.style.cssText = "forced-color-adjust: none; color: HighlightText; background: Highlight"; document.body.append(probe); const wanted = [getComputedStyle(probe).color, getComputedStyle(probe).backgroundColor]; probe.remove(); return [...document.querySelectorAll(${JSON.stringify(chosen)})].filter((it) => it.checkVisibility()).filter((it) => [getComputedStyle(it).color, getComputedStyle(it).backgroundColor].some((colour, place) => colour !== wanted[place])).map((it) => it.textContent); })()`
            ),
            [],
            `${query}: what is chosen cannot be read`
        );
        await browser.media({ "prefers-color-scheme": "dark" });
        assert.deepEqual(await faint(browser), [], query);
    }
    await browser.open(`${address}?lang=en&door=work`);
    await browser.media({});
    return undefined;
}

/**
 * Without motion a story stands at each order's ends, the kiosk stands until it is touched, and its Next shows the end of an order at once.
 */
async function withoutMotion(browser, address) {
    if (browser.media === undefined) return "but not looked at, since this browser cannot be told that nothing may move";
    await browser.media({ "prefers-reduced-motion": "reduce" });
    await browser.open(`${address}?kiosk=message&lang=en`);
    assert.deepEqual(
        await browser.value(
            "[document.body.dataset.state, document.querySelector('.drum-box').dataset.moving, document.getAnimations().length]"
        ),
        ["attract", "false", 0]
    );
    for (const [button, orders] of [[1, 1], [2, 2], [2, 3], [1, 2]]) {
        await browser.press(`#kiosk-${button}`);
        await browser.waitFor(`laboratoryOfPage().history.behind === ${orders}`);
        await settled(browser);
        assert.deepEqual(
            await browser.value("[document.querySelector('.drum-box').dataset.moving, document.getAnimations().length]"), ["false", 0]
        );
    }
    await browser.open(`${address}?story=2&caption=4&lang=en`);
    await browser.waitFor("document.querySelector('.drum-box').dataset.moving === 'false' && laboratoryOfPage().panel.counter === '0014'");
    assert.equal(await browser.value("document.getAnimations().length"), 0);
    await browser.media({});
    return undefined;
}

const VISITS = { zoomed, inFewColours, withoutMotion };

/** The visits of people with their own wishes, by their names. */
export const visitsOfWishes = (address) => (
    Object.fromEntries(Object.entries(VISITS).map(([name, visit]) => [name, (browser) => visit(browser, address)]))
);
