// What of a page is not seen as it should be, as it stands in its window. Each function gives the troubles found as lines of text, none
// where all is well.

/** An expression in the page: what the style draws at nodes, which is no text. */
export const drawnAt = (selector) => (
    `[...document.querySelectorAll(${JSON.stringify(selector)})].filter((it) => it.checkVisibility()).map((it) => [it, ...it.querySelectorAll("*")].map(({ dataset }) => dataset.shown ?? "").join(""))`
);

/** Lists, texts and editors, in which what is beyond their edge is scrolled to. */
const LISTS =
    ".scroll, .with-arrows, .steps, .script-lines, .log, .transcript, .rows, .torn, .task-text, .task-answer, .explanation-text, .paper, .piece-rows, .reply, .lines-of-step pre, .notice, .tells, .editor, .CodeMirror-hints, .card, .tab-panel, .tales > .line, .unseen, .told, .map-answer, .why, .rules, .costs-told";

/** Waits until the page has been drawn, and with that arranged for the size of its window. */
export const laidOut = (browser) => browser.value("new Promise((resolve) => requestAnimationFrame(() => requestAnimationFrame(resolve)))");

/**
 * Runs in the page: texts below ten pixels, as they are drawn; texts that something cuts off that is no list, that reach beyond the window
 * or their control, or that lie upon one another; and traces beyond their rows.
 */
function textsInPage(lists, least) {
    const [found, placed] = [[], []];
    const isSeen = (node) => (
        node.checkVisibility({ visibilityProperty: true, opacityProperty: true })
            && node.closest("option, noscript, script") === null
            && getComputedStyle(node).clipPath !== "inset(50%)"
            && getComputedStyle(node).visibility !== "hidden"
    );
    const scaleOf = (node) => (node.namespaceURI.endsWith("svg") ? (({ a, b }) => Math.hypot(a, b))(node.getScreenCTM()) : 1);
    const cuts = (at) => /hidden|clip|auto|scroll/.test(getComputedStyle(at).overflowX + getComputedStyle(at).overflowY);
    const beyond = (box, { left, top, right, bottom }) => (
        box.left < left - 1.5 || box.top < top - 1.5 || box.right > right + 1.5 || box.bottom > bottom + 1.5
    );
    const walker = document.createTreeWalker(document.getElementById("page"), NodeFilter.SHOW_TEXT);
    for (let text = walker.nextNode(); text !== null; text = walker.nextNode()) {
        const node = text.parentElement;
        if (text.data.trim() === "" || !isSeen(node)) continue;
        const name = `"${text.data.trim().slice(0, 24)}" in ${node.closest("[class]")?.getAttribute("class")}`;
        const size = parseFloat(getComputedStyle(node).fontSize) * scaleOf(node);
        // the numbers on the drum alone may be smaller
        if (size < (node.closest(".cell") === null ? least : Math.min(10, least)) - 0.05) found.push(`${name} has ${size.toFixed(1)} pixels`);
        if (node.closest(lists) !== null || node.closest("svg") !== null) continue;
        const range = document.createRange();
        range.selectNodeContents(text);
        const { left, right, top, bottom, width, height } = range.getBoundingClientRect();
        if (width === 0) continue;
        // some engines give the height of the face, which is more than that of its signs
        const box = { left, right, top: top + 0.2 * height, bottom: bottom - 0.2 * height };
        if (beyond(box, { left: 0, top: 0, right: innerWidth, bottom: innerHeight })) found.push(`${name} reaches beyond the window`);
        const control = node.closest("button, label, a[href]");
        if (control !== null && beyond(box, control.getBoundingClientRect())) found.push(`${name} reaches beyond its control`);
        const over = placed.find(([other, it]) => (
            !node.contains(it)
                && !it.contains(node)
                && Math.min(box.right, other.right) - Math.max(box.left, other.left) > 1.5
                && Math.min(box.bottom, other.bottom) - Math.max(box.top, other.top) > 3
        ));
        if (over !== undefined) found.push(`${name} lies upon "${over[1].textContent.trim().slice(0, 24)}"`);
        placed.push([box, node]);
        for (let at = node; at !== document.body; at = at.parentElement) {
            if (cuts(at) && beyond(box, at.getBoundingClientRect())) {
                found.push(`${name} is cut off by ${at.getAttribute("class")}`);
                break;
            }
        }
    }
    for (const canvas of document.querySelectorAll(".trace canvas")) {
        if (canvas.checkVisibility() && beyond(canvas.getBoundingClientRect(), canvas.parentElement.getBoundingClientRect())) {
            found.push("a trace reaches beyond its row");
        }
    }
    return found;
}

/** Texts that are too small, cut off, or beyond the window, and traces of the oscilloscope beyond their rows. */
export const hiddenTexts = (browser, least = 11) => browser.value(`(${textsInPage})(${JSON.stringify(LISTS)}, ${least})`);

/** Runs in the page: controls whose middle is not hit by themselves, but those in lists that are scrolled away. */
function unhitInPage(lists) {
    const found = [];
    const labelOf = (it) => it.closest("label") ?? it;
    const isScrolledAway = (it, x, y) => {
        for (let list = it.closest(lists); list !== null; list = list.parentElement.closest(lists)) {
            const { left, top, right, bottom } = list.getBoundingClientRect();
            // on its very edge what lies beside the list is hit; and a broad edge below hides a row that would be cut
            if (x < left + 1 || x > right - 1 || y < top + 1 || y > bottom - parseFloat(getComputedStyle(list).borderBottomWidth) - 1) {
                return true;
            }
        }
        return false;
    };
    for (const it of document.querySelectorAll("#page :is(button, input, select, a[href], summary, [role=textbox], [role=slider])")) {
        if (!it.checkVisibility({ visibilityProperty: true }) || it.closest(".unseen, .skip, .CodeMirror > div:first-child") !== null) {
            continue;
        }
        const box = it.getBoundingClientRect();
        const [x, y] = [box.left + box.width / 2, box.top + box.height / 2];
        if (isScrolledAway(it, x, y)) continue;
        const hit = document.elementFromPoint(x, y);
        // the head of a list, and the bar by which it is scrolled, stand upon rows that have been scrolled below them
        if (hit?.closest("thead") != null && it.closest("tbody") !== null
            || hit?.matches(lists) && hit.contains(it)
            || hit?.closest(".thumbs") != null) {
            continue;
        }
        if (hit === null || !(it.contains(hit) || labelOf(it).contains(hit) || hit.contains(it) && it.matches("[role=textbox]"))) {
            found.push(
                `${it.tagName} ${it.id
                    || it.getAttribute("aria-label")
                    || it.textContent.trim().slice(0, 24)} is not hit but ${hit?.tagName}.${hit?.getAttribute("class")}`
            );
        }
    }
    return found;
}

/** Controls whose middle is not hit by themselves. */
export const unhit = (browser) => browser.value(`(${unhitInPage})(${JSON.stringify(LISTS)})`);

/** What is not whole in the window, or in what it is scrolled in, or lies below something else. */
export const unseen = (browser, selectors) => browser.value(`(async () => {
    await new Promise((resolve) => requestAnimationFrame(() => requestAnimationFrame(resolve)));
    const within = (inner, outer) => inner.left >= outer.left - 1 && inner.top >= outer.top - 1 && inner.right <= outer.right + 1 && inner.bottom <= outer.bottom + 1;
    const isSeen = (it) => {
        const box = it.getBoundingClientRect();
        const frames = [{ left: 0, top: 0, right: innerWidth, bottom: innerHeight }];
        for (let at = it.parentElement; at !== document.body; at = at.parentElement) if (/auto|scroll|hidden/.test(getComputedStyle(at).overflowY)) frames.push(at.getBoundingClientRect());
        const top = document.elementFromPoint((box.left + box.right) / 2, (box.top + box.bottom) / 2);
        // what is taken in hand to turn the drum lies upon it, and is not seen
        const isUpon = top?.matches(".turner") === true && top.parentElement.contains(it);
        // between two letters of a drawing WebKit hits what lies below them
        const isBelow = it.matches("text") && top?.parentElement === it.parentElement && (top.compareDocumentPosition(it) & Node.DOCUMENT_POSITION_FOLLOWING) > 0;
        return box.height > 0 && frames.every((frame) => within(box, frame)) && (it.contains(top) || top?.contains(it) || isUpon || isBelow);
    };
    return ${JSON.stringify(selectors)}.flatMap((selector) => { const all = [...document.querySelectorAll(selector)]; return all.length > 0 && all.every(isSeen) ? [] : [selector]; });
})()`);

/** The same once the page has been laid out: a list is scrolled some pictures after its size has changed. */
export async function unseenAtLast(browser, selectors) {
    let missing = await unseen(browser, selectors);
    for (let looks = 0; looks < 50 && missing.length > 0; looks += 1) missing = await unseen(browser, selectors);
    return missing;
}

/** The size of the smallest number on the drum that is seen, in pixels. */
export const numbersOf = (browser) => browser.value(
    "Math.min(...[...document.querySelectorAll('.cell text')].filter((it) => getComputedStyle(it).visibility !== 'hidden').map((it) => parseFloat(getComputedStyle(it).fontSize) * (({ a, b }) => Math.hypot(a, b))(it.getScreenCTM())))"
);

/** Where controls, panes and drum are; a key that is struck is where it stands at rest. */
export const boxes = (browser) => browser.value(
    `(document.querySelectorAll(".key.down").forEach((it) => it.classList.remove("down")), [...document.querySelectorAll("#page :is(button:not(.plain, .account-bar), .pane, .drum-box, .editor, .tabbed, .pace, .scope)")].filter((it) => it.checkVisibility() && it.closest("#notices") === null).map((it) => [it.id || it.dataset.name || (it.tagName === "BUTTON" ? it.textContent.slice(0, 20) : it.classList[0]), ...Object.values(it.getBoundingClientRect().toJSON()).slice(0, 4).map(Math.round)].join(" ")))`
);
