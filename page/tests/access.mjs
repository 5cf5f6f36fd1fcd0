// Whether people can read the page and reach all of it, whatever they see, hear or press: what is asked is that of WCAG 2.2. Each
// function gives the troubles found as lines of text, none where all is well.

/** Roles whose nodes need a name. */
const NAMED = new Set([
    "button", "link", "textbox", "combobox", "listbox", "slider", "spinbutton", "switch", "checkbox", "image", "region", "toolbar", "log",
    "dialog", "DisclosureTriangle",
]);

/** Controls, pictures and regions without a name, in Chromium's own accessibility tree; no other engine here can be asked for its tree. */
export async function nameless(browser) {
    if (browser.engine !== "Chromium") return [];
    const { nodes } = await browser.ask("Accessibility.getFullAXTree");
    return nodes.filter(({ ignored, role, name }) => !ignored && NAMED.has(role.value) && !(name?.value ?? "").trim()).map(
        ({ role }) => `a ${role.value} without a name`
    );
}

/** Runs in the page: texts below 4.5 to 1 against what lies behind them, large ones and marks below 3 to 1. */
function faintInPage() {
    const pixel = Object.assign(document.createElement("canvas"), { width: 1, height: 1 }).getContext("2d", { willReadFrequently: true });
    const painted = (colors) => {
        pixel.fillStyle = "white";
        pixel.fillRect(0, 0, 1, 1);
        for (const color of colors) { pixel.fillStyle = color; pixel.fillRect(0, 0, 1, 1); }
        return [...pixel.getImageData(0, 0, 1, 1).data].slice(0, 3);
    };
    const linear = (part) => (part / 255 <= 0.04045 ? part / 255 / 12.92 : ((part / 255 + 0.055) / 1.055) ** 2.4);
    const luminance = ([red, green, blue]) => 0.2126 * linear(red) + 0.7152 * linear(green) + 0.0722 * linear(blue);
    const styleOf = (node) => getComputedStyle(node);
    const behind = (node) => {
        const colors = [];
        for (let at = node; at !== null; at = at.parentElement) {
            if (at.namespaceURI.endsWith("xhtml")) colors.unshift(styleOf(at).backgroundColor);
        }
        return colors;
    };
    const ratio = (front, back) => {
        const [one, other] = [luminance(painted([...back, front])), luminance(painted(back))];
        return (Math.max(one, other) + 0.05) / (Math.min(one, other) + 0.05);
    };
    const contains = (box, { x, y, width, height }) => (
        box.left <= x + width / 2 && x + width / 2 <= box.right && box.top <= y + height / 2 && y + height / 2 <= box.bottom
    );
    const isBehind = (shape, node) => (
        shape.matches(".face")
            ? shape.parentElement === node.parentElement
            : contains(shape.getBoundingClientRect(), node.getBoundingClientRect())
    );
    const shapesBehind = (node) => [...node.ownerSVGElement.querySelectorAll("circle, rect, .face")]
        .filter((shape) => (
            shape.compareDocumentPosition(node) & 4
                && styleOf(shape).fill !== "none"
                && Number(styleOf(shape).opacity) > 0
                && isBehind(shape, node)
        ))
        .map((shape) => styleOf(shape).fill);
    const found = [];
    const told = (what, least, front, back) => {
        const is = ratio(front, back);
        if (is < least) found.push(`${what}: ${is.toFixed(2)} to 1, not ${least}`);
    };
    const pathOf =
        (node) => `${node.tagName.toLowerCase()}.${[...node.classList].join(".")} in ${node.closest(
            ".part, dialog, header, footer, #page"
        )?.className
            ?? ""}`;
    const isSeen = (node) => (
        node.checkVisibility({ visibilityProperty: true }) && node.closest(".unseen, noscript, script, title") === null
    );
    const walker = document.createTreeWalker(document.body, NodeFilter.SHOW_TEXT);
    for (let text = walker.nextNode(); text !== null; text = walker.nextNode()) {
        const node = text.parentElement;
        if (text.data.trim() === "" || !isSeen(node)) continue;
        const { color, fill, fontSize, fontWeight } = styleOf(node);
        const isLarge = parseFloat(fontSize) >= 24 || (parseFloat(fontSize) >= 18.66 && Number(fontWeight) >= 700);
        const isDrawn = node.namespaceURI.endsWith("svg");
        told(
            `"${text.data.trim().slice(0, 30)}", ${pathOf(node)}`,
            isLarge ? 3 : 4.5,
            isDrawn ? fill : color,
            isDrawn ? [...behind(node), ...shapesBehind(node)] : behind(node)
        );
    }
    for (const node of document.querySelectorAll("input, select, button")) {
        if (!isSeen(node)) continue;
        const around = behind(node.parentElement);
        if ("placeholder" in node && node.placeholder !== "") {
            told(`placeholder, ${pathOf(node)}`, 4.5, getComputedStyle(node, "::placeholder").color, behind(node));
        }
        if (node.value !== undefined && node.tagName !== "BUTTON") told(`value, ${pathOf(node)}`, 4.5, styleOf(node).color, behind(node));
        if (!["checkbox", "radio"].includes(node.type) && styleOf(node).borderTopStyle === "solid") {
            told(`border, ${pathOf(node)}`, 3, styleOf(node).borderTopColor, around);
        }
    }
    const marks = { "backgroundColor": ".dot, .lamp.lit, .bar", "stroke": ".head", "fill": ".arrow polygon" };
    for (const [property, selector] of Object.entries(marks)) {
        for (const node of document.querySelectorAll(selector)) {
            if (isSeen(node)) told(`mark, ${pathOf(node)}`, 3, styleOf(node)[property], behind(node.parentElement));
        }
    }
    const named = (name) => styleOf(document.documentElement).getPropertyValue(name).trim();
    for (const ground of ["--wall", "--card", "--cabinet", "--key", "--flexo"]) {
        told(`focus on ${ground}`, 3, named("--focus"), [named(ground)]);
    }
    for (const phase of ["find", "take", "seek", "act"]) told(`trail of ${phase}`, 3, named(`--in-${phase}`), [named("--plate")]);
    return [...new Set(found)];
}

/** Texts and marks that are too faint. */
export const faint = (browser) => browser.value(`(${faintInPage})()`);

/** Runs in the page: headings out of order, text outside of every landmark, positive tabindex, labels where no role bears them. */
function disorderInPage() {
    const found = [];
    const isSeen = (node) => node.checkVisibility();
    const levels = [...document.querySelectorAll("h1, h2, h3, h4")].filter((node) => isSeen(node) && node.closest("dialog") === null).map(
        (node) => Number(node.tagName[1])
    );
    if (levels.filter((level) => level === 1).length !== 1 || levels[0] !== 1) found.push(`headings begin ${levels.slice(0, 3)}`);
    levels.forEach((level, place) => {
        if (place > 0 && level > levels[place - 1] + 1) found.push(`heading ${place}: h${level} after h${levels[place - 1]}`);
    });
    for (const name of ["header", "main"]) if (document.querySelectorAll(name).length !== 1) found.push(`not one ${name}`);
    const walker = document.createTreeWalker(document.body, NodeFilter.SHOW_TEXT);
    for (let text = walker.nextNode(); text !== null; text = walker.nextNode()) {
        const node = text.parentElement;
        if (text.data.trim() !== ""
            && isSeen(node)
            && node.closest("header, main, footer, nav, dialog, [role=alert], [role=status], noscript, script") === null) {
            found.push(`outside of every landmark: ${text.data.trim().slice(0, 40)}`);
        }
    }
    for (const node of document.querySelectorAll("[tabindex]")) if (node.tabIndex > 0) found.push(`tabindex ${node.tabIndex}`);
    for (const node of document.querySelectorAll("div[aria-label], span[aria-label], pre[aria-label], p[aria-label]")) {
        if (!node.hasAttribute("role")) found.push(`a label without a role: ${node.className}`);
    }
    for (const node of document.querySelectorAll("th")) if (node.textContent.trim() === "") found.push("a column without a heading");
    for (const node of document.querySelectorAll("svg, canvas, img")) {
        if (node.getAttribute("aria-hidden") !== "true" && !(node.getAttribute("role") === "img" && node.getAttribute("aria-label"))) {
            found.push("a picture without a text");
        }
    }
    return found;
}

/** What is out of order in the page's structure. */
export const disorder = (browser) => browser.value(`(${disorderInPage})()`);

/** Notes, in each page that is opened from here on, what listens to a mouse. Gives the call that ends it. */
export const noteMouse = (browser) => browser.preload(`
    globalThis.heardByMouse = new Set();
    const { addEventListener } = EventTarget.prototype;
    EventTarget.prototype.addEventListener = function (kind, ...rest) {
        if (/^(click|dblclick|mouse|pointer|drag|touch)/.test(kind) && this instanceof Element) heardByMouse.add(this);
        return addEventListener.call(this, kind, ...rest);
    };`);

/** Goes once through the page by Tab, past its end to its beginning, and notes what the focus comes to. */
async function goAround(browser) {
    await browser.value(`(() => {
        const begin = Object.assign(document.createElement("button"), { id: "before-all" });
        document.body.prepend(begin);
        begin.focus();
        globalThis.passedByTab = new Set([begin]);
    })()`);
    for (let count = 0, isNew = true; isNew && count < 500; count += 1) {
        await browser.strike("Tab");
        isNew = await browser.value(`(() => {
            const it = document.activeElement;
            const isNew = !passedByTab.has(it);
            passedByTab.add(it);
            reachedByTab.add(it);
            return isNew;
        })()`);
    }
    await browser.value("document.querySelector('#before-all').remove()");
}

/**
 * What a mouse can press and Tab does not reach. What the page draws anew while the focus goes around is reached the next time, so it goes
 * around up to three times.
 */
export async function unreached(browser) {
    await browser.value("void (globalThis.reachedByTab = new Set())");
    let missed = [];
    for (let count = 0; count < 3 && (count === 0 || missed.length > 0); count += 1) {
        await goAround(browser);
        missed = await browser.value(`(() => {
            const wanted = [...document.querySelectorAll("a[href], button, input, select, [role=textbox], summary, [tabindex='0']"), ...heardByMouse];
            // of an editor its text is reached, and with that all that a mouse finds there; of radio buttons, and of a list of addresses,
            // the chosen one, from which arrows go on
            const standsFor = (it) => it.closest(".CodeMirror")?.querySelector("[role=textbox]") ?? it.closest("[data-stops='one']")?.querySelector("[tabindex='0']") ?? (it.type === "radio" ? document.querySelector("[name='" + it.name + "']:checked") : it);
            // a thumb is for the mouse alone: what is scrolled is scrolled by keys without it
            const isMissed = (it) => it.isConnected && it.checkVisibility() && !it.disabled && it.closest(".thumbs") === null && !reachedByTab.has(standsFor(it));
            return [...new Set(wanted.filter(isMissed).map((it) => "Tab does not reach " + it.outerHTML.slice(0, 100)))];
        })()`);
    }
    return missed;
}

/** Presses each button that a selector names by the key Enter: those after whose press the focus is lost. */
export async function losesFocus(browser, selector) {
    const found = [];
    const count = await browser.value(`document.querySelectorAll(${JSON.stringify(selector)}).length`);
    for (let place = 0; place < count; place += 1) {
        const name = await browser.value(
            `(() => { const it = document.querySelectorAll(${JSON.stringify(selector)})[${place}]; it?.focus(); return it === undefined || document.activeElement !== it ? null : it.getAttribute("aria-label") ?? it.textContent; })()`
        );
        if (name === null) continue;
        await browser.strike("Enter");
        await browser.value("laboratoryOfPage().settled()");
        if (await browser.value("document.querySelector('dialog') !== null")) await browser.strike("Escape");
        await browser.value("new Promise((resolve) => requestAnimationFrame(() => setTimeout(resolve)))");
        if (await browser.value("document.activeElement === document.body")) found.push(`the focus is lost after ${name}`);
    }
    return found;
}
