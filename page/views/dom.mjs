// Elements of the page, made by short calls.

const SVG = "http://www.w3.org/2000/svg";

function filled(node, attributes, children) {
    for (const [name, value] of Object.entries(attributes)) {
        if (name.startsWith("on")) node.addEventListener(name.slice(2), value);
        else if (value === true) node.setAttribute(name, "");
        else if (value !== false && value !== null && value !== undefined) node.setAttribute(name, value);
    }
    node.append(...children.filter((child) => child !== null && child !== undefined));
    return node;
}

/** An element of the page. An attribute that begins with `on` is a listener; one that is false or null is left out. */
export const h = (name, attributes = {}, ...children) => filled(document.createElement(name), attributes, children);

/** An element of a drawing. */
export const s = (name, attributes = {}, ...children) => filled(document.createElementNS(SVG, name), attributes, children);

let made = 0;

/** A part of the page with its heading. */
export function part(name, heading, ...children) {
    made += 1;
    const id = `part-${made}`;
    return h("section", { class: `part ${name}`, "aria-labelledby": id }, h("h2", { id }, heading), ...children);
}

/** Fills a place anew: a node that stands there stays, and so does the focus, on the control that it was on, known by its `data-name`. */
export function refill(place, ...nodes) {
    const name = place.contains(document.activeElement) ? document.activeElement.dataset.name : undefined;
    nodes.forEach((node, at) => {
        const there = place.children[at];
        if (there === undefined) place.append(node);
        else if (there !== node) there.replaceWith(node);
    });
    while (place.children.length > nodes.length) place.lastElementChild.remove();
    if (name !== undefined) place.querySelector(`[data-name="${CSS.escape(name)}"]`)?.focus();
}

/**
 * Makes one stop of Tab of the buttons of a list: the one that had the focus last, else the one in a row that `first` selects, else the
 * first one. Arrows, Home and End go among them. Gives what is called when the list
 * was filled. The buttons are known by their `data-name`, or by another attribute of `data`.
 */
export function oneStop(list, first, by = "name") {
    let last = null;
    const buttons = () => [...list.querySelectorAll(`button[data-${by}]`)].filter((it) => it.checkVisibility());
    const refresh = () => {
        const all = buttons();
        const stop = all.find(({ dataset }) => dataset[by] === last) ?? all.find((it) => it.closest(first) !== null) ?? all[0];
        for (const it of all) it.tabIndex = it === stop ? 0 : -1;
    };
    list.dataset.stops = "one";
    list.addEventListener("focusin", ({ target }) => { last = target.dataset[by] ?? last; refresh(); });
    list.addEventListener("keydown", (event) => {
        const all = buttons();
        const at = all.indexOf(event.target);
        const [before, after] = [Math.max(at - 1, 0), Math.min(at + 1, all.length - 1)];
        const to = { ArrowUp: before, ArrowLeft: before, ArrowDown: after, ArrowRight: after, Home: 0, End: all.length - 1 }[event.key];
        if (at < 0 || to === undefined) return;
        event.preventDefault();
        all[to].focus();
    });
    return refresh;
}

/** Gives a node a text, where it has another one: what stays the same is not laid out anew. */
export function tell(node, text) {
    if (node.textContent !== text) node.textContent = text;
}

const plain = (unused, value) => (typeof value === "bigint" ? String(value) : value);

/** Makes a node for what is to be shown under a name, and only where that is something else than before. */
export function memoized(make) {
    const nodes = new Map();
    return (name, shown) => {
        const key = JSON.stringify(shown, plain);
        if (nodes.get(name)?.key !== key) nodes.set(name, { key, node: make(shown) });
        return nodes.get(name).node;
    };
}

/** A control that does something only while it is live; while it is dead, a press says why, or does nothing. */
export const guarded = (text, attributes, action, whenDead = () => {}) => {
    const control = button(text, () => (control.getAttribute("aria-disabled") === "true" ? whenDead() : action()), attributes);
    return control;
};

/** Shows a control dead or live. It can be reached while dead, so that the focus stays and a screen reader tells of it. */
export function showLive(control, live) {
    control.setAttribute("aria-disabled", String(!live));
    control.classList.toggle("dead", !live);
}

/** Text for a screen reader alone. */
export const unseen = (text) => h("span", { class: "unseen" }, text);

/** A button with its text; what it does is told when it is pressed. */
export const button = (text, onclick, attributes = {}) => h("button", { type: "button", onclick, ...attributes }, text);
