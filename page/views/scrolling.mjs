// What is scrolled has no bar of the browser's: a thumb of the page's own lies at its edge, for the mouse; wheel, touch and keys scroll by
// themselves. And no row of a list is cut in half at its end.
import { h } from "./dom.mjs";

/** How long a thumb is at least, in pixels. */
const LEAST = 24;

/** What may be scrolled. */
const BOXES =
    ".with-arrows, .tab-panel, .scroll, .log, .script-lines, .explanation-text, .steps, .task-text, .task-answer, .card, .map-answer, .why, .piece-rows, .CodeMirror-scroll, .transcript, dialog";

/** Texts and choices, which end with a whole line. */
const TEXTS = ".task-text, .steps, .lesson details[open]";

/** Of a box its frame, which is what is seen of it, and how long its content is: an editor's box is longer than its frame. */
function lengthsOf(box) {
    const frame = box.closest(".CodeMirror") ?? box;
    return { frame, seen: frame.clientHeight, all: box.scrollHeight - (box.clientHeight - frame.clientHeight) };
}

/** The thumb of a box. It is led by the mouse. */
function makeThumb(box) {
    const node = h("div", { class: "thumb" });
    let held = null;
    node.addEventListener("pointerdown", (event) => {
        event.preventDefault();
        node.setPointerCapture(event.pointerId);
        const { seen, all } = lengthsOf(box);
        held = { y: event.clientY, top: box.scrollTop, perPixel: all / seen };
    });
    node.addEventListener("pointermove", ({ clientY }) => {
        if (held !== null) box.scrollTop = held.top + (clientY - held.y) * held.perPixel;
    });
    for (const kind of ["pointerup", "pointercancel"]) node.addEventListener(kind, () => { held = null; });
    const place = (isOpen) => {
        const { frame, seen, all } = lengthsOf(box);
        const isThere = isOpen && seen >= 2 * LEAST && all > seen + 1 && box.checkVisibility({ visibilityProperty: true });
        node.hidden = !isThere;
        if (!isThere) return;
        const { top, right } = frame.getBoundingClientRect();
        const long = Math.max(LEAST, (seen * seen) / all);
        const at = top + frame.clientTop + ((seen - long) * box.scrollTop) / (all - seen);
        Object.assign(node.style, { height: `${long}px`, transform: `translate(${right - 14}px, ${at}px)` });
    };
    return { node, place };
}

/** Lays thumbs over all that can be scrolled. Gives what is called when the page may have changed. */
export function makeThumbs() {
    const layer = h("div", { class: "thumbs", "aria-hidden": "true" });
    const thumbs = new Map();
    let asked = null;
    const place = () => {
        asked = null;
        // a dialog lies above all else of the page, so the thumbs of what is in it lie in it
        const home = document.querySelector("dialog[open]") ?? document.body;
        if (layer.parentElement !== home) home.append(layer);
        for (const box of document.querySelectorAll(TEXTS)) keepLines(box);
        const boxes = [...document.querySelectorAll(BOXES)];
        for (const [box, { node }] of thumbs) if (!box.isConnected) { node.remove(); thumbs.delete(box); }
        for (const box of boxes) {
            if (!thumbs.has(box)) { thumbs.set(box, makeThumb(box)); layer.append(thumbs.get(box).node); }
            thumbs.get(box).place(home.contains(box));
        }
    };
    const refresh = () => { asked ??= requestAnimationFrame(place); };
    for (const kind of ["scroll", "resize", "click", "keyup", "input", "toggle", "chosen"]) {
        addEventListener(kind, refresh, { capture: true, passive: true });
    }
    return refresh;
}

/** Where the lines and the controls of a box are. */
function* linesIn(box) {
    const [lines, texts] = [document.createRange(), document.createTreeWalker(box, NodeFilter.SHOW_TEXT)];
    while (texts.nextNode() !== null) {
        lines.selectNodeContents(texts.currentNode);
        yield* lines.getClientRects();
    }
    for (const control of box.querySelectorAll("button, input")) yield control.getBoundingClientRect();
}

/** How much of the end of a box would show a part of a row alone, of rows that are there. */
function cutBelow({ bottom }, rows) {
    const tops = [...rows].filter(({ top, bottom: end }) => top < bottom && end > bottom + 1).map(({ top }) => top);
    return bottom - Math.min(bottom, ...tops);
}

/** Leaves free at the end of a text or of choices what would show a part of a line alone, as long as there is more than can be seen. */
function keepLines(box) {
    const isLong = box.scrollHeight > box.clientHeight + 1;
    const room = box.getBoundingClientRect();
    const free = isLong ? Math.ceil(cutBelow(room, linesIn(box))) : 0;
    const isKept = free > 1 && free < room.height / 2;
    box.classList.toggle("kept", isKept);
    box.style.borderBottomWidth = isKept ? `${free}px` : "";
}

/** Leaves free at the end of a scrolled box what would show a part of a row alone. Gives what is called when its rows have changed. */
export function keepWhole(box, body) {
    const set = () => {
        const room = box.getBoundingClientRect();
        // an edge has whole pixels: one more would cut the row above it
        const free = Math.floor(cutBelow(room, [...body.children].map((row) => row.getBoundingClientRect())));
        if (room.height > 0 && free < room.height / 2) box.style.borderBottom = `${free}px solid var(--unseen, transparent)`;
    };
    new ResizeObserver(set).observe(box, { box: "border-box" });
    box.addEventListener("scroll", set, { passive: true });
    return () => requestAnimationFrame(set);
}
