// A document without a browser, in which views can be looked at: jsdom where it is installed, as Debian has it, or else null.
import Module, { createRequire } from "node:module";

/** Where Debian's packages are; a node of another origin does not look there. */
const PACKAGES = "/usr/share/nodejs";

/** What jsdom lacks and a view asks for: nothing is laid out here, so everything that is not hidden is seen. */
class ResizeObserver {
    observe() {}
}

function isSeen() {
    for (let node = this; node !== null; node = node.parentElement) if (node.hidden) return false;
    return this.isConnected;
}

/** Has a document be the one of this process; whether there is one. */
export function openWindow(body = "") {
    let JSDOM;
    process.env.NODE_PATH = PACKAGES;
    Module._initPaths();
    try {
        ({ JSDOM } = createRequire(`${PACKAGES}/`)("jsdom"));
    } catch {
        return false;
    }
    const { window } = new JSDOM(`<body>${body}</body>`, { url: "http://localhost/" });
    window.Element.prototype.checkVisibility = isSeen;
    const { document, location, Event, KeyboardEvent, Node, getComputedStyle } = window;
    const stands = { matchMedia: () => ({ matches: false }), requestAnimationFrame: (work) => work(), CSS: { escape: (text) => text } };
    Object.assign(globalThis, { window, document, location, Event, KeyboardEvent, Node, getComputedStyle, ResizeObserver, ...stands });
    return true;
}

/** Presses a key on a node. */
export const pressKey = (node, key) => node.dispatchEvent(new KeyboardEvent("keydown", { key, bubbles: true, cancelable: true }));

/** The texts of some nodes. */
export const textsOf = (nodes) => [...nodes].map(({ textContent }) => textContent);
