// What stands in the fields of the page, by their names: it stays when the page is laid anew, and is kept with the work that it belongs to.

import { LineHistory } from "./line_history.mjs";

/** Texts of fields. Dispatches `change` when one is written. */
export class Drafts extends EventTarget {
    /** The lines for the machine that were typed before. */
    history = new LineHistory();

    #texts = new Map();

    /** A field's text, or null. */
    of(name) {
        return this.#texts.get(name) ?? null;
    }

    /** Keeps a field's text; null is none. */
    keep(name, text) {
        if (this.of(name) === text) return;
        if (text === null) this.#texts.delete(name);
        else this.#texts.set(name, text);
        this.dispatchEvent(new Event("change"));
    }

    /** All texts. */
    get all() {
        return Object.fromEntries(this.#texts);
    }

    /** Takes these texts in place of all. */
    restore(texts) {
        this.#texts = new Map(Object.entries(texts));
        this.dispatchEvent(new Event("change"));
    }

    /** Gives a field its text, and keeps what is written in it. */
    held(field, name) {
        field.value = this.of(name) ?? field.value;
        field.addEventListener("input", () => this.keep(name, field.value));
        return field;
    }
}
