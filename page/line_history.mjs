// Lines that were typed before, brought back one after another.

const KEPT = 200;

/** The lines typed before. */
export class LineHistory {
    #lines = [];
    #at = 0;
    #draft = "";

    /** A line was sent. One that is sent twice on end is kept once. */
    add(line) {
        if (line !== "" && line !== this.#lines.at(-1)) this.#lines = [...this.#lines, line].slice(-KEPT);
        this.#at = this.#lines.length;
        this.#draft = "";
    }

    /** The line before the one that is shown, which is kept where it is a draft; null where there is none. */
    back(shown) {
        if (this.#at === 0) return null;
        if (this.#at === this.#lines.length) this.#draft = shown;
        this.#at -= 1;
        return this.#lines[this.#at];
    }

    /** The line after the one that is shown, or the draft; null where there is none. */
    forward() {
        if (this.#at === this.#lines.length) return null;
        this.#at += 1;
        return this.#lines[this.#at] ?? this.#draft;
    }
}
