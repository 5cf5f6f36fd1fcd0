// @ts-check
// A text as an editor has it, in UTF-16, and as the monitor reads it, in bytes. The lines of both end differently: the monitor's at line
// feeds alone.

const LINE_END = /\r\n|\n|\r/g;
const LINE_FEED = 10;

/** How many bytes a code point has in UTF-8. Half of a pair is written as U+FFFD is. */
const bytesIn = (point) => (point < 0x80 ? 1 : point < 0x800 ? 2 : point < 0x10000 ? 3 : 4);

/** The number of the last start at or before an offset. */
function lastAt(starts, offset) {
    let [low, high] = [0, starts.length - 1];
    while (low < high) {
        const middle = (low + high + 1) >> 1;
        if (starts[middle] <= offset) low = middle;
        else high = middle - 1;
    }
    return low;
}

export class Document {
    /** @type {number[] | null} */
    #starts = null;
    /** @type {number[] | null} */
    #fed = null;

    /**
     * @param {string} uri
     * @param {string} text
     * @param {number} [version]
     */
    constructor(uri, text, version) {
        this.uri = uri;
        this.text = text;
        this.version = version;
    }

    /** Where the editor's lines begin. */
    get #lines() {
        this.#starts ??= [0, ...Array.from(this.text.matchAll(LINE_END), ({ 0: end, index = 0 }) => index + end.length)];
        return this.#starts;
    }

    /** Where the monitor's lines begin. */
    get #feeds() {
        this.#fed ??= [0, ...Array.from(this.text.matchAll(/\n/g), ({ index = 0 }) => index + 1)];
        return this.#fed;
    }

    /** The position of an offset, as the editor counts it. */
    positionAt(offset) {
        const line = lastAt(this.#lines, offset);
        return { line, character: offset - this.#lines[line] };
    }

    /** The offset of a position; one past the end of its line is that end. */
    offsetAt({ line, character }) {
        if (line >= this.#lines.length) return this.text.length;
        const [start, next] = [this.#lines[line], this.#lines[line + 1] ?? this.text.length];
        const end = start + this.text.slice(start, next).replace(/[\r\n]+$/, "").length;
        return Math.min(start + character, end);
    }

    /** The text after changes. A change without a range is all of the text. */
    changed(changes, version) {
        /** @type {Document} */
        let after = this;
        for (const { range, text } of changes) {
            const [from, to] = range === undefined ? [0, after.text.length] : [after.offsetAt(range.start), after.offsetAt(range.end)];
            after = new Document(this.uri, after.text.slice(0, from) + text + after.text.slice(to), version);
        }
        return after;
    }

    /** The monitor's lines, each its bytes without the line feed. A line feed at the very end begins no line. */
    sourceLines() {
        const bytes = new TextEncoder().encode(this.text);
        const lines = [];
        for (let from = 0; from < bytes.length; ) {
            const end = bytes.indexOf(LINE_FEED, from);
            lines.push(bytes.subarray(from, end < 0 ? bytes.length : end));
            from = end < 0 ? bytes.length : end + 1;
        }
        return lines;
    }

    /** The text of a line of the monitor, counted from 1. */
    line(number) {
        const next = this.#feeds[number];
        return this.text.slice(
            this.#feeds[number - 1] ?? this.text.length, next === undefined ? this.text.length : next - 1
        ).replace(/\r$/, "");
    }

    /** The offset of a byte of a line of the monitor; a byte within a sign is where that begins, or if asked where it ends. */
    #offsetOf(number, byte, isEnd) {
        const start = this.#feeds[number - 1] ?? this.text.length;
        const line = this.line(number);
        let [at, passed] = [0, 0];
        while (at < line.length && passed < byte) {
            const point = line.codePointAt(at) ?? 0;
            const next = passed + bytesIn(point);
            if (next > byte && !isEnd) break;
            passed = next;
            at += point > 0xffff ? 2 : 1;
        }
        return start + at;
    }

    /** The text of a part of a line, given in bytes. */
    textOf(number, [from, to]) {
        return this.text.slice(this.#offsetOf(number, from, false), this.#offsetOf(number, to, true));
    }

    /** The range of a part of a line, given in bytes. */
    rangeOf(number, [from, to]) {
        return { start: this.positionAt(this.#offsetOf(number, from, false)), end: this.positionAt(this.#offsetOf(number, to, true)) };
    }

    /** The range of a line of the monitor. */
    lineRange(number) {
        return this.rangeOf(number, [0, Infinity]);
    }

    /** Where a position is for the monitor: its line, and the byte in it. */
    placeOf(position) {
        const offset = this.offsetAt(position);
        const at = lastAt(this.#feeds, offset);
        return { number: at + 1, byte: new TextEncoder().encode(this.text.slice(this.#feeds[at], offset)).length };
    }

    /** The same with edits, which do not overlap. */
    edited(edits) {
        const placed = edits.map(({ range, newText }) => [
            this.offsetAt(range.start), this.offsetAt(range.end), newText,
        ]).sort(([one], [other]) => other - one);
        return new Document(
            this.uri, placed.reduce((text, [from, to, put]) => text.slice(0, from) + put + text.slice(to), this.text), this.version
        );
    }
}
