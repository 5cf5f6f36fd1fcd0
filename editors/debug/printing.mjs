// @ts-check
// What a program prints, as it comes. Only what is new is asked for: each code is the text that the typewriter makes of it, and where that
// depends on what
// stands there, what the monitor's paper has.

/** After how many codes a run asks whether to go on. */
const ASKS_AFTER = 20_000;
/** The most signs of a message. */
const MOST_SAID = 65_536;
/** A row that has a sign, from its beginning on. */
const WHOLE_ROW = /\n.*\w/;

export class Printing {
    #machine;
    #typewriter;
    #say;
    #count = 0;
    #asked = 0;
    /** The last row of the paper, as it was shown, and how many rows are above it. */
    #row = "";
    #above = 0;
    /** Whether a code is printed now as the typewriter prints it between signs. */
    #isPlain = true;

    constructor(machine, typewriter, say) {
        this.#machine = machine;
        this.#typewriter = typewriter;
        this.#say = say;
    }

    /** How many codes were printed. */
    get count() {
        return this.#count;
    }

    /** How many codes were printed since the run began. */
    get sinceAsked() {
        return this.#count - this.#asked;
    }

    /** A run begins. */
    begin() {
        this.#asked = this.#count;
    }

    /** How many more codes may be printed before it is asked. */
    get left() {
        return Math.max(0, ASKS_AFTER - this.sinceAsked);
    }

    /** Shows what was printed since it was called last. Where the machine went back, the paper is shorter, and nothing is shown. */
    show() {
        const known = Math.min(this.#count, 1);
        const codes = this.#machine.codesAfter(this.#count - known);
        if (codes.length < known) return this.#wentBack();
        this.#count += codes.length - known;
        if (codes.length > known) this.#shown(codes.slice(known).map((code) => this.#typewriter.textOf(code)));
    }

    /** The machine went back over what was printed: how many codes are left, and the row in which they end. */
    #wentBack() {
        for (let step = 1; ; step *= 2) {
            const from = Math.max(0, this.#count - 1 - step);
            const codes = this.#machine.codesAfter(from);
            if (codes.length === 0 && from > 0) continue;
            this.#count = from + codes.length;
            break;
        }
        this.#asked = Math.min(this.#asked, this.#count);
        this.#isPlain = false;
        this.#ends(this.#machine.paper().split("\n"));
    }

    /** The paper ends with these rows. */
    #ends(rows) {
        this.#above = rows.length - 1;
        this.#row = rows.at(-1) ?? "";
    }

    #shown(texts) {
        const text = texts.includes(null) ? null : texts.join("");
        if (this.#isPlain && text !== null) this.#follow(text);
        else this.#fromPaper(text);
    }

    /** The text stands after all that was shown. */
    #follow(text) {
        const rows = (this.#row + text).split("\n");
        this.#above += rows.length - 1;
        this.#row = rows.at(-1) ?? "";
        this.#told(text);
    }

    /** Shows what the paper has. It is as the typewriter prints between signs again where a row of that kind has begun since. */
    #fromPaper(text) {
        const rows = this.#machine.paper().split("\n");
        const now = rows.slice(this.#above).join("\n");
        const fresh = now.startsWith(this.#row) ? now.slice(this.#row.length) : this.#row.startsWith(now) ? "" : `\n${now}`;
        this.#isPlain = fresh === text && WHOLE_ROW.test(text);
        this.#ends(rows);
        this.#told(fresh);
    }

    #told(text) {
        for (let at = 0; at < text.length; at += MOST_SAID) this.#say(text.slice(at, at + MOST_SAID));
    }
}
