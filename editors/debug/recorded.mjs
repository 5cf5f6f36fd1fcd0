// @ts-check
// A session that can be asked without a trace: what was asked stands in the monitor's transcript between two remarks, and is left out where
// that is shown.
import { NoMemory } from "../../libraries/javascript/session.mjs";
import { linesIn, wordsOf } from "../../libraries/javascript/lines.mjs";
import { TextSession } from "../../libraries/javascript/text_session.mjs";

/** The remarks before and after what was asked: nobody types these bytes. */
const [FROM, TO] = [";\x01", ";\x02"];

/** A text without what stands between two remarks. */
export function withoutAsides(text) {
    if (!text.includes(FROM)) return text;
    let isAside = false;
    return linesIn(text).filter((line) => {
        if (line === FROM || line === TO) isAside = line === FROM;
        return !isAside && line !== TO;
    }).map((line) => `${line}\n`).join("");
}

export class Recorded extends TextSession {
    #isAside = false;
    /** The transcript as it was read last, and the lines since, for the case that no memory is left to read it. */
    #known = "";
    #since = [];

    /** Whether a line concerns the transcript as a whole, and so has to be answered here. */
    static isConcerned(line) {
        const words = wordsOf(line);
        return words.length === 1 && ["new", "transcript"].includes(words[0]);
    }

    /** The reply to a line. */
    answer(line) {
        if (Recorded.isConcerned(line) && !this.isSourceOpen && wordsOf(line)[0] === "transcript") return this.transcript();
        if (wordsOf(line)[0] === "new" && Recorded.isConcerned(line)) [this.#known, this.#since] = ["", []];
        else if (!this.#isAside) this.note(line);
        return super.answer(line);
    }

    /** Notes a line that was answered elsewhere. */
    note(line) {
        this.#since.push(line);
    }

    /** The reply to a question of programs, which no transcript has. */
    tell(line) {
        return super.answer(line);
    }

    /** Does what only asks, or is undone before it ends. No source is open. */
    aside(work) {
        if (this.#isAside) return work();
        super.answer(FROM);
        this.#isAside = true;
        try {
            return work();
        } finally {
            this.#isAside = false;
            super.answer(TO);
        }
    }

    /** The reply to a line that only asks. */
    ask(line) {
        return this.aside(() => super.answer(line));
    }

    /** The script of all that was done. */
    transcript() {
        try {
            this.#known = this.#read();
            this.#since = [];
        } catch (failure) {
            if (!(failure instanceof NoMemory)) throw failure;
        }
        return this.#known + this.#since.map((line) => `${line}\n`).join("");
    }

    #read() {
        return withoutAsides(super.answer("transcript"));
    }
}
