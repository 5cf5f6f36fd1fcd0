// A sitting by a keyboard that types by itself.
import { mkdtempSync, readFileSync, readdirSync, rmSync } from "node:fs";
import { tmpdir } from "node:os";
import { join } from "node:path";
import { Aliases } from "../aliases.mjs";
import { ModuleEngine } from "../engines.mjs";
import { Front } from "../front.mjs";
import { END } from "../keyboard.mjs";
import { Session, compiled } from "../session.mjs";
import { Shelf } from "../shelf.mjs";
import { TextSession } from "../text_session.mjs";

const module = compiled(readFileSync(new URL("../lgp_c_region.wasm", import.meta.url)));
const open = () => new Session(module, 2 ** 24);
/** A laboratory of its own, which answers lines. */
export const openText = () => new TextSession(open());

export class Sitting {
    /** The questions that were asked of the engine. */
    asked = [];
    shown = "";
    #folder = mkdtempSync(join(tmpdir(), "front-"));
    #over;
    /** What is called when the next line is wished for, and what types it. */
    #isReady = null;
    #types = null;

    /** With what is told of each line before the engine gets it, and what else is told to the front. */
    constructor(spoil = () => {}, options = {}) {
        this.engine = this.#engine(spoil);
        this.keyboard = { isInterrupted: false, hasEnded: false, line: () => this.#next() };
        const front = new Front({
            engine: this.engine, keyboard: this.keyboard,
            shelf: new Shelf(this.#folder), aliases: new Aliases(join(this.#folder, "aliases")),
            write: (text) => (this.shown += text), hasColour: false, isPlain: false, columns: () => 100, ...options,
        });
        const ready = this.#ready();
        this.#over = front.sit();
        this.begun = Promise.race([ready, this.#over]);
    }

    #engine(spoil) {
        const engine = new ModuleEngine(open(), open);
        const { ask, type } = engine;
        engine.ask = (line) => {
            this.asked.push(line);
            return ask.call(engine, line);
        };
        engine.type = (line, ...rest) => {
            spoil(line);
            return type.call(engine, line, ...rest);
        };
        return engine;
    }

    #ready() {
        return new Promise((resolve) => (this.#isReady = resolve));
    }

    #next() {
        const line = new Promise((resolve) => (this.#types = resolve));
        this.#isReady();
        return line;
    }

    /** What is shown for a line. */
    async type(line) {
        await this.begun;
        const [before, ready] = [this.shown.length, this.#ready()];
        this.#types(line);
        await Promise.race([ready, this.#over]);
        return this.shown.slice(before);
    }

    /** Ends it; the sessions that are kept. */
    async leave() {
        try {
            await this.type(END);
            await this.#over;
            const kept = join(this.#folder, "sessions");
            return readdirSync(kept).map((name) => readFileSync(join(kept, name), "utf8"));
        } finally {
            rmSync(this.#folder, { recursive: true });
        }
    }
}

/** What is shown while lines are typed, the questions that were asked, and the sessions that are kept. */
export async function sat(lines, spoil) {
    const sitting = new Sitting(spoil);
    for (const line of lines) await sitting.type(line);
    const kept = await sitting.leave();
    return { shown: sitting.shown, asked: sitting.asked, kept };
}
