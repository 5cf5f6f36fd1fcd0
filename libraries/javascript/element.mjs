// The custom element <lgp-machine>: a machine in a page, with its drum, its paper and a button that executes one order.
//
//     <script type="module" src="element.mjs"></script>
//     <lgp-machine src="program.txt"></lgp-machine>
//
// `src` names a script, whose lines are carried out up to the first that executes orders, or a source (`.source`), which is loaded
// and started.
import { Laboratory, numberOf } from "./laboratory.mjs";
import { linesOf } from "./replies.mjs";

const SECTORS = 64;
const CELL = 4;
const RUN = 1000;
const RUNS = /^ *(?:run|orders|operate|trace|profile|drum|optimum)(?:-data)? /;
const STYLE = `:host { display: inline-block; font: 14px/1.4 ui-monospace, Menlo, Consolas, monospace; }
svg { display: block; background: #f4f1ea; border: 1px solid #8a8577; } button { font: inherit; margin: 0.4em 0.4em 0.4em 0; }
p { margin: 0.2em 0; max-width: 34em; }
pre { min-height: 1.4em; margin: 0.4em 0; padding: 0.4em; background: #fff; color: #222; border: 1px solid #ccc; white-space: pre-wrap; }`;

const made = (name, texts = {}) => Object.assign(document.createElement(name), texts);

function square(address, fill, stroke = "none") {
    const [track, sector] = [Number(address.slice(0, 2)), Number(address.slice(2))];
    return `<rect x="${CELL * sector}" y="${CELL * track}" width="${CELL}" height="${CELL}" fill="${fill}" stroke="${stroke}"/>`;
}

/** The drum: a row a track, a square for each word that is not zero, and the counter. */
function picture(held, counter) {
    const size = SECTORS * CELL;
    const squares = held.map((address) => square(address, "#2b4a6f")).join("") + square(counter, "none", "#c2410c");
    const frame = `viewBox="-1 -1 ${size + 2} ${size + 2}" width="${size}" height="${size}"`;
    return `<svg ${frame} role="img" aria-label="${held.length} words of the drum are not zero">${squares}</svg>`;
}

class Machine extends HTMLElement {
    #laboratory = null;
    #ready = null;
    #parts = null;

    connectedCallback() {
        if (this.#parts !== null) return;
        const shadow = this.attachShadow({ mode: "open" });
        const parts = { drum: made("div"), state: made("p"), told: made("p"), paper: made("pre") };
        const buttons = [["Step", () => this.step()], ["Run", () => this.run()], ["Start over", () => this.load()]];
        this.#parts = parts;
        parts.told.setAttribute("aria-live", "polite");
        parts.paper.setAttribute("aria-label", "paper");
        const pressed = buttons.map(([textContent, onclick]) => made("button", { textContent, onclick, type: "button" }));
        shadow.append(made("style", { textContent: STYLE }), parts.drum, ...pressed, parts.state, parts.told, parts.paper);
        this.load();
    }

    /** The laboratory, when its program is there. */
    get ready() {
        return this.#ready;
    }

    /** Loads the program into a new machine. */
    load() {
        this.#ready = this.#load().catch((failure) => this.#tell(failure.message));
        return this.#ready;
    }

    async #load() {
        const laboratory = await Laboratory.open();
        const name = this.getAttribute("src");
        if (name !== null) {
            const answer = await fetch(new URL(name, document.baseURI));
            if (!answer.ok) throw new Error(`${name} cannot be read: ${answer.status} ${answer.statusText}`);
            this.#enter(laboratory, name, await answer.text());
        }
        this.#laboratory?.close();
        this.#laboratory = laboratory;
        this.#tell("Press Step to execute one order.");
        return laboratory;
    }

    #enter(laboratory, name, text) {
        if (name.endsWith(".source")) {
            const { start } = laboratory.source(text);
            laboratory.load();
            if (start !== null) laboratory.go(start);
            return;
        }
        for (const line of text.replace(/\n$/, "").split("\n")) {
            if (RUNS.test(line)) break;
            laboratory.answer(line);
        }
    }

    /** Executes one order. */
    step() {
        const account = this.#asked(() => this.#laboratory.step());
        if (account === undefined) return;
        if (account === null) {
            this.#tell(this.#laboratory.lastRun.state);
            return;
        }
        const { at, order, find, seek, cost, after, stored } = account;
        const kept = stored === null ? "" : `; ${stored.after.digits} is now at ${stored.address}`;
        const times = `${cost} word times, ${find + seek} of them waiting`;
        this.#tell(`${at ?? "register"}  ${order}: ${times}; accumulator ${after} = ${numberOf(after)}${kept}`);
    }

    /** Executes orders until the machine is at rest, some of them at most. */
    run() {
        const run = this.#asked(() => this.#laboratory.run(RUN));
        if (run !== undefined) this.#tell(`${run.orders} orders${run.state === null ? "" : `; ${run.state}`}`);
    }

    /** What a call gives; nothing where there is no program yet, or it was refused, which is told. */
    #asked(call) {
        if (this.#laboratory === null) return undefined;
        try {
            return call();
        } catch (failure) {
            this.#tell(failure.message);
            return undefined;
        }
    }

    /** Shows how the machine stands, and a sentence. */
    #tell(sentence) {
        const { drum, state, told, paper } = this.#parts;
        told.textContent = sentence;
        if (this.#laboratory === null) return;
        const { counter, accumulator, status, clock } = this.#laboratory.panel();
        const held = linesOf(this.#laboratory.answer("dump")).slice(1).map((line) => line.split(" ")[0]);
        drum.innerHTML = picture(held, counter);
        state.textContent = `counter ${counter}  accumulator ${accumulator} = ${numberOf(accumulator)}  ${status}  clock ${clock}`;
        paper.textContent = this.#laboratory.paper();
        this.dispatchEvent(new CustomEvent("told", { detail: sentence }));
    }
}

customElements.define("lgp-machine", Machine);
