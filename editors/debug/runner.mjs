// @ts-check
// Runs of the machine, in portions so that a pause is heard, up to a point at which a client wants it to stop.
import { nextPortion } from "../../page/portions.mjs";
import { Refused } from "./machine.mjs";
import { Interrupted } from "./past.mjs";

const FIRST_PORTION = 2000;
/** After how many milliseconds others have their turn. */
const TURN = 20;
const OVERFLOW = "halted overflow";
/** Where a way back ends. */
const AT_BEGINNING = "the end of the way back, at {}: the program begins here";
const WITHOUT_HIT = "the end of the way back, at {}: it hits no breakpoint";

/** Lets what waits be done. */
export const letOthersGo = () => new Promise((resume) => { setTimeout(resume); });

export class Runner {
    #machine;
    #rules;
    #printing;
    #log;
    #isOperated;
    #isPausing = false;
    /** The orders of this run so far. */
    #performed = 0;
    isRunning = false;
    /** Whether an overflow is a stop. */
    stopsAtOverflow = true;

    constructor(machine, rules, printing, log, isOperated) {
        this.#machine = machine;
        this.#rules = rules;
        this.#printing = printing;
        this.#log = log;
        this.#isOperated = isOperated;
    }

    pause() {
        this.#isPausing = true;
    }

    /** Runs until there is a reason to stop, and gives that. Where the program is entered, a breakpoint at its first order is one. */
    async run(isEntering) {
        this.isRunning = true;
        this.#isPausing = false;
        this.#performed = 0;
        this.#printing.begin();
        try {
            return (isEntering ? this.#stopFor(this.#rules.hitAtEntry()) : null) ?? await this.#portions();
        } catch (refusal) {
            if (!(refusal instanceof Refused)) throw refusal;
            return { reason: "exception", sentence: refusal.message };
        } finally {
            this.isRunning = false;
        }
    }

    async #portions() {
        if (!this.#machine.wake()) return this.#halted();
        let [size, turn] = [FIRST_PORTION, performance.now()];
        for (;;) {
            const begun = performance.now();
            const stop = this.#portion(size);
            const took = performance.now() - begun;
            if (stop !== null) return stop;
            this.#printing.show();
            if (this.#printing.left === 0) return {
                reason: "pause", sentence: `${this.#printing.sinceAsked} codes were printed since the run began: continue lets it print on`,
            };
            size = this.#sizeAfter(size, took);
            if (performance.now() - turn < TURN) continue;
            await letOthersGo();
            turn = performance.now();
            if (this.#isPausing) return { reason: "pause", what: "a pause at {}" };
        }
    }

    /**
     * The size of the next portion, by what the machine took for the last one. It prints about as much as is left, if it prints as the
     * orders before did.
     */
    #sizeAfter(size, took) {
        this.#performed += size;
        const printed = this.#printing.sinceAsked;
        const next = nextPortion(size, took);
        return printed === 0 ? next : Math.min(next, Math.max(1, Math.ceil((this.#printing.left * this.#performed) / printed)));
    }

    /** Performs some orders; why it is to stop, or null. */
    #portion(size) {
        const run = this.#machine.run(size);
        if (run.end === "limit") return null;
        return run.end === "rule" ? this.#stopAt(run.rule) : this.#rest();
    }

    #rest() {
        if (this.#goesOnAfterOverflow()) return null;
        const again = this.#isOperated ? this.#machine.operate() : null;
        if (again === null) return this.#halted();
        if (again.end === "limit") return null;
        return again.end === "rule" ? this.#stopAt(again.rule) : this.#rest();
    }

    /** Starts the machine again where an overflow has halted it and is no stop; whether it did. */
    #goesOnAfterOverflow() {
        return !this.stopsAtOverflow && this.#machine.state().get("status") === OVERFLOW && this.#machine.wake();
    }

    /** The machine has stopped itself. */
    #halted() {
        const state = this.#machine.state();
        const status = state.get("status");
        const sentence = `${state.get("state-sentence")}: ${state.get("way-sentence")}`;
        return { reason: status === OVERFLOW ? "exception" : status, sentence };
    }

    /** What a rule's stop is for the client: null where all that was hit only counts or writes. */
    #stopAt(number) {
        const { stopped, hit, isOfConsole } = this.#rules.hitNow(number);
        return this.#stopFor(hit, stopped, isOfConsole);
    }

    /**
     * The stop for points that were hit, and for the rule that has stopped the machine.
     * @param {any[]} hit
     * @param {any} stopped
     */
    #stopFor(hit, stopped = null, isOfConsole = false) {
        const counted = hit.filter((point) => point.hit());
        for (const { log } of counted) if (log !== null) this.#log(log);
        const points = counted.filter(({ log }) => log === null);
        if (points.length === 0 && !isOfConsole) return null;
        const { kind, address } = points.find((point) => point.kind === stopped?.kind) ?? points[0] ?? stopped;
        if (kind === "break") return { reason: "breakpoint", what: "a breakpoint at {}", points };
        return {
            reason: "data breakpoint", points, sentence: this.#machine.sayWhy(address), text: this.#machine.whyBefore(address) ?? undefined,
        };
    }

    /** Performs one order. */
    step() {
        if (!this.#machine.wake()) return this.#halted();
        this.#printing.begin();
        const run = this.#machine.run(1);
        const step = { reason: "step", what: "a step to {}" };
        if (run.end === "rule") return this.#stopAt(run.rule) ?? step;
        return run.end === "rest" && !this.#goesOnAfterOverflow() ? this.#halted() : step;
    }

    /** Goes back one order. */
    async stepBack(isInterrupted) {
        return this.#goneBack(isInterrupted, async (letOthersGo) => (
            await this.#machine.stepBack(letOthersGo)
                ? { reason: "step", what: "a step back to {}" }
                : { reason: "entry", what: AT_BEGINNING }
        ));
    }

    /** Goes back to the latest order that a breakpoint hits, or to the first order of the program. */
    async runBack(isInterrupted) {
        return this.#goneBack(isInterrupted, async (letOthersGo) => {
            for (;;) {
                const said = await this.#machine.last(letOthersGo);
                if (said === null) return { reason: "entry", what: await this.#machine.toFirst(letOthersGo) ? WITHOUT_HIT : AT_BEGINNING };
                const points = this.#rules.stopsBack(said.rule);
                if (points !== null) return this.#stopBack(said.rule, points);
            }
        });
    }

    #stopBack(rule, points) {
        return this.#rules.rule(rule).kind === "break"
            ? { reason: "breakpoint", what: "back to a breakpoint at {}", points }
            : { reason: "data breakpoint", what: "back to {}, where a watched word is about to change", points };
    }

    /** The stop of a way back, which may take long where its steps are not kept, and is heard to be enough. */
    async #goneBack(isInterrupted, work) {
        let turn = performance.now();
        try {
            return await work(async () => {
                if (performance.now() - turn < TURN) return;
                await letOthersGo();
                turn = performance.now();
                if (isInterrupted()) throw new Interrupted();
            });
        } catch (failure) {
            if (!(failure instanceof Interrupted)) throw failure;
            return { reason: "pause", what: "a pause at {}" };
        }
    }
}
