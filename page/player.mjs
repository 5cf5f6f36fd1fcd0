// Plays an order from its account: the monitor has done it at once, and here its word times pass one after another. Nothing here knows of a
// page.
import { PLACES, addressOf, bareOrder, numberOf } from "./addresses.mjs";

/** The phases of an order, one after another. */
export const PHASES = ["find", "take", "seek", "act"];

/** For how long a code passes in the reader. */
const CODE_SECONDS = 0.16;

/** Without motion each phase is one picture, its end, for this long. */
const PICTURE_MILLISECONDS = 1200;

const after = (address) => addressOf((numberOf(address) + 1) % PLACES);

/** The clock within one order, as far as it is shown. */
export class Player {
    /**
     * How many word times pass in a second, how many times faster an act of more than a turn passes, and whether nothing may move but from
     * picture to picture.
     */
    pace = 32;
    hurry = 1;
    isStill = false;

    #account = null;
    #before = null;
    #offset = 0;
    #waited = 0;
    #isHeld = false;

    /**
     * Begins with an order. What the register held before it is known where it was seen, or from the order before, where that was played.
     */
    play(account) {
        this.#before = account.registerBefore ?? this.#account?.register ?? null;
        this.#account = account;
        this.#offset = this.isStill ? account.find : 0;
        this.#waited = 0;
        this.#isHeld = false;
    }

    /** Holds an order where a number of its word times has passed: until another one is played nothing passes by itself. */
    hold(account, offset) {
        if (account !== this.#account) this.#before = account.registerBefore ?? null;
        [this.#account, this.#offset, this.#isHeld] = [account, offset, true];
    }

    /** So many milliseconds have passed. Gives how many of them were not needed, since the order has ended. */
    tick(milliseconds) {
        if (this.#account === null || this.#isHeld) return 0;
        if (!this.isStill) return 1000 * this.#pass(milliseconds / 1000);
        this.#nextPicture(milliseconds);
        return 0;
    }

    #pass(seconds) {
        const { sum, act } = this.#account;
        const toAct = Math.max(0, sum - act - this.#offset);
        const before = Math.min(seconds, toAct / this.pace);
        const speed = this.#speedOfAct();
        const left = seconds - before - (sum - this.#offset - this.pace * before) / speed;
        this.#offset = Math.min(sum, this.#offset + this.pace * before + speed * (seconds - before));
        return Math.max(0, left);
    }

    /** How many word times of the act pass in a second. */
    #speedOfAct() {
        const { act, passed = 0 } = this.#account;
        if (passed > 0) return act / (passed * CODE_SECONDS);
        return act > 64 ? this.hurry * this.pace : this.pace;
    }

    /** How many codes of those that pass in the order are still to come. */
    #codesToCome() {
        const { sum, act, passed = 0 } = this.#account;
        return passed - Math.floor((passed * Math.max(0, this.#offset - (sum - act))) / act);
    }

    #nextPicture(milliseconds) {
        this.#waited += milliseconds;
        if (this.#waited < PICTURE_MILLISECONDS) return;
        this.#waited = 0;
        this.#offset = this.#ends().find((end) => end > this.#offset) ?? this.#account.sum;
    }

    /** The word times after which the phases have ended. */
    #ends() {
        let end = 0;
        return PHASES.map((phase) => { end += this.#account[phase]; return end; });
    }

    /** Ends the playing. */
    end() {
        this.#account = null;
    }

    /**
     * Where the order is that is played: the word times that have passed in it, its phase, how many there are to go until the head reads
     * what is waited for, what counter, register and accumulator hold by now, how many codes are still to pass in the reader, and whether
     * its act passes faster than it does. Null where none is played.
     */
    at() {
        const account = this.#account;
        if (account === null) return null;
        const [offset, ends] = [this.#offset, this.#ends()];
        const done = offset >= account.sum;
        const isIn = (end) => (this.isStill && !this.#isHeld ? offset <= end : offset < end);
        const isTaken = offset >= ends[1];
        const phase = PHASES[ends.findIndex(isIn)] ?? "act";
        const counted = account.at === null ? null : after(account.at);
        return {
            account,
            offset,
            done,
            phase,
            isHeld: this.#isHeld,
            left: phase === "find" || phase === "seek" ? ends[PHASES.indexOf(phase)] - offset : 0,
            counter: done ? account.next ?? counted : isTaken ? counted : account.at,
            register: isTaken ? account.register ?? null : this.#before,
            accumulator: done ? account.after : account.before, codes: this.#codesToCome(), isHurried: this.#speedOfAct() > this.pace,
        };
    }
}

/**
 * Which order is under way, and all that follows from that for what shows it, so that list, pins, register, hub and caption speak of the
 * same one: the place of the order and how it is written, its phase, the place that comes after it, and the place of its word. Before an
 * order is taken nobody knows what it names, and what comes after it is itself; between two orders the last one is there as `done`; before
 * the first there is none. `played` is what a player tells, or null, and `last` the order that was told last, or null where another one may
 * have been performed since.
 */
export function markAt({ played, last, panel }) {
    if (played !== null && !played.done) {
        const { account, phase, counter } = played;
        const isTaken = phase === "seek" || phase === "act";
        return {
            now: account.at, order: bareOrder(account.order), phase, coming: isTaken ? counter : null,
            operand: isTaken ? account.word : null, isWritten: false,
        };
    }
    if (last === null) return { now: null, order: null, phase: null, coming: panel.counter, operand: null, isWritten: false };
    return {
        now: last.at, order: bareOrder(last.order), phase: "done", coming: panel.counter, operand: last.word,
        isWritten: last.stored !== null,
    };
}
