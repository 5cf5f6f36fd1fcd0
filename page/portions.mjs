// Runs are done in portions, so that Stop is heard, and so that no more is printed than memory holds and a reader wants.
import { LIMITS } from "./memory_budget.mjs";

/**
 * The orders of a first portion and of the least one, the runs of these by `operate`, the most orders, and how long a portion should take.
 */
const PORTION = { first: { run: 20_000, operate: 100 }, least: { run: 20_000, operate: 100 }, most: 50_000_000, milliseconds: 50 };

/**
 * The size of the next portion, so that it takes its time, neither growing nor shrinking by more than four times. It never has fewer orders
 * than `least` says: beside other work they take long, but fewer would bring the machine to a stand.
 */
export function nextPortion(size, took, verb = "run") {
    const factor = Math.min(4, Math.max(0.25, PORTION.milliseconds / Math.max(took, 1)));
    return Math.min(PORTION.most, Math.max(PORTION.least[verb], Math.round(size * factor)));
}

/**
 * How many orders may be performed at once where a run is to ask after its codes: as many as print no more than are left, if they print as
 * those before did.
 */
export function ordersUntilAsked(orders, codes) {
    return codes === 0 ? Infinity : Math.max(1, Math.ceil(((LIMITS.asksAfter - codes) * orders) / codes));
}

/** How often a run under way is told of, in milliseconds. */
const TELL_EVERY = 250;

/**
 * A run in portions: how many orders since Start was last pressed, how often it was pressed, why it has ended, by a rule perhaps, and where
 * the monitor has refused a portion, its reply.
 */
export class Run {
    orders = 0;
    starts = 0;
    end = "limit";
    rule = null;
    reply = null;
    /** How many codes were printed before. */
    printed;

    #limit;
    #isOperated;
    #isAtRest = false;
    #sizes = { ...PORTION.first };
    #portion = null;
    #performed = 0;
    #untilAsked = LIMITS.asksAfter;
    #began = performance.now();
    #told = this.#began;

    constructor(limit, printed, isOperated) {
        Object.assign(this, { printed });
        this.#limit = limit;
        this.#isOperated = isOperated;
    }

    get goesOn() {
        return this.end === "limit" && this.orders < this.#limit;
    }

    /** The number of codes at which it asks whether to go on. */
    get asksAt() {
        return this.printed + LIMITS.asksAfter;
    }

    /** The next portion, as far as there is room. */
    next(budget) {
        const verb = this.#isAtRest ? "operate" : "run";
        const most = this.#isAtRest ? budget.runs : Math.min(this.#limit - this.orders, budget.orders, this.#untilAsked);
        this.#portion = { verb, size: Math.min(this.#sizes[verb], most) };
        return this.#portion;
    }

    /** The portion has taken this many milliseconds. */
    took(milliseconds) {
        this.#sizes[this.#portion.verb] = nextPortion(this.#sizes[this.#portion.verb], milliseconds, this.#portion.verb);
    }

    refused(reply) {
        Object.assign(this, { end: "refused", reply });
    }

    /** What a portion did; where Start was pressed within it, only the orders after that are known. */
    noted({ orders, end, rule }, starts) {
        const { verb, size } = this.#portion;
        this.#performed += starts * size + orders;
        this.#isAtRest = end === "rest";
        Object.assign(this, { orders: starts > 0 ? orders : this.orders + orders, starts: this.starts + starts, end, rule });
        // only `operate` knows whether a program waits for its typewriter; where it has pressed Start as often as it may, it is asked again
        if (end === "rest" && this.#isOperated && (verb === "run" || starts === size)) this.end = "limit";
    }

    /**
     * This many codes were printed when the paper was looked at last. The run ends where they are too many, and the next portion has as
     * many orders as may print what is left.
     */
    watched(budget, count) {
        const unasked = budget.codesAtMost - count;
        const known = ordersUntilAsked(this.#performed - unasked, count - this.printed) - unasked;
        this.#untilAsked = this.#performed < LIMITS.asksAfter ? LIMITS.asksAfter - this.#performed : Math.max(1, known);
        if (this.end !== "limit") return;
        if (budget.isUsedUp) this.end = "usedUp";
        else if (count >= this.asksAt) this.end = "printed";
    }

    /** Whether it has not been told of for a while. */
    get isToTell() {
        return performance.now() - this.#told > TELL_EVERY;
    }

    /** What is told of it. */
    told() {
        this.#told = performance.now();
        return { orders: this.orders, starts: this.starts, milliseconds: this.#told - this.#began };
    }
}

/** What a run asks that has stopped before its end, or null. */
export function questionOf({ end, printed }, count) {
    if (end === "printed") return { kind: "printedMuch", count: count - printed };
    return end === "usedUp" ? { kind: "usedUp" } : null;
}

/** How often Start was pressed in a run, as `operate` tells it; nothing where it was not. */
export const startsText = (starts) => (starts === 0 ? "" : `        started again at a z after a p: ${starts}\n`);
