// What was done: the orders, the actions of the operator between them, and lines that were done as one. What was gone back over is kept as
// well, so that it can be performed again.

const isOrders = ({ line, lines }) => line === undefined && lines === undefined;

/** What of an action comes after its first orders: of lines done as one the same, with the orders that are `past`, but for its last run. */
function restOf(action, left) {
    const [orders, past] = [action.orders - left, (action.past ?? 0) + left];
    return isOrders(action) || orders <= action.last ? { orders, first: action.first + past } : { ...action, orders, past };
}

/** Splits this number of orders off the end of a list of actions: what stays, and what goes. */
function split(actions, orders) {
    const gone = [];
    const stays = [...actions];
    let missing = orders;
    while (missing > 0 && stays.length > 0) {
        const action = stays.pop();
        const left = action.orders - missing;
        if (left > 0) stays.push({ ...action, orders: left, last: Math.max(0, (action.last ?? 0) - missing) });
        gone.unshift(left > 0 ? restOf(action, left) : action);
        missing -= Math.min(missing, action.orders);
    }
    return { stays, gone };
}

/** What was typed among actions. */
const typedIn = (actions) => (
    actions.filter(({ at = null }) => at !== null).map(({ line, at }) => ({ at, keys: line.replace(/^ *type ?/, "") }))
);

const sum = (actions) => actions.reduce((total, action) => total + action.orders, 0);

/** How many marks there are at most: of those that are most, every other one goes, but for the last. */
const MARKS = 300;

function thinned(marks) {
    if (marks.length <= MARKS) return marks;
    const kinds = ["row", "watch", "stop", "hand"].map((name) => marks.filter(({ kind }) => kind === name));
    const [most] = kinds.sort((one, other) => other.length - one.length);
    const gone = new Set(most.filter((unused, at) => (most.length - at) % 2 === 0));
    return marks.filter((mark) => !gone.has(mark));
}

/**
 * The actions done and the actions undone: each a `line` of the operator, or a number of `orders`, or `lines` that are done as one with
 * their orders, of which the last run has `last`. `first` is the number of the first order, counted as the monitor counts all that it has
 * performed.
 */
export class ActionHistory {
    #done = [];
    #undone = [];
    #typedBefore = [];
    /** How much was ahead that something else has taken the place of, until that is noted. */
    left = 0;
    /**
     * What happened on the way, each at the place after an order: a `row` was printed, with how many `rows` there were then, a `watch`ed
     * word has changed, a rule has made a `stop`, or a `hand` did something.
     */
    marks = [];

    /** How many orders were performed up to here. */
    get behind() {
        return sum(this.#done);
    }

    /** How many orders were done since the operator's last action. */
    get unbroken() {
        const at = this.#done.findLastIndex((action) => !isOrders(action));
        return sum(this.#done.slice(at + 1)) + (this.#done[at]?.last ?? 0);
    }

    /** How many orders were undone. */
    get ahead() {
        return sum(this.#undone);
    }

    /** The lines that do again what was undone. */
    get later() {
        return this.#undone.flatMap(({ line, lines, orders }) => lines ?? [line ?? `orders ${orders}`]);
    }

    /** The monitor's number of the order at a place up to here; null where none is. */
    numberAt(place) {
        let before = 0;
        for (const { orders, first, past = 0 } of [...this.#done, ...this.#undone]) {
            if (place < before + orders) return first + past + place - before;
            before += orders;
        }
        return null;
    }

    /** The runs of orders up to here: the place of each, its number, and how many orders it has. */
    get runs() {
        let place = 0;
        return this.#done.filter(({ orders }) => orders > 0).map(({ orders, first, past = 0 }) => {
            place += orders;
            return { place: place - orders, number: first + past, orders };
        });
    }

    /** Orders were performed: new ones, which leave nothing ahead, or again those that come next. Two runs on end become one action. */
    orders(count, isAgain = false, first = this.#after) {
        if (count === 0) return;
        if (isAgain) this.#passOrders(count);
        else this.#leave();
        const last = this.#done.at(-1);
        if (last !== undefined && isOrders(last) && last.first + last.orders === first) last.orders += count;
        else this.#done.push({ orders: count, first });
    }

    /** Something else is done in place of what is ahead. */
    #leave() {
        if (this.#undone.length === 0) return;
        const { behind } = this;
        this.marks = this.marks.filter(({ place }) => place <= behind);
        this.left += this.#undone.length;
        this.#undone = [];
    }

    /** Marks a place. */
    mark(kind, place = this.behind, rows = 0) {
        if (this.marks.some((mark) => mark.kind === kind && mark.place === place)) return;
        this.marks = thinned([...this.marks, { kind, place, rows }]);
    }

    /** The last row that is marked, or the place before all. */
    get lastRow() {
        return this.marks.findLast(({ kind }) => kind === "row") ?? { place: 0, rows: 0 };
    }

    /** The number after that of the last order. */
    get #after() {
        const { first, orders } = this.#done.findLast((action) => action.orders > 0) ?? { first: 0, orders: 0 };
        return first + orders;
    }

    #passOrders(count) {
        let missing = count;
        while (missing > 0 && this.#undone.length > 0) {
            const action = this.#undone.shift();
            if (action.orders > missing) this.#undone.unshift(restOf(action, missing));
            missing -= Math.min(missing, action.orders);
        }
    }

    /**
     * A line that is a step was done: a new one, or again the one that comes next. Of what was typed, `at` says how much text stood on the
     * paper then.
     */
    line(line, isAgain = false, at = null) {
        this.#done.push({ line, orders: 0, ...(at === null ? {} : { at }) });
        if (isAgain) this.#undone.shift();
        else this.#leave();
    }

    /** Lines were done as one: new ones, or again those that come next. `image` is what they have loaded. */
    whole({ lines, orders, first, last = 0, image = null }, isAgain = false) {
        let passed = 0;
        if (!isAgain) this.#leave();
        while (this.#undone[0]?.lines === lines) passed += this.#undone.shift().orders;
        if (isAgain) this.#passOrders(orders - passed);
        this.#done.push({ lines, orders, first, last, image });
    }

    /** So many orders, and what the operator did after the first of them, were undone. */
    back(orders) {
        const { stays, gone } = split(this.#done, orders);
        this.#done = stays;
        this.#undone = [...gone, ...this.#undone];
    }

    /** The action that comes next where all is performed again, of at most `limit` orders; null where there is none. */
    next(limit) {
        const action = this.#undone[0];
        if (action === undefined) return null;
        return isOrders(action) || (action.orders > 0 && limit === 0) ? { orders: Math.min(limit, action.orders) } : action;
    }

    /** A history that has the same, and goes on alone. */
    get copy() {
        const copy = new ActionHistory();
        copy.#done = this.#done.map((action) => ({ ...action }));
        [copy.#undone, copy.#typedBefore, copy.left, copy.marks] = [[...this.#undone], [...this.#typedBefore], this.left, this.marks];
        return copy;
    }

    /** Nothing can be gone back over; what was typed stays on the paper. */
    clear() {
        this.#typedBefore.push(...typedIn(this.#done));
        [this.#done, this.#undone, this.marks] = [[], [], []];
    }

    /** Another laboratory, with an empty paper. */
    begin() {
        this.clear();
        this.#typedBefore = [];
    }

    /** What was typed, each with how much text stood on the paper then. */
    get typed() {
        return [...this.#typedBefore, ...typedIn(this.#done)];
    }

    /** What was loaded last, or null. */
    get image() {
        return this.#done.findLast(({ image = null }) => image !== null)?.image ?? null;
    }

    /** The mounted tape's text, as far as it was mounted by a line that counts; null where none was. */
    get tape() {
        const mounted = this.#done.findLast(({ line, image }) => image != null || /^ *mount( |$)/.test(line ?? ""))?.line ?? null;
        return mounted === null ? null : mounted.replace(/^ *mount ?/, "");
    }
}
