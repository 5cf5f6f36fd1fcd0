// @ts-check
// The breakpoints of a client as rules of the monitor. Rules that were typed in the console stay as they are.
import { Condition } from "./condition.mjs";
import { Refused } from "./machine.mjs";

const COUNT = /^ *(>=|>|==?|%)? *(\d+) *$/;

/** What a hit count asks of the number of hits. */
const COUNTED = {
    "": (hits, count) => hits === count, "=": (hits, count) => hits === count, "==": (hits, count) => hits === count,
    ">": (hits, count) => hits > count, ">=": (hits, count) => hits >= count, "%": (hits, count) => count > 0 && hits % count === 0,
};

const nameOf = ({ kind, address }) => `${kind} ${address}`;

/** A rule that a client wants: it breaks at an address, or watches one. */
class Point {
    hits = 0;
    /** @type {Condition | null} */
    condition = null;

    /** @param {import("../types/debug.js").Wanted} wanted */
    constructor({ id, kind = "break", address, message, hitCondition, logMessage, line }) {
        this.id = id;
        this.kind = kind;
        this.address = address ?? null;
        this.line = line;
        this.message = message ?? null;
        this.log = logMessage || null;
        this.count = hitCondition ? COUNT.exec(hitCondition) : null;
        const isCount = !hitCondition || this.count !== null;
        if (!isCount) this.message ??= `${hitCondition} is no count of hits: write a number, perhaps after =, >, >= or %`;
    }

    /** Whether its condition holds, if it has one. */
    get holds() {
        return this.condition === null || this.condition.holds();
    }

    /** Counts a hit at which its condition holds, and says whether that is one of those that were asked for. */
    hit() {
        if (!this.holds) return false;
        this.hits += 1;
        if (this.count === null) return true;
        const [, sign = "", count] = this.count;
        return COUNTED[sign](this.hits, Number(count));
    }

    /**
     * What a client is told of it.
     * @param {{ line?: number }} more
     * @returns {import("@vscode/debugprotocol").DebugProtocol.Breakpoint}
     */
    told(more = {}) {
        return {
            id: this.id, verified: this.message === null, ...(this.message === null ? {} : { message: this.message }),
            ...(this.address === null ? {} : { instructionReference: this.address }), ...more
        };
    }
}

export class Rules {
    #machine;
    #program;
    /** @type {Map<string, Point[]>} */
    #groups = new Map();
    #own = new Set();

    constructor(machine, program) {
        this.#machine = machine;
        this.#program = program;
    }

    /** Makes the points of a group: of each its number, its kind, its address or why it has none, and what was wanted of it. */
    set(group, wanted) {
        const points = wanted.map((each) => this.#point(each));
        this.#groups.set(group, points);
        this.#agree();
        return points;
    }

    #point(wanted) {
        const point = new Point(wanted);
        if (!wanted.condition || point.message !== null) return point;
        try {
            point.condition = Condition.of(wanted.condition, this.#machine, this.#program);
        } catch (refusal) {
            if (!(refusal instanceof Refused)) throw refusal;
            point.message = refusal.message;
        }
        return point;
    }

    #wanted() {
        return [...this.#groups.values()].flat().filter(({ message, address }) => message === null && address !== null);
    }

    #numbers() {
        return new Map(this.#machine.rules().map(
            (record) => [nameOf({ kind: record.get("kind"), address: record.get("address") }), record.get("rule")]
        ));
    }

    /** Drops the monitor's rules that are wanted no more, and adds those that are missing. */
    #agree() {
        const wanted = new Set(this.#wanted().map(nameOf));
        for (const name of [...this.#own].filter((it) => !wanted.has(it))) {
            const number = this.#numbers().get(name);
            if (number !== undefined) this.#machine.does(`drop ${number}`);
            this.#own.delete(name);
        }
        const there = this.#numbers();
        for (const point of this.#wanted()) this.#add(point, there);
    }

    #add(point, there) {
        const name = nameOf(point);
        if (there.has(name)) return;
        try {
            this.#machine.does(name);
            there.set(name, there.size);
            this.#own.add(name);
        } catch (refusal) {
            if (!(refusal instanceof Refused)) throw refusal;
            point.message = refusal.message;
        }
    }

    /** Forgets what is its own where the console has dropped it. */
    look() {
        const there = this.#numbers();
        this.#own = new Set([...this.#own].filter((name) => there.has(name)));
    }

    /** What a rule is, by its number. */
    rule(number) {
        const record = this.#machine.rules()[number];
        return { kind: record.get("kind"), address: record.get("address") };
    }

    /**
     * The points that were hit where a rule has stopped the machine: before the order at the counter, or after an order that changed a
     * word.
     */
    hitNow(number) {
        const stopped = this.rule(number);
        const counter = this.#machine.state().get("counter");
        const isHit = ({ kind, address }) => (kind === "break" ? address === counter : this.#machine.why(address).get("by-ago") === 1);
        const hit = this.#wanted().filter((point) => nameOf(point) === nameOf(stopped) || isHit(point));
        return { stopped, hit, isOfConsole: !this.#own.has(nameOf(stopped)) };
    }

    /** The breakpoints at the order with which the program begins. */
    hitAtEntry() {
        const counter = this.#machine.state().get("counter");
        return this.#wanted().filter(({ kind, address }) => kind === "break" && address === counter);
    }

    /** The points of all groups at which a way back stops, or null where it goes on. A rule of the console has none. */
    stopsBack(number) {
        const rule = this.rule(number);
        const points = this.#wanted().filter((point) => nameOf(point) === nameOf(rule));
        if (points.length === 0) return [];
        const stopping = points.filter(({ log }) => log === null);
        const holding = this.#machine.afterwards(rule.kind === "watch", () => stopping.filter(({ holds }) => holds));
        return holding.length === 0 ? null : holding;
    }
}
