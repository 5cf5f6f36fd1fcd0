// What is random from a seed, and a program over standard input and output that is asked at random: each request has one response, or that
// is told.
import { spawn } from "node:child_process";
import { readFileSync, readdirSync } from "node:fs";
import { join } from "node:path";
import { fileURLToPath } from "node:url";
import { Framing, framed } from "../../framing.mjs";

export const editors = fileURLToPath(new URL("../..", import.meta.url));

/** Numbers from a seed. */
export class Chance {
    #state;

    constructor(seed) {
        this.#state = seed >>> 0;
        for (let at = 0; at < 4; at += 1) this.below(2);
    }

    /** A whole number below a bound. */
    below(bound) {
        this.#state = (Math.imul(this.#state, 1_664_525) + 1_013_904_223) >>> 0;
        return Math.floor((this.#state / 2 ** 32) * bound);
    }

    /** One of some values. */
    of(values) {
        return values[this.below(values.length)];
    }

    /** Whether something happens that does once in n times. */
    once(times) {
        return this.below(times) === 0;
    }
}

/** What is not as it should be. */
export class Difference extends Error {}

/** Tells of a difference where something is not so. */
export function wants(isSo, what) {
    if (!isSo) throw new Difference(what);
}

/** The sources of the repository's examples and tasks, those that are not long. */
export const sources = ["examples", "teaching/tasks"].flatMap((part) => readdirSync(
    join(editors, "..", part), { recursive: true }
).filter((name) => name.endsWith(".source")).map(
    (name) => readFileSync(join(editors, "..", part, name), "utf8")
)).filter((text) => text.length < 6000);

/** A program that is asked over standard input and output. */
export class Peer {
    #child;
    #wake = () => {};
    #complaints = "";
    messages = [];

    constructor(name, environment = {}) {
        this.#child = spawn(
            process.execPath, [join(editors, name)], { stdio: ["pipe", "pipe", "pipe"], env: { ...process.env, ...environment } }
        );
        const framing = new Framing((message) => { this.messages.push(message); this.#wake(); }, (why) => { this.#complaints += why; });
        this.#child.stdout.on("data", (bytes) => framing.push(bytes));
        this.#child.stderr.on("data", (bytes) => { this.#complaints += bytes; });
        this.ended = new Promise((resolve) => {
            this.#child.on("exit", (status) => { this.status = status; this.#wake(); resolve(status); });
        });
    }

    send(message) {
        this.#child.stdin.write(framed(message));
    }

    /** The first message from one on that fits, or null after some milliseconds. */
    async next(isWanted, from, patience = Number(process.env.LONGEST_WAIT ?? 60_000)) {
        const until = performance.now() + patience;
        for (let at = from; ; at += 1) {
            while (at >= this.messages.length) {
                wants(this.status === undefined, `the program has ended with status ${this.status}: ${this.#complaints}`);
                const left = until - performance.now();
                if (left <= 0) return null;
                await new Promise((resume) => {
                    const timer = setTimeout(resume, left);
                    this.#wake = () => { clearTimeout(timer); resume(); };
                });
            }
            if (isWanted(this.messages[at])) return this.messages[at];
        }
    }

    /** Ends it; that is well where it has said nothing on standard error, and ends with status 0. */
    async end() {
        this.#child.stdin.end();
        const status = await this.ended;
        wants(this.#complaints === "", `on standard error: ${this.#complaints}`);
        wants(status === 0, `it ends with status ${status}`);
    }

    kill() {
        this.#child.kill();
    }
}
