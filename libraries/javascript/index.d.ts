/** The bytes of `lgp_c_region.wasm`, or the module that `compiled` has made of them. */
export type ModuleSource = BufferSource | WebAssembly.Module;

export interface Options {
    /** How many bytes the laboratory has for what it keeps: 67,108,864 where nothing is said. */
    region?: number;
}

/** Compiles the module once for several laboratories. Throws NoModule. */
export function compiled(bytes: ModuleSource): WebAssembly.Module;

/** The bytes are not the laboratory's module, or there is no WebAssembly or no BigInt here. */
export class NoModule extends Error {}

/** There was not enough memory. A laboratory is closed then. */
export class NoMemory extends Error {}

/** A reply that begins with a question mark, as docs/FORMATS.md lists them. */
export class Refusal extends Error {
    constructor(reply: string);
    /** The line of the reply, without its line feed. */
    readonly reply: string;
    readonly number: number;
    /** Its name, such as `Form`. */
    readonly kind: string;
    /** The number that TooFar, NoHit and BadSign tell. */
    readonly detail: number | null;
    /** What a laboratory says of it besides; a script has no reasons. */
    readonly reason: string | null;
    /** What is wrong with a source that `source` has refused; empty for all other refusals. */
    readonly faults: Fault[];
}

/** A faulty line of a source. */
export interface Fault {
    /** Its number, from 1 on. */
    line: number;
    /** The first fault that it has, as docs/FORMATS.md names it. */
    kind: string;
    /** The part of the line that is wrong: its first column, from 0 on, and the one after its last; null where no part is. */
    columns: [number, number] | null;
    /** What is wrong, in words, and what would be right. */
    wrong: string;
    right: string;
}

export type Switch = "bp32" | "bp16" | "bp8" | "bp4" | "transfer" | "sixbit";

/** What the panel shows. Words are eight digits of base 16, addresses `ttss`. */
export interface Panel {
    counter: string;
    accumulator: string;
    register: string;
    status: string;
    mode: string;
    down: Record<Switch, boolean>;
    /** Whether the reader is on. */
    reading: boolean;
    /** How many codes the tape still has. */
    tape: number;
    /** How many word times have passed. */
    clock: bigint;
}

/** What a run did. */
export interface Run {
    orders: number;
    end: "rest" | "limit" | "rule";
    /** The number of the rule that stopped it. */
    rule: number | null;
    /** Whether the condition was met that the run waited for; null where it waited for none. */
    isMet: boolean | null;
    /** What halted the machine and how it can continue; null where the run ended at its limit. */
    state: string | null;
}

/** What stops a run: before the order at an address, or after an order that changes the word there. */
export interface Rule {
    number: number;
    kind: "break" | "watch";
    address: string;
    label: string | null;
}

/** What put a word where it is; its order is null where that was a hand, and `at` is null, too, where the order was in the register. */
export interface PutThere {
    order: string | null;
    at: string | null;
    clock: bigint;
    /** What was there before: an order, or digits and a number. */
    lost: string;
}

/** A word that would have cost less at another sector. */
export interface Gain {
    address: string;
    label: string | null;
    sector: number;
    best: number;
    saved: number;
}

/** The words of a run whose relocation would save most, by whether they may be moved. */
export interface Optimum {
    orders: number;
    times: number;
    free: Gain[];
    performed: Gain[];
    namedByChanged: Gain[];
    /** What all words save together that may be moved. */
    together: number;
}

/** What a run would have taken with one word at each sector. */
export interface WordOptimum {
    orders: number;
    times: number;
    address: string | null;
    label: string | null;
    own: number;
    best: number;
    saved: number;
    kind: string;
    reason: string | null;
    /** The word times with the word at the sectors 0 to 63. */
    numbers: number[];
}

export interface Word {
    digits: string;
    /** The order that it is, or null where it is none. */
    order: string | null;
    /** Half of its bits, with their sign. */
    number: number;
}

/** What an order did, and how long each of its phases took, in word times. */
export interface Account {
    /** The word times that had passed when it began. */
    clock: bigint;
    /** Where the order stood; null where it stood at no address. */
    at: string | null;
    label: string | null;
    /** The order, or the status where there is none. */
    order: string;
    find: number;
    take: number;
    seek: number;
    act: number;
    /** All its word times. */
    cost: number;
    /** The accumulator before it and after it. */
    before: string;
    after: string;
    /** Whether the order stood in the instruction register. */
    inRegister: boolean;
    /** What put the order there; null where no kept step has changed it. */
    putThere: PutThere | null;
    stored: { address: string; label: string | null; before: Word; after: Word } | null;
    printed: { code: number; sign: string | null } | null;
    /** How many codes of the tape have passed. */
    passed: number;
    /** What else the monitor says of it. */
    notes: string[];
}

export interface Share {
    name: string;
    times: number;
    percent: number;
}

/** Where the word times of a run went. */
export interface Profile {
    orders: number;
    times: number;
    turns: number;
    /** By their names `find`, `take`, `seek` and `act`, and `elsewhere` for what stood at no address. */
    parts: Share[];
    /** The places with most word times, ten at most. */
    places: Share[];
}

/** A turn of the drum, with a sign for each word time. */
export interface DrumRow {
    clock: bigint;
    signs: string;
}

/**
 * A machine with its debugger and assembler, which answers the lines of the monitor: those of scripts and of docs/USING.md. A refusal is
 * thrown, and has changed nothing, but that the orders before a ClockEnd were performed. A line without enough memory throws NoMemory.
 */
export class Laboratory {
    /** Opens one over a module. Throws NoModule and NoMemory. */
    constructor(module: ModuleSource, options?: Options);
    /** Opens one over the module that lies beside this package's files, in node, in a page, and in what a bundler makes of them. */
    static open(options?: Options & { module?: ModuleSource }): Promise<Laboratory>;
    /** That module, compiled once. */
    static module(): Promise<WebAssembly.Module>;
    /**
     * The reply to a line, with a line feed after each of its lines; the empty text where the line has none. Bytes of a reply that are not UTF-8
     * are each the sign U+FFFD. Throws RangeError where the line has a line feed.
     */
    answer(line: string | Uint8Array): string;
    /** The replies to several lines. The first refusal is thrown, and the lines after it are not asked. */
    answers(lines: string): string;
    panel(): Panel;
    /** The digits of words from an address on, 64 at most, by their addresses. */
    words(address: string, count?: number): Map<string, string>;
    /** The same as numbers with their point after a bit: with 30, where nothing is said, all of them are whole. */
    numbers(address: string, count?: number, point?: number): Map<string, number>;
    /** Puts a word at an address: a text of digits or an order, a whole number with its point after a bit, or a fraction. */
    put(address: string, word: string | number, point?: number): void;
    /** Starts the machine at an address, as an operator does. */
    go(address: string): void;
    /** Assembles a source, which `load` then loads. Throws a Refusal whose `faults` say what is wrong. */
    source(text: string): { cells: number; start: string | null };
    /** Keys in the loader, which loads the last source, and gives the number of orders that this took. */
    load(): number;
    /** The addresses of the labels of the last source. */
    labels(): Map<string, string>;
    /** What put a word where it is; null where no kept step has changed it. */
    why(address: string): PutThere | null;
    /** Stops each run before the order at an address; gives the number of the rule. */
    breakAt(address: string): number;
    /** Stops each run after an order that changes the word at an address; gives the number of the rule. */
    watch(address: string): number;
    /** Removes a rule. */
    drop(rule: number): void;
    rules(): Rule[];
    /** What the last run did and what ended it, whichever call it was of. */
    readonly lastRun: Run | null;
    /** Performs at most `limit` orders, until the machine is at rest, a rule stops it, or an order meets a condition such as `0100 = 5` or
     * `printed 20`. */
    run(limit: number, until?: string | null): Run;
    /** Performs one order and gives its account; null where the machine is at rest. */
    step(): Account | null;
    /** Performs orders as `run` does, and tells the account of each. */
    trace(limit: number): Account[];
    /** Performs orders as `run` does, and tells where their word times went. */
    profile(limit: number): Profile;
    /** Performs orders as `run` does, and tells which words would have cost less at other sectors. */
    optimum(limit: number): Optimum;
    /** Performs orders as `run` does, and tells what they would have taken with one word at each sector. */
    optimumOf(limit: number, address: string): WordOptimum;
    /** Performs orders as `run` does, and draws them. */
    drum(limit: number): DrumRow[];
    /** What was printed, as the rows of the typewriter's paper, with a line feed between two of them. */
    paper(): string;
    /** Goes back over `orders` orders, to where the first of them began, and tells the clock there. */
    back(orders: number): bigint;
    /** Goes to the beginning of an order: that of a number, or the first or the last one since the beginning that meets a condition such as
     * `changed 0100` or `printed 20`. Tells its number. The transcript is then the lines that lead there. A `TooFar` or `NoHit` is thrown where
     * there is no such order; then nothing is changed. */
    to(order: number | { first: string } | { last: string }): number;
    /** A laboratory of its own, as this one was when the order of a number began. Orders are counted from 0, and the number of all orders
     * leads to the present. A `TooFar` is thrown where fewer were performed; its `detail` says how many. */
    at(order: number): Laboratory;
    /** What `at` gives for the first order and each `step`-th after it. */
    moments(step?: number): Generator<Laboratory, void>;
    /** The script that leads where the laboratory stands. */
    transcript(): string;
    /** Ends it. The reply is that to a source which was open, otherwise empty. Once closed it does nothing. */
    close(): string;
    /** How its machine stands, in a line; `console.log` writes the same. */
    toString(): string;
}

/** A word in digits as a number with its point after a bit; with 30, where nothing is said, it is whole. */
export function numberOf(digits: string, point?: number): number;

/** A word in digits as a fraction from -1 to below 1. */
export function fractionOf(digits: string): number;

/** Assembles a source: its listing, or its faults. */
export function assemble(source: string, options?: Options & { module?: ModuleSource }): Promise<{ cells: number; start: string | null; text: string; faults: Fault[] }>;

/** Answers a script from a machine in its opening state: its replies, and how many of them begin with a question mark. Throws NoModule and NoMemory. */
export function runScript(module: ModuleSource, script: string | Uint8Array, options?: Options): { text: string; questions: number };
