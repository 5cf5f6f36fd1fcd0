// @ts-check
// A program as it is brought into the machine: assembled, loaded or put, with its tape and its switches.
import { linesIn, textFrom } from "../../libraries/javascript/lines.mjs";
import { SWITCHES, isRefusal, linesOf, sourceOf } from "../../libraries/javascript/replies.mjs";
import { Source, typedSource } from "../../libraries/javascript/source.mjs";
import { Refused } from "./machine.mjs";

/** The bytes of a file. */
async function bytesOf(readFile, path) {
    try {
        return await readFile(path);
    } catch (failure) {
        throw new Refused(`${path}: ${failure.message}`);
    }
}

export class Program {
    /** The path of the source, the same as the system means it, its lines, and what the monitor says of them. */
    path;
    identity;
    source;
    #lines;

    /**
     * Brings what a launch names into a machine in its opening state. Files are found beside the source, and those of a system by
     * `identityOf`, whatever their path.
     * @param {any} machine
     * @param {import("../types/debug.js").Launch} launch
     * @param {import("../types/debug.js").Options} options
     */
    static async broughtInto(machine, launch, { readFile, resolve = (path, beside) => path, identityOf = (path) => path }) {
        const { program: named, how = "load", tape: tapeNamed, switches = {} } = launch;
        const program = new Program();
        program.path = await resolve(named);
        const bytes = await bytesOf(readFile, program.path);
        program.identity = await identityOf(program.path);
        const tape = tapeNamed === undefined ? null : await resolve(tapeNamed, program.path);
        const passing = tape === null ? null : await bytesOf(readFile, tape);
        const start = program.#assemble(machine, textFrom(bytes));
        if (how === "load") machine.does("load");
        else program.#put(machine, start);
        if (passing !== null) machine.atRest(() => machine.mount(tape, passing));
        for (const [name, position] of Object.entries(switches)) machine.does(`press ${name} ${position}`);
        return program;
    }

    #assemble(machine, text) {
        this.#lines = linesIn(text);
        const reply = machine.assemble(typedSource(this.#lines));
        if (isRefusal(reply)) throw new Refused(`${this.path}: ${linesOf(reply).slice(0, 4).join("\n")}`);
        this.source = new Source(machine.source());
        return sourceOf(reply).start;
    }

    /** Puts each word on the drum by hand, and starts the machine where the program begins. */
    #put(machine, start) {
        for (const { place, digits } of this.source.words) machine.does(`put ${place} ${digits}`);
        if (start !== null) machine.goTo(start);
    }

    /** The line of the word at an address, or null. */
    lineAt(address) {
        return this.source.lineAt(address)?.line ?? null;
    }

    /** The operation and the operands by which the source declares the word at an address, or null. */
    declared(address) {
        const line = this.source.lineAt(address);
        if (line === undefined || line.operation === null) return null;
        const textOf = ([from, to]) => this.#lines[line.line - 1].slice(from, to);
        return { operation: textOf(line.operation), operands: line.operands.map(textOf) };
    }

    /** The first line from a line on that makes a word, or null. */
    placedFrom(line) {
        return this.source.words.find((word) => word.line >= line) ?? null;
    }
}

/** The switches that a launch may set. */
export const isOfSwitches = (switches) => typeof switches === "object" && switches !== null && Object.entries(switches).every(
    ([name, position]) => SWITCHES.includes(name) && ["up", "down"].includes(position)
);
