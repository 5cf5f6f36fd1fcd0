// @ts-check
// The breakpoints that a client wants, so that they are set again where the program is restarted: each at a line, a label, an address or a
// word.
import { Refused } from "./machine.mjs";
import { addressAt } from "./memory.mjs";

export class Breakpoints {
    #wanted = new Map();
    #nextId = 1;

    /**
     * Keeps the breakpoints that are wanted of a kind, each with a number that it has for good. `placed` says where one is in a session.
     */
    want(group, breakpoints, placed) {
        const numbered = breakpoints.map((breakpoint) => ({ ...breakpoint, id: this.#nextId++ }));
        this.#wanted.set(group, (session) => numbered.map((breakpoint) => ({ ...breakpoint, ...placed(session, breakpoint) })));
    }

    get groups() {
        return [...this.#wanted.keys()];
    }

    /** Sets a group in a session: its machine, its program and its rules. */
    set(group, session) {
        const wanted = this.#wanted.get(group)(session);
        if (session.launch.noDebug === true) return wanted.map(({ id }) => ({ id, verified: false, message: "this run has no debugger" }));
        return session.rules.set(group, wanted).map((point) => point.told(
            point.line === undefined ? {} : { line: session.lineOut(point.line) }
        ));
    }
}

/** The point that a line of a file asks for: it is at the next line that makes a word. */
export function ofLine({ program, lineIn }, identity, { line }) {
    if (identity === null) return { message: "lines of the drum take no breakpoint: set one at an address" };
    if (identity !== program.identity) return { message: `the program is ${program.path}` };
    const placed = program.placedFrom(lineIn(line));
    return placed === null ? { message: "no line from here on makes a word" } : { line: placed.line, address: placed.place };
}

function addressed({ machine }, name) {
    try {
        return { address: machine.word(name.trim()).get("address") };
    } catch (refusal) {
        if (!(refusal instanceof Refused)) throw refusal;
        return { message: refusal.message };
    }
}

export const ofLabel = (session, { name }) => addressed(session, name);
export const ofAddress = (session, { instructionReference, offset }) => addressed(session, addressAt(instructionReference, offset));
export const ofWord = (session, { dataId }) => ({ kind: "watch", ...addressed(session, dataId) });
