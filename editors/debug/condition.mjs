// @ts-check
// The condition of a breakpoint: what is asked at the stop, compared with a value. What a value means the monitor says: it is read as the
// word's own line in
// the source would be read with it, or as `put` takes it.
import { signedOf } from "../../libraries/javascript/replies.mjs";
import { Refused } from "./machine.mjs";

const PARTS = /^\s*(\S.*?)\s*(==|!=|<=|>=|<|>)\s*(.*?)\s*$/;
const HOLDS = {
    "==": (order) => order === 0, "!=": (order) => order !== 0, "<": (order) => order < 0, "<=": (order) => order <= 0,
    ">": (order) => order > 0, ">=": (order) => order >= 0,
};
const ALIKE = ["==", "!="];
const WANTED = "write what is asked, a sign ==, !=, <, <=, > or >=, and a value, as in sum == 5";

const compared = (one, other) => (one < other ? -1 : one > other ? 1 : 0);

/** What a condition asks, and how it compares that with a value. */
export class Condition {
    #asks;
    #holds;

    constructor(asks, holds) {
        this.#asks = asks;
        this.#holds = holds;
    }

    /** Whether it holds now. */
    holds() {
        return this.#holds(this.#asks());
    }

    /**
     * The condition that a text is. Refused where it is none, where the monitor does not know what it names, or where no value can be read.
     */
    static of(text, machine, program) {
        const parts = PARTS.exec(text);
        if (parts === null || parts[3] === "") throw new Refused(`${text} is no condition: ${WANTED}`);
        const [, left, sign, right] = parts;
        const { asks, order } = left.startsWith("@")
            ? ofState(machine, left.slice(1), right)
            : ofWord(machine, program, left, right) ?? ofLine(machine, left, right);
        if (order === null && !ALIKE.includes(sign)) throw new Refused(
            `${text}: ${left} and ${right} can be alike or not, and ${sign} wants two numbers`
        );
        return new Condition(
            asks, order === null ? (value) => (value === right) === (sign === "==") : (value) => HOLDS[sign](order(value))
        );
    }
}

/** A word of the drum, by its label or address; null where it is none and the line asks something else. */
function ofWord(machine, program, name, value) {
    let word;
    try {
        word = machine.word(name);
    } catch (refusal) {
        if (!(refusal instanceof Refused) || !machine.isQuestion(name)) throw refusal;
        return null;
    }
    const address = word.get("address");
    const digits = signedOf(machine.digitsMeant(value, program.declared(address)));
    return { asks: () => signedOf(machine.words(address)[0].get("digits")), order: (now) => compared(now, digits) };
}

/** A field of the machine's state: one that is also told as a number is a word, others are numbers, or texts. */
function ofState(machine, field, value) {
    const state = machine.state();
    if (!state.has(field)) throw new Refused(`the machine's state has no ${field}: it has ${[...state.keys()].join(", ")}`);
    const asks = () => machine.state().get(field);
    if (state.has(`${field}-number`)) {
        const digits = signedOf(machine.digitsMeant(value, null));
        return { asks: () => signedOf(asks()), order: (now) => compared(now, digits) };
    }
    const isNumber = typeof state.get(field) === "number" && Number.isFinite(Number(value));
    if (isNumber) return { asks, order: (now) => compared(Number(now), Number(value)) };
    const address = machine.addressNamed(value);
    return { asks: () => (asks() === address ? value : String(asks())), order: null };
}

/** A line that asks: its reply as a number, where it and the value are numbers, or as a text. */
function ofLine(machine, line, value) {
    const asks = () => machine.asks(line).trim();
    const isNumber = [asks(), value].every((text) => text !== "" && Number.isFinite(Number(text)));
    return { asks, order: isNumber ? (now) => compared(Number(now), Number(value)) : null };
}
