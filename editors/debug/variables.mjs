// @ts-check
// What a debugger shows of the machine: scopes of variables, each asked of the monitor when it is opened.
import { SWITCHES } from "../../libraries/javascript/replies.mjs";
import { Refused, valueOf } from "./machine.mjs";

/** How many of the last orders are shown. */
const LAST_ORDERS = 12;
const SCOPES = ["Registers", "Switches", "Tape", "Labels", "Kept steps"];
const [REGISTERS, WAY, TAPE, LABELS, STEPS] = SCOPES.map((_, at) => at + 1);
/** What is before the name of a field of the machine's state, so that it is no label. */
const STATE = "@";
/** What the console can set besides switches, and how. */
const SET = {
    counter: (machine, value) => machine.goTo(value),
    accumulator: (machine, value) => machine.setAccumulator(machine.digitsOf(value)),
    register: (machine, value) => machine.setRegister(machine.digitsOf(value)),
    mode: (machine, value) => machine.does(`press ${value}`),
};
/** What is said of a value beside it. */
const BESIDE = ["label", "order", "number"];

/**
 * @param {string} name
 * @param {string} value
 * @param {Partial<import("@vscode/debugprotocol").DebugProtocol.Variable>} more
 * @returns {import("@vscode/debugprotocol").DebugProtocol.Variable}
 */
const leaf = (name, value, more = {}) => ({ name, value, variablesReference: 0, ...more });
const pairsOf = (record) => [...record].map(([name, value]) => leaf(name, String(value)));
/** The field of the state that an expression names, or null. */
const fieldIn = (expression) => (expression.startsWith(STATE) ? expression.slice(STATE.length) : null);

export class Variables {
    #machine;
    /** What can be opened besides the scopes, by its number less that of the scopes. */
    /** @type {(() => any[])[]} */
    #opened = [];

    constructor(machine) {
        this.#machine = machine;
    }

    scopes() {
        this.#opened = [];
        return SCOPES.map((name, at) => (
            { name, variablesReference: at + 1, expensive: at + 1 === STEPS, ...(at === 0 ? { presentationHint: "registers" } : {}) }
        ));
    }

    /** The number by which variables can be opened. */
    #reference(variables) {
        this.#opened.push(variables);
        return SCOPES.length + this.#opened.length;
    }

    /**
     * @param {number} reference
     * @returns {import("@vscode/debugprotocol").DebugProtocol.Variable[]}
     */
    variables(reference) {
        switch (reference) {
            case REGISTERS: return this.#registers();
            case WAY: return this.#switches();
            case TAPE: return [...this.#machine.tape()].map(([name, value]) => leaf(name, String(value)));
            case LABELS: return this.#machine.labels().map((label) => this.#labelled(label.get("name"), label.get("place")));
            case STEPS: return this.#steps();
            default: return this.#openedAt(reference);
        }
    }

    #openedAt(reference) {
        const variables = this.#opened[reference - SCOPES.length - 1];
        if (variables === undefined) throw new Refused(`there are no variables ${reference}: the machine has gone on since`);
        return variables();
    }

    #registers() {
        const state = this.#machine.state();
        const isBeside = (key) => BESIDE.some((end) => key.endsWith(`-${end}`));
        const names = [...state.keys()].filter((key) => !isBeside(key) && !SWITCHES.includes(key) && !key.startsWith("live-"));
        return names.map((name) => leaf(name, [state.get(name), ...BESIDE.flatMap((end) => state.get(`${name}-${end}`) ?? [])].join("  "), {
            evaluateName: STATE + name, ...(name === "counter" ? { memoryReference: state.get(name) } : {}),
            ...(name in SET ? {} : { presentationHint: { attributes: ["readOnly"] } }) }));
    }

    #switches() {
        const state = this.#machine.state();
        const live = [...state].filter(
            ([key, value]) => key.startsWith("live-") && value === true
        ).map(([key]) => key.slice("live-".length));
        return [
            ...SWITCHES.map((name) => leaf(name, state.get(name), { evaluateName: STATE + name })),
            leaf("live", live.join(" "), { presentationHint: { attributes: ["readOnly"] } }),
        ];
    }

    #labelled(name, place) {
        try {
            return this.word(name, place === undefined ? this.#machine.word(name) : this.#machine.words(place)[0]);
        } catch (refusal) {
            if (!(refusal instanceof Refused)) throw refusal;
            return leaf(name, refusal.message, { presentationHint: { attributes: ["readOnly"] } });
        }
    }

    /**
     * A word of the drum as a variable; opened it says what put it there.
     * @returns {import("@vscode/debugprotocol").DebugProtocol.Variable}
     */
    word(name, record) {
        const address = record.get("address");
        return {
            name, value: valueOf(record), evaluateName: address, memoryReference: address,
            variablesReference: this.#reference(() => pairsOf(this.#machine.why(address))),
        };
    }

    #steps() {
        const orders = this.#machine.lastOrders(LAST_ORDERS);
        const kept = leaf("kept", String(this.#machine.kept()));
        return [kept, ...orders.reverse().map((account, ago) => ({
            name: `${ago + 1} ago`,
            value: `${account.get("at")}  ${account.get("order") ?? account.get("status")}  ${account.get("after")}`,
            variablesReference: this.#reference(() => pairsOf(account)) }))];
    }

    /** Sets what a scope shows, as far as the console can; the value that it has then. */
    set(reference, name, value) {
        if (reference === LABELS) return this.setWord(name, value);
        if (reference === TAPE && name === "left") this.#machine.atRest(() => this.#machine.does(`mount ${value}`));
        else if ([REGISTERS, WAY].includes(reference)) this.#setState(name, value);
        else throw new Refused(`the console cannot set ${name} here`);
        return this.variables(reference).find((it) => it.name === name)?.value ?? "";
    }

    #setState(name, value) {
        if (SWITCHES.includes(name)) this.#machine.does(`press ${name} ${value}`);
        else if (name in SET) SET[name](this.#machine, value);
        else throw new Refused(`the console sets ${Object.keys(SET).join(", ")} and the switches, not ${name}`);
    }

    /** Puts a word on the drum. */
    setWord(address, value) {
        this.#named(address);
        this.#machine.atRest(() => this.#machine.does(`put ${address} ${value}`));
        return valueOf(this.#machine.word(address));
    }

    /** The fields of the state as expressions name them. */
    fields() {
        return [...this.#machine.state().keys()].map((name) => STATE + name);
    }

    /** The value of a field of the state, as it is shown. */
    #field(name) {
        const state = this.#machine.state();
        if (!state.has(name)) throw new Refused(`the machine's state has no ${name}: it has ${[...state.keys()].join(", ")}`);
        return String(state.get(name));
    }

    /** Sets what an expression names: a word of the drum, or after @ a field of the state. */
    setNamed(expression, value) {
        const field = fieldIn(expression);
        if (field === null) return this.setWord(expression, value);
        this.#setState(field, value);
        return this.#field(field);
    }

    /** What an expression is: a word by its label or address, a field of the state after @, or the reply to a line that only asks. */
    evaluated(expression, takesLines) {
        const field = fieldIn(expression);
        if (field !== null) return leaf(expression, this.#field(field));
        const isQuestion = takesLines && this.#machine.isQuestion(expression);
        try {
            return this.word(expression, this.#named(expression));
        } catch (refusal) {
            if (!(refusal instanceof Refused) || !isQuestion) throw refusal;
            return leaf(expression, this.#machine.asks(expression).trimEnd());
        }
    }

    /**
     * The word that a label or an address names. Where it names neither, but a field of the state, the refusal says how that is written.
     */
    #named(expression) {
        try {
            return this.#machine.word(expression);
        } catch (refusal) {
            if (!(refusal instanceof Refused) || !this.#machine.state().has(expression)) throw refusal;
            throw new Refused(`${refusal.message}; ${STATE}${expression} is the machine's`);
        }
    }

    /**
     * The address of what a variable shows, or of what an expression names where the reference is 0; null where that is no word of the
     * drum.
     */
    addressOf(reference, name) {
        if (![0, LABELS].includes(reference)) return null;
        try {
            return this.#machine.word(name.trim()).get("address");
        } catch (refusal) {
            if (!(refusal instanceof Refused)) throw refusal;
            return null;
        }
    }
}
