// The source language as the page has it: how a line is divided for the eye, what completes a word, and what a laboratory says of a source.
// Whether a source is right, and what its words
// are, the laboratory says; nothing of that is worked out here.
import { linesIn } from "./lines.mjs";
import { LETTERS } from "./machine.mjs";
import * as replies from "../libraries/javascript/replies.mjs";
import { Source, typedSource } from "../libraries/javascript/source.mjs";

// the words below are written by editors/grammars.mjs
/** The operations that are no letter of an order; and those of whose operands none is a name. */
export const OTHERS = ["-t", "word", "frac", "int", "org", "end"];
const WITHOUT_NAMES = new Set(["word", "frac", "int", "org"]);
// the words above are written by editors/grammars.mjs

const BLANK = /[ \t]/;
const KINDS = ["label", "operation", "operand"];

/**
 * The tokens of a line, each with its kind, its columns and its text: a label begins in the first column, the first word after blanks is
 * the operation, and the others are operands.
 */
export function tokensOf(line) {
    const tokens = [];
    let kind = line === "" || BLANK.test(line[0]) ? 1 : 0;
    for (const { 0: text, index: from } of line.matchAll(/[^ \t]+/g)) {
        if (text.startsWith(";")) return [...tokens, { kind: "comment", from, to: line.length, text: line.slice(from) }];
        tokens.push({ kind: KINDS[kind], from, to: from + text.length, text });
        kind = Math.min(kind + 1, 2);
    }
    return tokens;
}

/** The column of a line's operation, or of the blanks with which it begins; a further line may begin there. */
export function columnOf(line) {
    const operation = tokensOf(line).find(({ kind }) => kind === "operation");
    return operation?.from ?? /^[ \t]*/.exec(line)[0].length;
}

/** The labels of a source, each with its line and the rest of that, which tells what it is. */
export function labelsIn(lines) {
    const labels = [];
    for (const [place, line] of lines.entries()) {
        if (line === "" || ";\t ".includes(line[0])) continue;
        const [name] = /^[^ \t]+/.exec(line);
        labels.push({ name, line: place + 1, rest: line.slice(name.length).trim() });
    }
    return labels;
}

/** The names that operands of other lines than the one in work name, and that no line has as its label: they are still to come. */
export function namedIn(lines, but) {
    const there = new Set(labelsIn(lines).map(({ name }) => name));
    const named = lines.flatMap((line, place) => {
        const [operation, operand] = tokensOf(line).filter(({ kind }) => kind !== "label");
        const isNaming = place !== but && operand?.kind === "operand" && !WITHOUT_NAMES.has(operation.text);
        return isNaming ? [/^[a-z][a-z0-9]{0,7}/.exec(operand.text)?.[0] ?? ""] : [];
    });
    return [...new Set(named)].filter((name) => name !== "" && !there.has(name)).map((name) => ({ name, line: null, rest: "" }));
}

/**
 * What is written before a column: the kind of word that is asked for, where that begins, and its text so far; null where no word can be
 * completed.
 */
export function askedAt(line, column) {
    const before = tokensOf(line.slice(0, column));
    const last = before.at(-1);
    if (last?.kind === "comment" || last?.kind === "label" && last.to === column || line === "" || column === 0) return null;
    const isWithin = last?.to === column;
    const { kind, from, text } = isWithin
        ? last
        : { kind: before.some((it) => it.kind === "operation") ? "operand" : "operation", from: column, text: "" };
    if (kind === "operand" && (WITHOUT_NAMES.has(before.find((it) => it.kind === "operation")?.text) || text.startsWith("="))) return null;
    return { kind, from, text };
}

/** The operations that begin with these signs, and what each means. */
export function operationsWith(text, { orders, otherOperations }) {
    const all = [...Object.entries(orders), ...OTHERS.map((name) => [name, otherOperations[name]])];
    return all.filter(([name]) => name.startsWith(text))
        .sort(([one], [other]) => one.length - other.length || (one < other ? -1 : 1))
        .map(([name, meaning]) => ({ name, meaning }));
}

/** How many signs are to be changed, put in, left out, or changed with their neighbour, so that one name becomes the other. */
function distance(one, other) {
    const rows = [Array.from({ length: other.length + 1 }, (unused, place) => place)];
    for (let at = 0; at < one.length; at += 1) {
        const row = [at + 1];
        for (let place = 0; place < other.length; place += 1) {
            const isSwapped = at > 0 && place > 0 && one[at] === other[place - 1] && one[at - 1] === other[place];
            row.push(
                Math.min(
                    row[place] + 1,
                    rows[at][place + 1] + 1,
                    rows[at][place] + (one[at] === other[place] ? 0 : 1),
                    isSwapped ? rows[at - 1][place - 1] + 1 : Infinity
                )
            );
        }
        rows.push(row);
    }
    return rows.at(-1).at(-1);
}

/** The name that is most like another one, or null where none is like it. Names of another length are not: there may be very many. */
export function likest(name, names) {
    const most = Math.max(1, name.length / 3);
    const [best] = names.filter((it) => Math.abs(it.length - name.length) <= most)
        .map((it) => [distance(name, it), it])
        .sort(([one], [other]) => one - other);
    return best === undefined || best[0] > most ? null : best[1];
}

/** How many faults are shown; the others are counted. */
const TOLD = 50;

/**
 * What a laboratory says of a source: a refusal; its first faults, and how many there are; or how many words it has and where it starts;
 * and of each line its word.
 */
export class Checked {
    #source;

    /** Of the reply to a source, and of that to `source-data`. */
    constructor(reply, data) {
        const refusal = replies.isRefusal(reply) ? replies.refusalOf(reply) : null;
        this.refusal = refusal?.kind === "Faults" ? null : refusal;
        this.#source = new Source(this.refusal === null ? data : "");
        this.count = this.#source.faultCount;
        this.faults = this.#source.faulty(TOLD).map(({ line, fault: { kind, at } }) => (
            { line, kind, from: at?.[0] ?? 0, to: at?.[1] ?? 0 }
        ));
        const { cells, start } = refusal === null ? replies.sourceOf(reply) : { cells: 0, start: null };
        Object.assign(this, { cells, start });
    }

    /** Whether the source can be loaded. */
    get isRight() {
        return this.refusal === null && this.count === 0;
    }

    /** The place of a line's word or label, or null. */
    placeOf(line) {
        return this.#source.line(line)?.place ?? null;
    }

    /** The place and the digits of a line's word; null where it has none, as one with a label alone or with a fault. */
    wordOf(line) {
        const { place, digits = null } = this.#source.line(line) ?? {};
        return digits === null ? null : { place, digits };
    }

    /** The line whose word is at a place, or null. */
    lineAt(place) {
        return this.#source.lineAt(place)?.line ?? null;
    }
}

/**
 * What would be right in a line with a fault: what its kind asks for, or what the line says that was meant. A comment may lack its blank,
 * and a label may be set in.
 */
function rightOf(kind, line, { rightFor, rightOperand }) {
    const [operation, ...operands] = tokensOf(line)
        .filter((token) => ["operation", "operand"].includes(token.kind))
        .map(({ text }) => text);
    if (["Extra", "BadOperand", "UnknownName"].includes(kind) && operands.some((text) => text.includes(";"))) return rightFor.Comment;
    if (kind === "UnknownOrder" && isLabelSetIn(line)) return rightFor.Label;
    return ["MissingOperand", "BadOperand"].includes(kind) ? rightOperand[operation] ?? rightOperand.order : rightFor[kind];
}

/** Whether an operation is an order's. */
export const isOrder = (operation) => operation === "-t" || (operation?.length === 1 && LETTERS.includes(operation));

const isOperation = (text) => isOrder(text) || OTHERS.includes(text);

/** Whether a word can be a label and no operation. */
export const isLabelOnly = (word) => /^[a-z][a-z0-9]{0,7}$/.test(word) && !isOperation(word);

/** Whether a line begins with blanks and then with a label, which an operation follows. */
export function isLabelSetIn(line) {
    const [first, second] = tokensOf(line);
    return first?.kind === "operation" && isLabelOnly(first.text) && second !== undefined && isOperation(second.text);
}

/**
 * Whether a fault is told already. Nobody is blamed for the line in work; and as long as there is no end line, what is named may still
 * come, and so may the end, until somebody wants to run it.
 */
export function isTold({ line, kind }, { inWork, hasEnd, isAsked }) {
    if (isAsked) return true;
    return line !== inWork && (hasEnd || !["UnknownName", "NoEnd"].includes(kind));
}

/** Whether a text has an end line. */
export const hasEndLine = (lines) => lines.some((line) => tokensOf(line).some(({ kind, text }) => kind === "operation" && text === "end"));

/**
 * What is marked of a fault, and in a language what is wrong, the name that is perhaps meant, and all with what would be right: of a line,
 * and the labels of its source.
 */
export function sentenceOf({ kind, from, to }, line, labels, { table, text }) {
    const word = line.slice(from, to);
    const name = kind === "UnknownName" ? likest(/^[a-z0-9]*/.exec(word)[0], labels) : null;
    const right = rightOf(kind, line, table);
    const wrong = table.faultKinds[kind] ?? kind;
    const short = name === null ? wrong : `${wrong}; ${text("perhapsName", { name })}`;
    return { word, short, sentence: name !== null || right === undefined ? short : `${wrong}; ${right}` };
}

/** How many signs a laboratory is sent before another one takes its place. */
const MOST_SENT = 500_000;

/**
 * Asks a laboratory of its own what it says of sources. It is opened when it is first asked, and the visitor's machine knows nothing of it.
 */
export class Checker {
    #openLink;
    #link = null;
    #sent = 0;
    #tail = Promise.resolve();

    constructor(openLink) {
        this.#openLink = openLink;
    }

    /** What it says of a source; null where it could not be asked. */
    ask(source) {
        this.#tail = this.#tail.then(() => this.#asked(source)).catch(() => this.#giveUp());
        return this.#tail;
    }

    async #asked(source) {
        if (this.#link === null) {
            this.#link = this.#openLink();
            await this.#link.opened;
        }
        if (this.#sent > MOST_SENT) {
            await this.#link.anew();
            this.#sent = 0;
        }
        this.#sent += source.length;
        const reply = await this.#link.askAll(typedSource(linesIn(source)));
        return new Checked(reply, await this.#link.ask("json source-data"));
    }

    #giveUp() {
        this.#link?.end();
        [this.#link, this.#sent] = [null, 0];
        return null;
    }
}
