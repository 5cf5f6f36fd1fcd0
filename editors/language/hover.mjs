// @ts-check
// What is shown of the word under the pointer: what its order does, its word and place, and what it waits there.
import { nameIn, wordAt } from "./words.mjs";

const PHASES = ["find", "take", "seek", "act"];

/** What an operation is. */
function operationText(laboratory, name) {
    const record = laboratory.operations.get(name);
    return record === undefined
        ? []
        : [`**${name}** ${record.get("operands")}`, `${record.get("does")}, as in \`${record.get("example")}\``];
}

/** What finding an order takes after the one before it in the source, if that leads there. */
function foundAfter(laboratory, source, { line, place }) {
    const before = source.words.findLast((it) => it.line < line);
    const cost = before === undefined ? null : laboratory.wordAt(before).cost;
    return cost !== null && cost.get("next") === place && cost.has("next-find")
        ? { times: cost.get("next-find"), from: before.place }
        : null;
}

/** What an order waits, in word times. How long it is looked for depends on where the machine comes from. */
function waitText(laboratory, source, line, cost) {
    if (cost === null) return [];
    const found = foundAfter(laboratory, source, line);
    const known = PHASES.slice(1).map((phase) => `${phase} ${cost.get(phase)}`);
    const first = found === null ? "find (by the order before)" : `find ${found.times} (after ${found.from})`;
    const next = cost.has("next-find") ? `; then ${cost.get("next")}: find ${cost.get("next-find")}` : "";
    return [`Word times: ${[first, ...known].join(", ")}${next}`];
}

/** Whether a line declares its word as the order that it is, and not as a number. */
const isOrder = (
    document, { line, operation }, word
) => operation !== null && word.get("order")?.split(" ")[0] === document.textOf(line, operation);

/** The word of a line at its place. Word times are those of an order that the line declares. */
function wordText(laboratory, document, source, line) {
    if (line.digits === null) return [];
    const { word, cost } = laboratory.wordAt(line);
    const shown = ["address", "digits", "order", "number", "fraction"].flatMap((key) => word.get(key)?.toString().trim() ?? []).join("  ");
    return [`\`${shown}\``, ...(isOrder(document, line, word) ? waitText(laboratory, source, line, cost) : [])];
}

function partsOf(laboratory, document, source, line, { kind, span }) {
    if (kind === "operation") return [
        ...operationText(laboratory, document.textOf(line.line, span)), ...wordText(laboratory, document, source, line)
    ];
    if (kind === "label") return [`**${document.textOf(line.line, span)}**`, ...wordText(laboratory, document, source, line)];
    if (kind !== "operand" || line.declared === null || span !== line.operands[0]) return [];
    const declared = source.line(line.declared);
    return [
        `**${nameIn(document, source, line.declared)}**, line ${line.declared}: \`${document.line(line.declared).trim()}\``,
        ...wordText(laboratory, document, source, declared)
    ];
}

/**
 * The hover at a byte of a line, or null.
 * @returns {import("../types/language.js").Hover | null}
 */
export function hoverOf(laboratory, document, source, line, byte) {
    const at = wordAt(line, byte);
    const parts = at === null ? [] : partsOf(laboratory, document, source, line, at);
    return at === null || parts.length === 0
        ? null
        : { contents: { kind: "markdown", value: parts.join("\n\n") }, range: document.rangeOf(line.line, at.span) };
}
