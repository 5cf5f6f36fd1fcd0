// @ts-check
// The words of a source where an editor asks about them: which one is at a position, and where its label is.

const isIn = (span, byte) => span !== null && span[0] <= byte && byte <= span[1];

/** What is at a byte of a line: the kind of word, and its part of the line; null between words. */
export function wordAt(line, byte) {
    if (line === undefined) return null;
    const operand = line.operands.find((span) => isIn(span, byte));
    if (operand !== undefined) return { kind: "operand", span: operand };
    for (const kind of ["operation", "label"]) if (isIn(line[kind], byte)) return { kind, span: line[kind] };
    return isIn(line.comment, byte) ? { kind: "comment", span: line.comment } : null;
}

/**
 * What may be written at a byte: an operation or an operand, and the part of the line that it takes the place of; null where that is a
 * label or a comment.
 */
export function askedAt(line, byte) {
    const at = wordAt(line, byte);
    if (at !== null) return at.kind === "operation" || at.kind === "operand" ? at : null;
    if (byte === 0) return null;
    const isBefore = line === undefined || line.operation === null || byte < line.operation[0];
    return { kind: isBefore ? "operation" : "operand", span: [byte, byte] };
}

/** The label at a byte, as the line that declares it, or null. */
export function declaredAt(line, byte) {
    const at = wordAt(line, byte);
    if (at?.kind === "label") return line.line;
    return at?.kind === "operand" && at.span === line.operands[0] ? line.declared : null;
}

/** The name of a label by the line that declares it. */
export const nameIn = (document, source, number) => document.textOf(number, source.line(number).label);

/** Where a label is named: its lines, and the part of each. The first one declares it, if that is wanted. */
export function usesOf(source, number, isDeclared) {
    const [, to] = source.line(number).label;
    const uses = source.lines.filter(({ declared }) => declared === number).map(
        ({ line, operands: [[from]] }) => ({ line, span: [from, from + to] })
    );
    return isDeclared ? [{ line: number, span: source.line(number).label }, ...uses] : uses;
}

/**
 * Whether two readings of a source have the same words and the same faults. One that is marked nowhere is that of the line after the last
 * one, whichever that is.
 */
export function areAlike(one, other, isMarked) {
    const lineOf = ({ line, fault }) => (fault === null || isMarked(fault.kind) ? line : "");
    const told = (source) => source.lines.filter(({ digits, fault }) => digits !== null || fault !== null).map((line) => [
        lineOf(line), line.place, line.digits, line.fault?.kind,
    ].join(" ")).join("\n");
    return told(one) === told(other);
}

/** The operation of a line, or null. */
export const nameOfOperation = (document, line) => (
    line === undefined || line.operation === null ? null : document.textOf(line.line, line.operation)
);
