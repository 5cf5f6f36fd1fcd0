// @ts-check
// A source in columns: label, operation, operands and comment, as this project writes them. Only blanks are changed, and no word and no
// fault.

const [OPERATION, COMMENT] = [8, 24];

/** A text with blanks after it up to a column, one at least. */
const upTo = (text, column) => `${text} `.padEnd(column);

/**
 * A line in columns. A line with a comment alone stays as it is, and all that is after an operation is kept, also where it is more than the
 * operation takes.
 */
function laidOut(document, { line, label, operation, comment }) {
    const text = (span) => document.textOf(line, span);
    if (label === null && operation === null) return comment === null ? "" : document.line(line);
    let laid = label === null ? "" : text(label);
    if (operation !== null) laid = (
        laid === "" ? " ".repeat(OPERATION) : upTo(laid, OPERATION)
    ) + text([operation[0], comment?.[0] ?? Infinity]).trim().split(/[ \t]+/).join(" ");
    return comment === null ? laid : upTo(laid, COMMENT) + text(comment);
}

/** The edits that put the lines of a source into columns, from a line to a line. A line of which the monitor has read nothing stays. */
export function layoutOf(document, source, from, to) {
    return source.lines.filter(({ line }) => line >= from && line <= to).flatMap((line) => {
        const before = document.line(line.line);
        const isRead = line.label !== null || line.operation !== null || line.comment !== null || before.trim() === "";
        const newText = isRead && line.fault?.kind !== "BadByte" ? laidOut(document, line) : before;
        return newText === before ? [] : [{ range: document.lineRange(line.line), newText }];
    });
}
