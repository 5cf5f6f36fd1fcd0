// @ts-check
// The words of a source as semantic tokens: five numbers each, its line and column since the token before, its length, its type and its
// modifiers.

const TYPES = ["function", "keyword", "variable", "number", "comment"];
const [LABEL, OPERATION, NAME, OTHER, COMMENT] = TYPES.keys();
const DECLARED = 1;

export const LEGEND = { tokenTypes: TYPES, tokenModifiers: ["declaration"] };

/** The words of a line with their types, from left to right. An operand is a name where a line declares it, or would have to. */
export function wordsIn({ label, operation, operands, comment, declared, fault }) {
    const isNamed = declared !== null || fault?.kind === "UnknownName";
    return [
        ...(label === null ? [] : [{ span: label, type: LABEL, modifiers: DECLARED }]),
        ...(operation === null ? [] : [{ span: operation, type: OPERATION, modifiers: 0 }]),
        ...operands.map((span, at) => ({ span, type: at === 0 && isNamed ? NAME : OTHER, modifiers: 0 })),
        ...(comment === null ? [] : [{ span: comment, type: COMMENT, modifiers: 0 }]),
    ];
}

export function tokensOf(document, source) {
    const data = [];
    let last = { line: 0, character: 0 };
    for (const line of source.lines) {
        for (const { span, type, modifiers } of wordsIn(line)) {
            const { start, end } = document.rangeOf(line.line, span);
            const length = document.textOf(line.line, span).length;
            if (start.line !== end.line || length === 0) continue;
            data.push(
                start.line - last.line, start.line === last.line ? start.character - last.character : start.character, length, type,
                modifiers
            );
            last = start;
        }
    }
    return data;
}
