// The comments of an example, and the example with those of another language in their places. examples/language has a file for each
// language.
import { areInSource, linesIn } from "./lines.mjs";

/** A comment with what comes before it: outside of a source it is a whole line, in one it begins after a blank. */
const [WHOLE, AFTER] = [/^(; *)(.*\S)/, /^((?:|.*?[ \t]); *)(.*\S)/];

/** The lines of a script, each with its comment and what comes before that, or null. */
function partedLines(script) {
    const lines = linesIn(script);
    const inSource = areInSource(lines);
    return lines.map((line, place) => ({ line, comment: (inSource[place] ? AFTER : WHOLE).exec(line) }));
}

/** The comments of a script, one after another. */
export const remarksOf = (script) => partedLines(script).flatMap(({ comment }) => (comment === null ? [] : [comment[2]]));

/** A script with other comments in their places; where one is null its own stays. */
export function withRemarks(script, remarks) {
    const left = [...remarks];
    const lines = partedLines(script).map(({ line, comment }) => (comment === null ? line : `${comment[1]}${left.shift() ?? comment[2]}`));
    return `${lines.join("\n")}\n`;
}

const asScript = (source) => `source\n${source}.\n`;

/** The comments of a source. */
export const remarksOfSource = (source) => remarksOf(asScript(source));

/** A source with the comments of a table in place of its own, where that has them. */
export const sourceIn =
    (source, table) => withRemarks(
        asScript(source), remarksOfSource(source).map((remark) => table.get(remark) ?? null)
    ).slice("source\n".length, -".\n".length);

/**
 * The comments of a language by the English ones, of a file of examples/language: below each English one is the other, set in by four
 * blanks.
 */
export function tableIn(text) {
    const lines = linesIn(text).filter((line) => !/^(#|$)/.test(line));
    return new Map(lines.flatMap((line, place) => (line.startsWith("    ") ? [[lines[place - 1], line.slice(4)]] : [])));
}
