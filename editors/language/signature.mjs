// @ts-check
// What an operation takes, shown while its operands are written: the table's example, with the operand that is written marked in it.
import { nameOfOperation } from "./words.mjs";

/** The parts of an example after its operation, each where it begins and ends. */
const partsOf = (example) => Array.from(example.matchAll(/\S+/g), ({ 0: word, index }) => [index, index + word.length]).slice(1);

/** The signature at a byte of a line, or null where no operand is written. */
export function signatureOf(laboratory, document, line, byte) {
    const record = laboratory.operations.get(nameOfOperation(document, line) ?? "");
    if (record === undefined || byte <= line.operation[1] || (line.comment !== null && byte >= line.comment[0])) return null;
    const parts = partsOf(record.get("example"));
    const written = document.textOf(line.line, [line.operation[1], byte]).trimStart();
    const at = written.split(/[ \t]+/).length - 1;
    const signature = {
        label: `${record.get("example")}  takes ${record.get("operands")}`, documentation: record.get("does"),
        parameters: parts.map((part) => ({ label: part })),
    };
    return { signatures: [signature], activeSignature: 0, activeParameter: at };
}
