// What hands know from debuggers and shells: short names of commands, and operands that need not be typed. Each stands for a line of the
// monitor.
import { wordsOf } from "./lines.mjs";

export const SHORT = new Map([["s", "step"], ["c", "run"], ["b", "back"], ["?", "help"], ["exit", "quit"]]);
/** The number of a command that is typed without one: `run` goes on until the machine rests, or a rule stops it. */
const NUMBERS = new Map([
    ["run", "9999999999"], ["back", "1"], ["step", "1"], ["trace", "10"], ["profile", "10000"], ["optimum", "10000"], ["drum", "10"],
]);
/** Commands that show words: the counter's where no address is typed, and eight where no number is. */
const RANGES = ["words", "show", "numbers"];
const COUNTER = "*";
const COUNT = "8";

/** The line that a typed line stands for. */
export function meantBy(line) {
    const [typed, ...operands] = wordsOf(line);
    const name = SHORT.get(typed) ?? typed;
    if (RANGES.includes(name) && operands.length < 2) return `${name} ${operands[0] ?? COUNTER} ${COUNT}`;
    const number = operands.length === 0 ? NUMBERS.get(name) : undefined;
    if (name === "until" && operands.length > 0) return `run ${NUMBERS.get("run")} until ${operands.join(" ")}`;
    if (name === "step") return `trace ${number ?? operands.join(" ")}`;
    if (name === typed && number === undefined) return line;
    return [name, ...operands, ...(number === undefined ? [] : [number])].join(" ");
}
