// What replies for programs cost. By the module in node: `json source-data` of a source of 4,000 lines, `look`, and an order with its
// account.
// By the proved monitor, where ./prove lgp30m has made it and valgrind is installed: the instructions of `trace-data 1`, as lines and as
// JSON, of
// `run 1` and of two comments, after 5,000 orders, so that 4,096 steps are kept: 2,000 lines less 1,000.
//
//     node tools/bench/replies.mjs
//
// Times are the best of some runs, and other work on the machine makes them longer. No part of the check.
import { spawnSync } from "node:child_process";
import { existsSync, readFileSync } from "node:fs";
import { dirname, join } from "node:path";
import { fileURLToPath } from "node:url";
import { Session, compiled } from "../../libraries/javascript/session.mjs";

const top = join(dirname(fileURLToPath(import.meta.url)), "../..");
const program = join(top, "crates/lgp30m/out/lgp30m");
const module = compiled(readFileSync(join(top, "libraries/javascript/lgp_c_region.wasm")));
const TURNS = 9;
const LINES = 4000;

/** The loop of four orders that counts up, of loops.sh, and its start. */
const [, words] = /small='([^']*)'/.exec(readFileSync(join(top, "tools/bench/loops.sh"), "utf8"));
const loop = [...words.split("\n").map((word) => `put ${word}`), "press start"];

/** The shortest of some turns, in milliseconds. */
function best(turns, action) {
    return Math.min(...Array.from({ length: turns }, () => {
        const began = performance.now();
        action();
        return performance.now() - began;
    }));
}

function session(lines) {
    const it = new Session(module);
    for (const line of lines) it.answer(line);
    return it;
}

/** A source of 4,000 lines, each with a label and an operand that is one. */
const source = [
    "source",
    ...Array.from({ length: LINES - 2 }, (unused, line) => `l${line} b l${(line * 7) % (LINES - 2)} ; a word of line ${line}`),
    " end l0",
    ".",
];

function sourceData() {
    const it = session(source);
    return best(TURNS, () => it.answer("json source-data"));
}

/** Answers a line after each order of the loop. */
function afterEach(line) {
    const it = session([...loop, "run 5000"]);
    return Math.min(...Array.from({ length: 200 }, () => {
        it.answer("run 1");
        return best(1, () => it.answer(line));
    }));
}

/** The instructions of the monitor for the loop, 5,000 orders, and a line so many times. */
function instructions(line, times) {
    const input = [...loop, "run 5000", ...Array.from({ length: times }, () => line), ""].join("\n");
    const { stderr } = spawnSync(
        "valgrind", ["--tool=callgrind", "--callgrind-out-file=/dev/null", program], { input, encoding: "utf8", maxBuffer: 1 << 28 }
    );
    return Number(/Collected : *([0-9]+)/.exec(stderr)?.[1]);
}

console.log(`source-data of ${LINES} lines: ${sourceData().toFixed(1)} ms by the module`);
console.log(`a look at 64 words: ${afterEach("json look 0000 64 0").toFixed(2)} ms by the module`);
console.log(`an order with its account: ${afterEach("json trace-data 1").toFixed(2)} ms by the module`);
if (!existsSync(program)) console.log("trace-data: ./prove lgp30m makes the program whose instructions are counted");
else for (const line of ["trace-data 1", "json trace-data 1", "run 1", ";", "; of twenty-one bytes"]) {
    console.log(
        `${line}: ${Math.round(
            (instructions(line, 2000) - instructions(line, 1000)) / 1000
        ).toLocaleString("en")} instructions by the monitor`
    );
}
