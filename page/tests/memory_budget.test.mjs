// The bounds of what a session may take, with the module where it is there.
import assert from "node:assert/strict";
import { existsSync, readFileSync } from "node:fs";
import { dirname, join } from "node:path";
import { test } from "node:test";
import { fileURLToPath } from "node:url";
import { LIMITS } from "../memory_budget.mjs";
import { Session, compiled } from "../../libraries/javascript/session.mjs";
import { counted } from "../words.mjs";

const path = join(dirname(fileURLToPath(import.meta.url)), "../../libraries/javascript/lgp_c_region.wasm");
const skip = !existsSync(path);

test("docs/PAGE.md names the bounds", () => {
    const page = readFileSync(join(dirname(path), "../../docs/PAGE.md"), "utf8");
    const { lines, codes, last, asksAfter, told } = LIMITS;
    const bounds = [
        `${counted(lines, "en")} bytes of lines`,
        `${counted(codes - last, "en")} printed codes`,
        `at most ${counted(codes, "en")}`,
        `after ${counted(asksAfter, "en")} codes`,
        `at most ${counted(told, "en")}`,
    ];
    assert.deepEqual(bounds.filter((bound) => !page.includes(bound)), []);
});

/** Fills a session up to the bounds of lines and codes, with the questions of a long session. */
function filled(session) {
    let sent = 0;
    const ask = (line) => {
        sent += line.length + 1;
        return session.answer(line);
    };
    for (const line of ["put 0000 p =h", "put 0001 u 0000", "press start"]) ask(line);
    for (let codes = 0; codes < LIMITS.codes; codes += 25_000) {
        ask("run 50000");
        ask("printed");
    }
    while (sent < LIMITS.lines) for (const line of ["panel", "words 0000 16", "show 0000 16"]) ask(line);
}

test("within the bounds there is room for a last portion, the longest source, told runs and what is saved", { skip }, () => {
    const session = new Session(compiled(readFileSync(path)));
    filled(session);
    const source = Array(LIMITS.source / 20).fill(" b 0050 ; 012345678");
    for (const line of ["source", ...source, ".", `trace ${LIMITS.told}`, `drum ${LIMITS.told}`, "run 200000"]) session.answer(line);
    assert.ok(session.answer("transcript").length > LIMITS.lines + LIMITS.source);
    for (const question of ["printed", "paper"]) assert.ok(session.answer(question).length > LIMITS.codes + 100_000, question);
});
