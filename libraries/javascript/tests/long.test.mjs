// A line in portions tells what one line does.
import assert from "node:assert/strict";
import { readFileSync } from "node:fs";
import { test } from "node:test";
import { LongLines } from "../long.mjs";
import { Session, compiled } from "../session.mjs";
import { TextSession } from "../text_session.mjs";

const module = compiled(readFileSync(new URL("../lgp_c_region.wasm", import.meta.url)));
const PROGRAM = ["source", "first b value", " s value", " h value", " p =a", " z", " u first", "value int 5 30", " end first", ".", "load"];

/** A session that has loaded a program that prints. */
function opened(...lines) {
    const session = new TextSession(new Session(module, 2 ** 22));
    for (const line of [...PROGRAM, ...lines]) session.answer(line);
    return session;
}

/** What is written for a long line, and the session after it. */
async function inPortions(call, ...lines) {
    const session = opened(...lines);
    let written = "";
    const long = new LongLines({
        type: async (line) => session.answer(line), isInterrupted: () => false, write: (text) => (written += text),
    });
    const last = await call(long);
    return { text: written + last, state: session.answer("json state-data") };
}

/** What one line tells, and the session after it. */
function atOnce(line, ...lines) {
    const session = opened(...lines);
    return { text: session.answer(line), state: session.answer("json state-data") };
}

const HAND = (line) => ["press manual", line, "press normal", "press start"];
const LOOP = HAND("put 0004 u first");

test("a trace and a drawing of the drum, of several portions and of less than one", async () => {
    for (const command of ["trace", "drum"]) {
        for (const limit of [1, 999, 1000, 1001, 3333]) {
            for (const lines of [[], LOOP, [...LOOP, "watch first"], [...LOOP, "break 0003"]]) {
                assert.deepEqual(
                    await inPortions((long) => long.tell(command, limit), ...lines),
                    atOnce(`${command} ${limit}`, ...lines),
                    `${command} ${limit} ${lines}`
                );
            }
        }
    }
});

test("the loop of these tests does not end by itself", () => {
    assert.match(atOnce("drum 3333", ...LOOP).text, /\nran 3333 limit\n/);
});

test("a run that waits for a condition to be met a number of times", async () => {
    for (const limit of [0, 7, 11, 100_001, 400_000]) {
        for (const until of ["3 times first", "1 times first", "0 times first", "2 times 0005", "30001 times changed value", "50000 times value = 5"]) {
            for (const lines of [[], LOOP, [...LOOP, "break 0003"]]) {
                assert.deepEqual(
                    await inPortions((long) => long.run("run", limit, ` until ${until}`), ...lines),
                    atOnce(`run ${limit} until ${until}`, ...lines),
                    `run ${limit} until ${until} ${lines}`
                );
            }
        }
    }
});

test("runs, and runs that are started again", async () => {
    for (const limit of [1, 4, 1000, 1001, 2500]) {
        for (const lines of [[], LOOP, HAND("put 0005 z"), ["break 0003"], HAND("put 0005 u 0007")]) {
            const [found, wanted] = [await inPortions((long) => long.operate(limit), ...lines), atOnce(`operate ${limit}`, ...lines)];
            assert.deepEqual(
                [found.text, JSON.parse(found.state).clock], [wanted.text, JSON.parse(wanted.state).clock], `operate ${limit} ${lines}`
            );
        }
    }
    for (const more of ["", " until 0003", " until value < 0", " until printed 9", " until 0006 = 100000"]) {
        for (const lines of [LOOP, [...LOOP, "break 0003"]]) {
            const [found, wanted] = [
                await inPortions((long) => long.run("run", 345_678, more), ...lines), atOnce(`run 345678${more}`, ...lines),
            ];
            assert.deepEqual([found.text, JSON.parse(found.state).clock], [wanted.text, JSON.parse(wanted.state).clock], more);
        }
    }
    for (const command of ["run", "orders"]) {
        const [found, wanted] = [await inPortions((long) => long.run(command, 345_678), ...LOOP), atOnce(`${command} 345678`, ...LOOP)];
        assert.deepEqual([found.text, JSON.parse(found.state).clock], [wanted.text, JSON.parse(wanted.state).clock], command);
    }
});
