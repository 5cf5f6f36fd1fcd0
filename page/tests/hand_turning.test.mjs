// The drum turned by hand, over the module: the machine follows the hand, order by order, and stands where the drum stands.
import assert from "node:assert/strict";
import { existsSync, readFileSync } from "node:fs";
import { dirname, join } from "node:path";
import { test } from "node:test";
import { fileURLToPath } from "node:url";
import { Controller } from "../controller.mjs";
import { Drive } from "../drive.mjs";
import { HandTurning } from "../hand_turning.mjs";
import { setUpFor } from "../lesson_steps.mjs";
import { ModuleLink } from "../module_link.mjs";
import { Player } from "../player.mjs";

const top = join(dirname(fileURLToPath(import.meta.url)), "../..");
const module = join(top, "libraries/javascript/lgp_c_region.wasm");
const skip = !existsSync(module);
const exampleOf = (name) => readFileSync(join(top, `examples/${name}.txt`), "utf8");

/** A hand at the drum of an example that is set going, with what it could not do. */
async function handAt(name) {
    const laboratory = new Controller(new ModuleLink(module));
    await laboratory.open();
    await setUpFor(laboratory, { opens: name }, exampleOf);
    const player = new Player();
    const turning = new HandTurning(
        laboratory, player, new Drive(laboratory, player, () => laboratory.run(), { now: () => 0, sleep: async () => {} })
    );
    const ends = [];
    turning.addEventListener("end", ({ way }) => ends.push(way));
    return { laboratory, player, turning, ends };
}

/** The clocks at which the orders of an example begin, and the last one at which it ends. */
async function clocksOf(name) {
    const { laboratory } = await handAt(name);
    await laboratory.run();
    const { accounts } = await laboratory.askPlacing([]);
    return [...accounts.map(({ clock }) => Number(clock)), Number(laboratory.panel.clock)];
}

test("wherever a hand turns the drum to, the machine has performed the orders that have begun, and no others", { skip }, async () => {
    const clocks = await clocksOf("self-modifying");
    const { laboratory, player, turning, ends } = await handAt("self-modifying");
    let clock = 0;
    for (let turn = 0; turn < 120; turn += 1) {
        const by = ((turn * 7919) % 255) - (turn < 60 ? 90 : 165);
        const wanted = Math.max(0, Math.min(clocks.at(-1), clock + Math.max(-128, Math.min(128, by))));
        const isEnd = wanted !== clock + Math.max(-128, Math.min(128, by));
        turning.take();
        await turning.turn(by);
        clock = wanted;
        assert.deepEqual(
            [turning.clock, laboratory.history.behind, ends.length > 0],
            [clock, clocks.filter((begins) => begins < clock).length - (clock === clocks.at(-1) ? 0 : 0), isEnd],
            `turn ${turn} by ${by}`
        );
        assert.equal(player.at() === null, clocks.includes(clock), `clock ${clock}`);
        ends.length = 0;
    }
});

test("at the beginning and at rest it goes no further, and the page says why", { skip }, async () => {
    const { laboratory, turning, ends } = await handAt("self-modifying");
    await turning.turn(-5);
    assert.deepEqual([laboratory.notice, ends], [{ kind: "noneBehind" }, [-1]]);
    await laboratory.run();
    await turning.turn(5);
    assert.deepEqual([laboratory.notice, ends, turning.clock], [{ kind: "atRest" }, [-1, 1], 2910]);
});

test("a hand lets the drum go at a whole word time; orders that were not told are gone back over; a page key is an order", { skip }, async () => {
    const clocks = await clocksOf("self-modifying");
    const { laboratory, turning } = await handAt("self-modifying");
    await laboratory.run();
    assert.deepEqual([laboratory.accounts.length, laboratory.history.behind], [0, 42]);
    turning.take();
    await turning.turn(-2.4);
    await turning.settle();
    assert.deepEqual([turning.clock, laboratory.history.behind], [2908, 42]);
    await turning.order(-1);
    await turning.order(-1);
    assert.deepEqual([turning.clock, laboratory.history.behind], [clocks[40], 40]);
    // one press after another, none of which waits for the one before
    await Promise.all([turning.order(1), turning.turn(-3), turning.order(1), turning.order(1)]);
    assert.deepEqual([turning.clock, laboratory.history.behind, laboratory.history.ahead], [2910, 42, 0]);
});
