// The game at the kiosk, without a browser: what its buttons send, what the heap asks for, and what the paper says.
import assert from "node:assert/strict";
import { existsSync, readFileSync } from "node:fs";
import { dirname, join } from "node:path";
import { test } from "node:test";
import { fileURLToPath } from "node:url";
import { Controller } from "../controller.mjs";
import { linesIn } from "../lines.mjs";
import { ModuleLink } from "../module_link.mjs";
import { KIOSK_GAMES, asksOf, numberIn, saidOn, standsIn } from "../views/kiosk_game.mjs";
import { textsIn } from "../words.mjs";

const top = join(dirname(fileURLToPath(import.meta.url)), "../..");
const module = join(top, "libraries/javascript/lgp_c_region.wasm");
const skip = !existsSync(module);
const scriptOf = (name) => readFileSync(join(top, `examples/${name}.txt`), "utf8");

test("what a game sends are lines of its example's script", () => {
    for (const [name, { set, moves }] of KIOSK_GAMES) {
        const lines = new Set(linesIn(scriptOf(name)));
        for (const line of [...set, ...moves, "press start"]) assert.ok(lines.has(line), `${name}: ${line}`);
    }
});

/** The game at its first turn. */
async function opened() {
    const [name, game] = [...KIOSK_GAMES][0];
    const laboratory = new Controller(new ModuleLink(module));
    await laboratory.open();
    await laboratory.openForShow(name, scriptOf(name));
    laboratory.questionsToo = asksOf(game, laboratory.labels);
    const stands = standsIn(game, laboratory, textsIn("en"), { pace: null });
    await laboratory.command(...game.set);
    const told = [stands()];
    await laboratory.command("press start");
    told.push(stands());
    await laboratory.run();
    told.push(stands());
    const left = () => laboratory.answers.map(numberIn);
    const move = async (count) => {
        await laboratory.command(game.moves[count - 1]);
        await laboratory.run();
        return saidOn(game, laboratory.printed.text);
    };
    return { laboratory, stands, told, left, move };
}

test("a game that is won: the heap is the machine's, and the text says whose turn it is", { skip }, async () => {
    const { stands, told, left, move } = await opened();
    assert.deepEqual(told.map((text) => text.slice(0, 14)), ["There are 21 m", "The game has b", "It is your tur"]);
    assert.deepEqual(left(), [21, 21]);
    assert.deepEqual([await move(1), left()], [{ kind: "took", took: 1 }, [19, 21]]);
    assert.match(stands(), /^The machine has taken 1\. It is your turn/);
    for (const rest of [15, 11, 7, 3]) assert.deepEqual([(await move(3)).took, left()[0]], [1, rest]);
    assert.deepEqual([(await move(3)).kind, left()[0]], ["won", 0]);
    assert.match(stands(), /^You have won/);
});

test("a game that is lost, and the next one", { skip }, async () => {
    const { laboratory, stands, left, move } = await opened();
    for (const [count, took, rest] of [[3, 2, 16], [1, 3, 12], [2, 2, 8], [3, 1, 4]]) {
        assert.deepEqual([(await move(count)).took, left()[0]], [took, rest]);
    }
    assert.deepEqual([(await move(2)).kind, left()[0]], ["lost", 0]);
    assert.match(stands(), /^The machine has won/);
    await laboratory.command("press start");
    await laboratory.run();
    assert.deepEqual(left(), [21, 21]);
    assert.match(stands(), /^It is your turn/);
});
