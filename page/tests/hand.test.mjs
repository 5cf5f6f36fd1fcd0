// Where the pins of words lie around the drum, and what is played in the game, over the module.
import assert from "node:assert/strict";
import { existsSync, readFileSync } from "node:fs";
import { dirname, join } from "node:path";
import { test } from "node:test";
import { fileURLToPath } from "node:url";
import { Controller } from "../controller.mjs";
import { setUpFor } from "../lesson_steps.mjs";
import { ModuleLink } from "../module_link.mjs";
import { PLACING_GAMES, PlacingGame, PROGRAMS, roundIn } from "../placing_game.mjs";

globalThis.document ??= {};
const { distanceOf } = await import("../views/hand.mjs");
const { apart, within } = await import("../views/pins.mjs");

const top = join(dirname(fileURLToPath(import.meta.url)), "../..");
const module = join(top, "libraries/javascript/lgp_c_region.wasm");
const skip = !existsSync(module);

/** The box of a pin at an angle. */
function boxOf(pin, angle) {
    const [x, y] = [Math.sin((angle * Math.PI) / 180), -Math.cos((angle * Math.PI) / 180)].map((it) => it * distanceOf(angle, pin));
    return { left: x - pin.width / 2, right: x + pin.width / 2, top: y - pin.height / 2, bottom: y + pin.height / 2 };
}
const meet = (one, other) => one.left < other.right && other.left < one.right && one.top < other.bottom && other.top < one.bottom;
const HEAD = { left: -54, right: 54, top: -372, bottom: -324 };

test("three pins lie apart wherever their words are carried: one that was set beside the head is set apart from its neighbour again", () => {
    const wrong = [];
    for (const width of [82, 100]) for (let first = 0; first < 64; first += 1) for (let second = 0; second < 64; second += 1) {
        const pins = [0.5, first + 0.5, second + 0.5].map((place, name) => ({ name, angle: place * 5.625 - 180, width, height: 38 }));
        const angles = apart(pins, distanceOf);
        const boxes = pins.map((pin) => boxOf(pin, angles.get(pin.name)));
        if (boxes.some((box, place) => meet(box, HEAD) || boxes.slice(place + 1).some((other) => meet(box, other)))) {
            wrong.push(`${width}: ${first}, ${second}`);
        }
    }
    assert.deepEqual(wrong, []);
    const near = apart(
        [{ name: "sum", angle: 2.8125, width: 82, height: 38 }, { name: "last", angle: 19.69, width: 82, height: 38 }], distanceOf
    );
    assert.ok(near.get("last") - near.get("sum") > 10, [...near].join(" "));
});

test("wherever words lie, no pin lies upon another one or upon the head", () => {
    const size = { width: 110, height: 46 };
    for (let first = 0; first < 64; first += 1) for (const places of [
        [0], [0, 0], [0, 1, 2], [0, 0, 0], [0, 9, 18, 27, 36], [0, 1, 0, 1, 2], [0, 32],
    ]) {
        const pins = places.map((place, name) => ({ name, angle: (first + place) * 5.625 - 180, ...size }));
        const angles = apart(pins, distanceOf);
        const boxes = pins.map((pin) => boxOf(pin, angles.get(pin.name)));
        for (const [place, box] of boxes.entries()) {
            assert.ok(!meet(box, HEAD), `${places} from ${first}: the pin ${place} lies upon the head`);
            for (const other of boxes.slice(place + 1)) assert.ok(!meet(box, other), `${places} from ${first}: two pins meet`);
        }
    }
    assert.deepEqual(apart([{ name: "one", angle: 90, ...size }], distanceOf), new Map([["one", 90]]));
    assert.ok(apart([{ name: "one", angle: -2, ...size }], distanceOf).get("one") < -15);
    // the drum has turned many times, forward or back
    for (const turns of [-9, -1, 1, 9]) {
        assert.ok(apart([{ name: "one", angle: 360 * turns - 2, ...size }], distanceOf).get("one") < -15, `${turns} turns`);
    }
});

test("a pin is whole in the drawing", () => {
    const size = { width: 170, height: 60 };
    assert.deepEqual(
        [[40, 372], [790, 700], [400, 10], [300, 200]].map((place) => within(place, size, [800, 720])),
        [[85, 372], [715, 690], [400, 30], [300, 200]]
    );
});

test("a round is what lies between the last two times that the loop began", () => {
    const accounts = ["0000", "0008", "0009", "0008", "0009", "0010", "0008", "0009"].map((at) => ({ at }));
    assert.deepEqual(roundIn(accounts, "0008"), [3, 6]);
});

/** What a program of the game takes, as the page asks it. */
async function askedOf({ example, words }) {
    const laboratory = new Controller(new ModuleLink(module));
    await laboratory.open();
    await setUpFor(laboratory, { opens: example }, (name) => readFileSync(join(top, `examples/${name}.txt`), "utf8"));
    await laboratory.run();
    return { ...await laboratory.askPlacing(words), track: laboratory.track };
}

test("each program of a game has words that may be moved and have something to gain, and a round of whole turns, also where they lie best", { skip }, async () => {
    for (const program of [...PLACING_GAMES.values()].flat()) {
        const told = await askedOf(program);
        const game = new PlacingGame();
        game.open(program, told);
        const turns = () => game.round.reduce((sum, { account }) => sum + account.sum, 0) / 64;
        const before = turns();
        assert.ok(told.words.every(({ kind, saved }) => kind === "free" && saved > 0), program.name);
        assert.equal(Number.isInteger(before), true, program.name);
        game.showBest();
        assert.deepEqual(
            [game.isShown, game.isWon, Number.isInteger(turns()), turns() < before, game.kept.at],
            [true, true, true, true, program.words.map((word) => [word, Number(word.slice(2))])],
            program.name
        );
        game.showBest();
        assert.deepEqual([game.isShown, game.placing.moved, turns()], [false, [], before], program.name);
    }
});

test("what was played is kept, and what is kept of another program is left", { skip }, async () => {
    const [one, other] = [new PlacingGame(), new PlacingGame()];
    const told = await askedOf(PROGRAMS[0]);
    for (const game of [one, other]) game.open(PROGRAMS[0], told);
    one.move("0022", 41);
    one.showBest();
    assert.deepEqual(one.kept, { picked: "0022", at: [["0021", 21], ["0022", 41], ["0024", 24]] });
    other.kept = { picked: "0128", at: [["0128", 3], ["0022", 41]] };
    assert.deepEqual([other.picked, other.placing.times, other.placing.moved], ["0021", 2654, ["0022"]]);
    other.reset();
    assert.deepEqual([other.kept, other.digits.get(22)], [{ picked: "0021", at: [] }, "00000004"]);
});

test("how a word misses the order that waits longest for it: it has gone by before that was taken, or comes after the next order has", () => {
    const order = (at, name, word, seek, find) => ({ account: { at, order: name, word, seek, find } });
    const missIn = (...round) => PlacingGame.prototype.missOf.call({ round }, "0024");
    assert.deepEqual(
        missIn(order("0008", "b 0024", "0024", 64, 9), order("0009", "u 0008", null, 1, 9)),
        { isEarly: true, at: "0008", letter: "b", places: 1 }
    );
    assert.deepEqual(
        missIn(order("0008", "b 0024", "0024", 12, 9), order("0009", "u 0008", null, 1, 60)),
        { isEarly: false, at: "0008", letter: "b", places: 5 }
    );
    assert.deepEqual(
        missIn(order("0008", "b 0024", "0024", 40, 9), order("0009", "s 0024", "0024", 61, 5)),
        { isEarly: true, at: "0009", letter: "s", places: 4 }
    );
    assert.equal(missIn(order("0008", "u 0009", null, 1, 9)), null);
});
