// The player, with made-up accounts.
import assert from "node:assert/strict";
import { test } from "node:test";
import { Player, markAt } from "../player.mjs";

const bring = {
    clock: 90n, at: "0004", order: "b 0020", find: 24, take: 1, seek: 15, act: 1, sum: 41, before: "00000000", after: "00000100",
    register: "00010050", next: "0005",
};
const jump = {
    clock: 131n, at: "6363", order: "u 0004", find: 10, take: 1, seek: 1, act: 1, sum: 13, before: "00000100", after: "00000100",
    register: "000f0010", next: "0004",
};
const print = { ...jump, order: "p 4600", act: 384, sum: 396, next: "0000" };
const played = (account, milliseconds, settings = {}) => {
    const player = Object.assign(new Player(), settings);
    player.play(account);
    player.tick(milliseconds);
    return player.at();
};

test("nothing is played at first, after the end, and a tick without an order does nothing", () => {
    const player = new Player();
    player.tick(100);
    assert.equal(player.at(), null);
    player.play(bring);
    player.end();
    assert.equal(player.at(), null);
});

test("the phases pass one after another, each for its word times", () => {
    const phases = [0, 23.9, 24, 24.9, 25, 39.9, 40, 40.9].map((times) => played(bring, (1000 * times) / 32 + 0.001).phase);
    assert.deepEqual(phases, ["find", "find", "take", "take", "seek", "seek", "act", "act"]);
});

test("counter and register change at the end of take, the accumulator and a jump's counter at the end of act", () => {
    const told = (account, times) => (
        (({ counter, register, accumulator, done }) => [counter, register, accumulator, done])(played(account, 1000 * times, { pace: 1 }))
    );
    assert.deepEqual(told(bring, 24.5), ["0004", null, "00000000", false]);
    assert.deepEqual(told(bring, 25.5), ["0005", "00010050", "00000000", false]);
    assert.deepEqual(told(bring, 41.5), ["0005", "00010050", "00000100", true]);
    assert.deepEqual(told(jump, 12), ["0000", "000f0010", "00000100", false]);
    assert.deepEqual(told(jump, 13), ["0004", "000f0010", "00000100", true]);
});

test("the register holds the order before until the next one is taken", () => {
    const player = new Player();
    player.play(bring);
    player.tick(60_000);
    player.play(jump);
    assert.deepEqual([player.at().offset, player.at().register], [0, "00010050"]);
    assert.equal(played({ ...jump, registerBefore: "000q0000" }, 10).register, "000q0000");
});

test("an order at no address has no counter of its own", () => {
    assert.equal(played({ ...bring, at: null }, 10_000).counter, "0005");
    assert.equal(played({ ...bring, at: null }, 10).counter, null);
});

test("a second passes as many word times as the pace says, and no more than the order has", () => {
    assert.equal(played(bring, 500, { pace: 64 }).offset, 32);
    assert.equal(played(bring, 5000, { pace: 64 }).offset, 41);
});

test("what an order did not need of a tick is given back, so that the next one can begin in its midst", () => {
    const player = Object.assign(new Player(), { pace: 10, hurry: 2 });
    assert.equal(player.tick(500), 0);
    player.play(bring);
    assert.deepEqual([player.tick(4000), player.tick(300), player.tick(200)].map(Math.round), [0, 200, 200]);
    player.play(print);
    assert.equal(Math.round(player.tick(1200 + 384 * 50 + 70)), 70);
    player.isStill = true;
    assert.equal(player.tick(5000), 0);
});

test("only an act of more than a turn is hurried, and only from its beginning on", () => {
    assert.equal(played(print, 1000, { pace: 12, hurry: 4 }).offset, 12);
    assert.equal(played(print, 2000, { pace: 12, hurry: 4 }).offset, 60);
    assert.equal(played(bring, 4000, { pace: 10, hurry: 4 }).offset, 40);
    assert.equal(played(bring, 4050, { pace: 10, hurry: 4 }).offset, 40.5);
});

test("without motion an order is four pictures, the ends of its phases", () => {
    const player = Object.assign(new Player(), { isStill: true });
    player.play(bring);
    const seen = [];
    for (let picture = 0; picture < 4; picture += 1) {
        seen.push([player.at().offset, player.at().phase]);
        player.tick(1000);
        assert.equal(player.at().offset, seen.at(-1)[0]);
        player.tick(300);
    }
    assert.deepEqual(seen, [[24, "find"], [25, "take"], [40, "seek"], [41, "act"]]);
    assert.equal(player.at().done, true);
});

test("codes pass in the reader one after another, each for a time that can be seen, in each pace", () => {
    const input = { ...jump, order: "i 0000", act: 6 * 384 + 1, passed: 6, sum: 12 + 6 * 384 + 1 };
    for (const pace of [32, 64]) {
        const until = (1000 * 12) / pace;
        const codes = [0, until - 1, until + 100, until + 170, until + 170 + 160, until + 4 * 160 + 10, until + 5 * 160 + 10].map(
            (milliseconds) => played(input, milliseconds, { pace }).codes
        );
        assert.deepEqual(codes, [6, 6, 6, 5, 4, 2, 1]);
        assert.deepEqual(
            [played(input, until + 6 * 160 + 1, { pace }).codes, played(input, until + 6 * 160 + 1, { pace }).done], [0, true]
        );
    }
    assert.deepEqual([played(input, 0, { isStill: true }).codes, played(bring, 10).codes], [6, 0]);
});

test("the order under way is one: the one that is played, then the same as done, and before the first none", () => {
    const account = { ...bring, word: "0020", stored: null };
    const panel = { counter: "0005" };
    const at = (times) => {
        const { now, order, phase, coming, operand } = markAt({ played: played(account, 1000 * times, { pace: 1 }), last: account, panel });
        return [now, order, phase, coming, operand];
    };
    assert.deepEqual(at(3), ["0004", "b 0020", "find", null, null]);
    assert.deepEqual(at(24.5), ["0004", "b 0020", "take", null, null]);
    assert.deepEqual(at(30), ["0004", "b 0020", "seek", "0005", "0020"]);
    assert.deepEqual(at(40.5), ["0004", "b 0020", "act", "0005", "0020"]);
    assert.deepEqual(at(42), ["0004", "b 0020", "done", "0005", "0020"]);
    assert.deepEqual(
        markAt({ played: null, last: null, panel }),
        { now: null, order: null, phase: null, coming: "0005", operand: null, isWritten: false }
    );
    assert.equal(markAt({ played: null, last: { ...account, stored: { address: "0020" } }, panel }).isWritten, true);
});
