// The drive, over a made-up laboratory whose orders are done at once and whose pictures come at once.
import assert from "node:assert/strict";
import { readFileSync, readdirSync } from "node:fs";
import { test } from "node:test";
import { Drive, PACES, WORD_TIME, speedInShow } from "../drive.mjs";
import { Player } from "../player.mjs";
import { LANGUAGES } from "../words.mjs";

const account = {
    clock: 0n, order: "b 0020", at: "0004", find: 24, take: 1, seek: 15, act: 1, sum: 41, before: "00000000", after: "00000000",
    stored: null, printed: null,
};

/** A drive, and what was done: the orders performed. `orders` is how many the machine has before it halts. */
function madeUp(orders = Infinity) {
    const done = { orders: 0, rests: 0, runs: 0 };
    const laboratory = {
        notice: null, way: { kind: "go" }, panel: { clock: 0n }, history: { get behind() { return done.orders; } }, stop: () => {},
        step: async (count, withRows, whenDone = () => {}) => {
            if (done.orders >= orders) return 0;
            done.orders += 1;
            laboratory.panel = { clock: laboratory.panel.clock + 41n };
            laboratory.way = { kind: done.orders < orders ? "go" : "start" };
            whenDone(account);
            return 1;
        },
    };
    const sleep = (milliseconds) => { done.rests += milliseconds; return new Promise((resolve) => setTimeout(resolve)); };
    const player = new Player();
    const drive = new Drive(laboratory, player, async () => { done.runs += 1; }, { now: () => 0, sleep });
    drive.addEventListener("play", () => setTimeout(() => drive.played()));
    return { drive, done, laboratory, player };
}

test("a pace goes on for this many orders, and until the machine stands still", async () => {
    const { drive, done } = madeUp(5);
    await drive.go("slow", 2);
    assert.deepEqual([done.orders, drive.pace], [2, null]);
    await drive.go("slow");
    assert.deepEqual([done.orders, drive.pace], [5, null]);
});

test("order by order rests after each order but the last one that was asked for", async () => {
    const { drive, done } = madeUp();
    await drive.go("order", 3);
    assert.deepEqual([done.orders, done.rests], [3, 2 * 2600]);
});

test("a halt ends a pace, another pace goes on from there, and the fastest is a run", async () => {
    const { drive, done } = madeUp();
    const went = drive.go("slow");
    drive.addEventListener("play", () => { if (done.orders === 3) drive.halt(); });
    await went;
    assert.deepEqual([done.orders, drive.pace], [3, null]);
    await drive.go("fast");
    assert.deepEqual([done.runs, drive.pace], [1, null]);
});

test("a step performs one order and waits for nothing", async () => {
    const { drive, done } = madeUp();
    await drive.step();
    assert.deepEqual([done.orders, drive.pace], [1, null]);
});

test("what was gone back over is performed again, by a step and in a pace; and Go on takes the chosen pace", async () => {
    const { drive, done, laboratory } = madeUp(4);
    laboratory.history.ahead = 2;
    laboratory.forward = async (count, whenDone) => {
        laboratory.history.ahead -= 1;
        return laboratory.step(count, true, whenDone);
    };
    await drive.step();
    drive.choose("slow");
    assert.deepEqual([drive.pace, laboratory.history.ahead], [null, 1]);
    await drive.goOn();
    assert.deepEqual([done.orders, laboratory.history.ahead, drive.pace], [4, 0, null]);
});

test("another pace that is chosen while the machine goes on takes effect at once", async () => {
    const { drive, done } = madeUp();
    const went = drive.goOn();
    drive.choose("slow");
    assert.equal(drive.pace, "slow");
    drive.addEventListener("play", () => { if (done.orders === 3) drive.goOn(); });
    await went;
    assert.deepEqual([done.runs, done.orders, drive.pace, drive.chosen], [1, 3, null, "slow"]);
});

test("in a tale an act of many turns passes as one turn", async () => {
    const { drive, player } = madeUp(1);
    const hurries = [];
    drive.addEventListener("play", () => hurries.push([player.pace, player.hurry]));
    Object.assign(account, { act: 384 });
    await drive.go("tale", 1);
    Object.assign(account, { act: 1 });
    assert.deepEqual(hurries, [[32, 6]]);
});

test("in a show the first orders and those that rewrite another one are slow, and what prints is hurried while it types", () => {
    const word = (digits) => ({ digits, order: null });
    const rewriting = { ...account, order: "y 0009", stored: { address: "0009", before: word("000q0000"), after: word("000q0100") } };
    assert.deepEqual(
        [[account, 3], [account, 4], [rewriting, 40], [{ ...account, printed: { code: 46 } }, 40]].map(
            ([it, behind]) => speedInShow(it, behind)
        ),
        [{ speed: 32, hurry: 1 }, { speed: 96, hurry: 1 }, { speed: 32, hurry: 1 }, { speed: 48, hurry: 128 / 48 }]
    );
});

test("the length of a word time is one figure: that of the machine's own pace, and what each language says of it", () => {
    assert.equal(PACES.own.speed, 1000 / WORD_TIME);
    for (const [code, { pace: { own } }] of Object.entries(LANGUAGES)) {
        assert.ok(own[2].includes(WORD_TIME.toLocaleString(code)), own[2]);
        assert.ok(own[1].startsWith(String(Math.round(1000 / WORD_TIME / 64))), own[1]);
    }
    // what documents say of it, with a point or a comma; .ci/programs reads the figure itself
    const read = (path) => readFileSync(new URL(`../../${path}`, import.meta.url), "utf8");
    for (const [path, said] of [
        ["docs/EXHIBITS.md", `${WORD_TIME} milliseconds`],
        ["docs/de/EXHIBITS.md", `${WORD_TIME.toLocaleString("de")} Millisekunden`],
        ["docs/PROGRAMS.md", `a word time lasts ${String(WORD_TIME).slice(1)} milliseconds`],
    ]) {
        assert.ok(read(path).includes(said), `${path}: ${said}`);
    }
    const others = readdirSync(new URL("../../docs", import.meta.url), { recursive: true })
        .filter((path) => path.endsWith(".md"))
        .map((path) => `docs/${path}`);
    for (const path of others) assert.doesNotMatch(read(path), /(?:turns a minute|Umdrehungen (?:in der|je) Minute)/, path);
});
