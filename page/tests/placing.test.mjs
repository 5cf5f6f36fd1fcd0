// Words at other sectors: what is foretold of them is what a program takes that really has them there.
import assert from "node:assert/strict";
import { existsSync, readFileSync } from "node:fs";
import { dirname, join } from "node:path";
import { test } from "node:test";
import { fileURLToPath } from "node:url";
import { SECTORS, sectorOf } from "../addresses.mjs";
import { Controller } from "../controller.mjs";
import { Checker } from "../language.mjs";
import { accountsOf, panelOf, reportOf } from "../../libraries/javascript/replies.mjs";
import { ModuleLink } from "../module_link.mjs";
import { Placing, freePlace, movedSource, timesOf, withWordAt } from "../placing.mjs";

const top = join(dirname(fileURLToPath(import.meta.url)), "../..");
const module = join(top, "libraries/javascript/lgp_c_region.wasm");
const skip = !existsSync(module);
const scriptOf = (name) => readFileSync(join(top, `examples/${name}.txt`), "utf8");
const checker = new Checker(() => new ModuleLink(module));

/** The words of examples/self-modifying.txt as a source. */
const SUM = `main    r back
        u first
        h result
        z
first   b begin
        y add
        b zero
        h sum
loop    b sum
add     a 0000
        h sum
        b add
        a one
        y add
        s last
        t loop
        b sum
back    u 0000
        org 0020
begin   z 0100
last    a 0104
one     word 00000004
zero    word 00000000
sum     word 00000000
result  word 00000000
        org 0100
        word 00000002
        word 00000004
        word 00000006
        word 00000008
        end main`;

/**
 * How many word times a source takes that is loaded and run to its end, from where its first order was read on: how long the head has to
 * wait for that depends on where the loader has ended.
 */
async function took(link, source) {
    await link.anew();
    const loaded = await link.askAll(["source", ...source.split("\n"), ".", "load"]);
    assert.match(loaded, /^loaded \d+$/m, source);
    const [{ find, clock }] = accountsOf(reportOf(await link.ask("json trace-data 1")).told);
    assert.match(await link.ask("run 10000"), /^ran \d+ rest$/m);
    return Number(panelOf(await link.ask("json panel-data")).clock - clock) - find;
}

const sourceIn = (script) => /^source\n([^]*?)\n\.$/m.exec(script)[1];

/** Programs, each with the words that are moved. */
const PROGRAMS = [
    ["the sum", SUM, ["0021", "0022", "0024"], 500],
    ["the root", sourceIn(scriptOf("square-root")), ["0009", "0010", "0011"], 300],
    ["the household", sourceIn(scriptOf("drum/household")).replace("-1957", "-95"), ["0128", "0130", "0132"], 200],
];

/** Numbers that look random and are the same each time. */
function* numbers(below) {
    for (let state = 1957n; ; state = (state * 6364136223846793005n + 1442695040888963407n) % 2n ** 64n) {
        yield Number((state >> 40n) % BigInt(below));
    }
}

const wordsIn = (said, source) => new Set(source.split("\n").flatMap((unused, place) => said.wordOf(place + 1)?.place ?? []));

/** The source with each word at a free place of its sector. */
async function placedAt(source, sectors) {
    let placed = source;
    for (const [address, sector] of sectors) {
        const said = await checker.ask(placed);
        if (sector !== sectorOf(address)) placed = withWordAt(placed, said, address, freePlace(sector, wordsIn(said, placed)));
    }
    return placed;
}

for (const [name, source, words, count] of PROGRAMS) {
    test(`${name}: ${count} random placings of three words, assembled, loaded and run, take what was foretold, and so do the drawn waits`, { skip }, async () => {
        const link = new ModuleLink(module);
        const laboratory = new Controller(link);
        await laboratory.open();
        await laboratory.load(source);
        await laboratory.run();
        const { accounts, words: told } = await laboratory.askPlacing(words);
        const placing = new Placing(accounts, told);
        const random = numbers(SECTORS);
        assert.deepEqual(told.map(({ kind }) => kind), ["free", "free", "free"]);
        for (let tried = 0; tried < count; tried += 1) {
            const sectors = words.map((address) => [address, random.next().value]);
            for (const [address, sector] of sectors) placing.move(address, sector);
            assert.equal(timesOf(placing.drawn), placing.times, `${sectors}`);
            assert.equal(await took(link, await placedAt(source, sectors)), placing.times - accounts[0].find, `${sectors}`);
        }
    });
}

test("the words of the sum are those of its example, and with three of them elsewhere it takes 2142 word times in place of 2910", { skip }, async () => {
    const laboratory = new Controller(new ModuleLink(module));
    await laboratory.open();
    const words = async () => (await laboratory.drum()).slice(0, 63 * SECTORS).join("");
    await laboratory.load(SUM);
    const loaded = await words();
    await laboratory.openForShow("sum", scriptOf("self-modifying"));
    assert.equal(await words(), loaded);
    await laboratory.command("press start");
    await laboratory.run();
    const { accounts, words: told } = await laboratory.askPlacing(["0021", "0022", "0024"]);
    const placing = new Placing(accounts, told);
    const sorted = (address) => placing.bestOf(address).sort((one, other) => one - other);
    assert.deepEqual([placing.took, placing.least, placing.times, placing.moved], [2910, 2142, 2910, []]);
    assert.deepEqual(
        ["0021", "0022", "0024"].map(sorted),
        [[0, 29, 36, 43, 50, 57], [27, 34, 41, 48, 55, 62], [23, 25, 30, 32, 37, 39, 44, 46, 51, 53, 58, 60]]
    );
    for (const [address, sector] of [["0021", 43], ["0022", 41], ["0024", 37]]) placing.move(address, sector);
    assert.deepEqual(
        [placing.times, placing.saved("0022"), placing.isBest("0024"), placing.moved.length, timesOf(placing.drawn)],
        [2142, 256, true, 3, 2142]
    );
    placing.move("0024", 22);
    assert.deepEqual([placing.isBest("0024"), placing.times], [false, 2142 + 256 - placing.savedAt("0024", 22)]);
    placing.reset();
    assert.deepEqual([placing.times, timesOf(placing.drawn)], [2910, 2910]);
});

test("waits are drawn only where their sum is what the monitor says", () => {
    const account = { clock: 0n, at: "0000", order: "b 0050", word: "0050", find: 64, take: 1, seek: 1, act: 1, sum: 67 };
    const sectors = Array.from({ length: SECTORS }, (unused, sector) => ({ sector, times: sector === 50 ? 67 : 131 }));
    const placing = new Placing([account], [{ address: "0050", times: 67, saved: 0, sectors }]);
    assert.deepEqual(placing.drawn.map(({ find, seek }) => [find, seek]), [[64, 1]]);
    placing.move("0050", 57);
    assert.deepEqual([placing.times, placing.drawn], [131, []]);
    assert.deepEqual(new Placing([], [{ address: "0050", times: 67, saved: 0, sectors }]).drawn, []);
});

test("a word has an org before it, and what comes after it another one, where it needs one", { skip }, async () => {
    const withWord = async (source, address, place) => withWordAt(source, await checker.ask(source), address, place);
    assert.equal(
        await withWord(" b one\n z\none int 1 30 ; one\ntwo int 2 30\n end", "0002", "0041"),
        " b one\n z\n    org 0041\none int 1 30 ; one\n    org 0003\ntwo int 2 30\n end"
    );
    assert.equal(
        await withWord("  org 0010 ; here\none int 1 30\n\n; no more\n  end", "0010", "0041"),
        "  org 0041 ; here\none int 1 30\n\n; no more\n  end"
    );
    assert.equal(
        await withWord("  org 0010\none int 1 30\ntwo\n  end", "0010", "0141"), "  org 0141\none int 1 30\n    org 0011\ntwo\n  end"
    );
    assert.equal(
        await withWord("here org 0010\none int 1 30\n org 0020\n z\n end", "0010", "0041"),
        "here org 0010\n    org 0041\none int 1 30\n org 0020\n z\n end"
    );
});

test("several words are written elsewhere at once, and the run takes what was foretold; where an order names one by its address nothing is, and its line is that of the source", { skip }, async () => {
    const link = new ModuleLink(module);
    const laboratory = new Controller(link);
    await laboratory.open();
    await laboratory.load(SUM);
    await laboratory.run();
    const addresses = ["0021", "0022", "0024"];
    const { accounts, words: told } = await laboratory.askPlacing(addresses);
    const placing = new Placing(accounts, told);
    const words = addresses.map((address) => ({ address, sector: placing.bestOf(address)[0] }));
    for (const { address, sector } of words) placing.move(address, sector);
    const { text, places } = await movedSource(checker, SUM, accounts, words);
    assert.deepEqual(places.map(({ place }) => sectorOf(place)), words.map(({ sector }) => sector));
    assert.equal(await took(link, text), placing.least - accounts[0].find);
    const byNumber = SUM.replace("s last", "s 0021");
    const wrong = await movedSource(checker, byNumber, accounts, [words[1], words[0]]);
    assert.deepEqual(
        [wrong.wrong, wrong.address, wrong.line, wrong.text],
        ["byNumber", "0021", byNumber.split("\n").findIndex((line) => line.includes("s 0021")) + 1, undefined]
    );
});

test("the first free place of a sector is not the loader's", () => {
    const all = (tracks) => new Set(Array.from({ length: tracks }, (unused, track) => `${String(track).padStart(2, "0")}05`));
    assert.deepEqual(
        [freePlace(5, new Set()), freePlace(5, all(1)), freePlace(5, all(63)), freePlace(30, new Set(["0030"]))],
        ["0005", "0105", null, "0130"]
    );
});
