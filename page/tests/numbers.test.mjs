// What the page tells in numbers is what follows from the definitions of docs/MACHINE.md: the machine here is made of these alone, and uses
// nothing of the page.
import assert from "node:assert/strict";
import { existsSync, readFileSync } from "node:fs";
import { test } from "node:test";
import { Controller } from "../controller.mjs";
import { ModuleLink } from "../module_link.mjs";
import { Placing, timesOf } from "../placing.mjs";
import { angleOf } from "../views/drum.mjs";
import { endText } from "../views/kiosk.mjs";
import { textsIn } from "../words.mjs";

const file = (path) => new URL(`../../${path}`, import.meta.url);
const module = file("libraries/javascript/lgp_c_region.wasm").pathname;
const skip = !existsSync(module);
/** How many programs are tried; NUMBERS has another number of them, and SEED where they begin. */
const [PROGRAMS, SEED] = [Number(process.env.NUMBERS ?? 20), Number(process.env.SEED ?? 1)];
const [MOST_ORDERS, PLACINGS] = [60, 20];

/** Numbers that look random: the next one below a number. */
function chance(seed) {
    let state = BigInt(seed);
    return (below) => {
        state = (state * 6364136223846793005n + 1442695040888963407n) % 2n ** 64n;
        return Number((state >> 33n) % BigInt(below));
    };
}

const LETTERS = "zbyridnmpeuthcas";
const [SEEKING, STORING] = ["bdnmeasyrhc", "hcyr"];
const OF_ADDRESS = 0x3ffc;
const written = (number) => `${String(number >> 6).padStart(2, "0")}${String(number & 63).padStart(2, "0")}`;
const digitsOf = (word) => (word >>> 0).toString(16).padStart(8, "0").replace(/[a-f]/g, (digit) => "fgjkqw"["abcdef".indexOf(digit)]);

/** From a clock on, until a sector has been read. */
const waitFor = (sector, clock) => 1 + ((((9 * sector - clock - 1) % 64) + 64) % 64);

/** The orders that a program performs from 0000 on: what is told of each, or null where a sum is too large for a word. */
function performed(words) {
    const drum = new Int32Array(4096);
    for (const [place, word] of words) drum[place] = word;
    const told = [];
    let [clock, counter, accumulator] = [0, 0, 0];
    const sums = { a: (word) => accumulator + word, s: (word) => accumulator - word };
    const acts = {
        b: (m) => { accumulator = drum[m]; }, e: (m) => { accumulator &= drum[m]; },
        h: (m) => { drum[m] = accumulator & ~1; }, c: (m) => { drum[m] = accumulator & ~1; accumulator = 0; },
        y: (m) => { drum[m] = (drum[m] & ~OF_ADDRESS) | (accumulator & OF_ADDRESS); },
        r: (m) => { drum[m] = (drum[m] & ~OF_ADDRESS) | (((counter + 1) % 4096) << 2); },
        u: (m) => { counter = m; }, t: (m) => { if (accumulator < 0) counter = m; },
        a: (m) => { accumulator = sums.a(drum[m]); }, s: (m) => { accumulator = sums.s(drum[m]); }, z: () => {},
    };
    while (told.length < MOST_ORDERS) {
        const [at, order] = [counter, drum[counter]];
        const [letter, m] = [LETTERS[(order >>> 16) & 15], (order & OF_ADDRESS) >> 2];
        if (acts[letter] === undefined) return null;
        const find = waitFor(at & 63, clock);
        const seek = SEEKING.includes(letter) ? waitFor(m & 63, clock + find + 1) : 1;
        counter = (counter + 1) % 4096;
        acts[letter](m);
        if (accumulator !== (accumulator | 0)) return null;
        const [word, after] = [SEEKING.includes(letter) ? written(m) : null, digitsOf(accumulator)];
        told.push({ clock: BigInt(clock), at: written(at), letter, word, find, take: 1, seek, act: 1, sum: find + seek + 2, after });
        clock += find + seek + 2;
        if (letter === "z") return told;
    }
    return told;
}

/** A program: orders from 0000 on, now and then with a loop or an order that is rewritten, and numbers elsewhere that they name. */
function randomProgram(among) {
    const count = 5 + among(20);
    const data = Array.from({ length: 1 + among(6) }, () => 64 + among(4000));
    const orders = Array.from({ length: count }, (unused, place) => {
        const letter = "bbhcaassyyertu"[among(14)];
        if ("tu".includes(letter)) return [letter, among(4) === 0 ? among(count) : Math.min(count, place + 1 + among(3))];
        return [letter, "yr".includes(letter) && among(2) === 0 ? among(count) : data[among(data.length)]];
    });
    const word = ([letter, m]) => (LETTERS.indexOf(letter) << 16) | (m << 2);
    const numbers = data.map((place) => [place, (among(100_000) - 50_000) << 1]);
    return new Map([...numbers, ...[...orders, ["z", 0]].map((order, place) => [place, word(order)])]);
}

/** Programs whose sums have room, from a seed on, each with the orders that it performs. */
function* programs(seed, count) {
    for (let [tried, found] = [seed, 0]; found < count; tried += 1) {
        const words = randomProgram(chance(tried));
        const orders = performed(words);
        if (orders === null) continue;
        found += 1;
        yield { seed: tried, words, orders };
    }
}

/** A laboratory in which a program was performed, each order told. */
async function done(words) {
    const laboratory = new Controller(new ModuleLink(module));
    await laboratory.open();
    await laboratory.say(...[...words].map(([place, word]) => `put ${written(place)} ${digitsOf(word)}`), "press start");
    await laboratory.step(MOST_ORDERS);
    return laboratory;
}

/** The word times of the same orders where words are at other sectors. */
function elsewhere(orders, sectors) {
    let clock = 0;
    for (const { at, word } of orders) {
        const found = clock + waitFor(Number(at) % 100, clock) + 1;
        clock = found + (word === null ? 1 : waitFor(sectors.get(word) ?? Number(word) % 100, found)) + 1;
    }
    return clock;
}

test("each sector is drawn where the definition has it, at each of 64 clocks: 4,096 angles", () => {
    const isSame = (one, other) => Math.abs((((one - other) % 360) + 540) % 360 - 180) < 1e-9;
    let angles = 0;
    for (let clock = 0; clock < 64; clock += 1) for (let sector = 0; sector < 64; sector += 1) {
        // the head has read a sector when it has gone by wholly, and what is still to come lies clockwise from there
        const toGo = waitFor(sector, clock);
        assert.ok(isSame(angleOf(sector, clock), (toGo - 0.5) * (360 / 64)), `sector ${sector} at ${clock}`);
        angles += 1;
    }
    assert.equal(angles, 4096);
});

const TOLD = ["clock", "at", "letter", "word", "find", "take", "seek", "act", "sum", "after"];
const PROFILED = `${PROGRAMS} random programs: what is told of each order, and the profile with its bars, are those of the definitions`;

test(PROFILED, { skip }, async () => {
    let [accounts, bars] = [0, 0];
    for (const { seed, words, orders } of programs(SEED, PROGRAMS)) {
        const laboratory = await done(words);
        const withLetter = laboratory.accounts.map((account) => ({ ...account, letter: account.order.replace("-", "")[0] }));
        const told = withLetter.map((account) => Object.fromEntries(TOLD.map((key) => [key, account[key]])));
        assert.deepEqual(told, orders, `seed ${seed}`);
        accounts += told.length;
        await laboratory.back(orders.length);
        await laboratory.addUp(MOST_ORDERS);
        const { profile } = laboratory;
        const sumOf = (part) => orders.reduce((sum, order) => sum + order[part], 0);
        const times = sumOf("sum");
        assert.deepEqual([profile.orders, profile.times], [orders.length, times], `seed ${seed}`);
        const parts = profile.parts.map(({ times: part }) => part);
        assert.deepEqual(parts, ["find", "take", "seek", "act"].map(sumOf).concat(0), `seed ${seed}`);
        const places = new Map();
        for (const { at, sum } of orders) places.set(at, (places.get(at) ?? 0) + sum);
        const dearest = [...places.values()].sort((one, other) => other - one).slice(0, profile.places.length);
        assert.deepEqual(profile.places.map(({ times: part }) => part), dearest, `seed ${seed}`);
        for (const { name, times: part, percent } of profile.places) {
            assert.deepEqual([part, percent], [places.get(name.split(" ")[0]), Math.floor((100 * part) / times)], `seed ${seed}: ${name}`);
        }
        bars += profile.parts.length + profile.places.length;
    }
    assert.ok(accounts >= 5 * PROGRAMS && bars >= 10 * PROGRAMS, `${accounts} orders, ${bars} bars`);
});

const PLACED =
    `${PROGRAMS} random programs, ${PLACINGS} placings of each: what they would take, and all drawn waits, are so by the definitions`;

test(PLACED, { skip }, async () => {
    let [placings, values] = [0, 0];
    for (const { seed, words, orders } of programs(SEED + 100_000, PROGRAMS)) {
        const laboratory = await done(words);
        const used = [...new Set(orders.map(({ word }) => word))].filter((word) => word !== null);
        const { accounts, words: told } = await laboratory.askPlacing(used);
        const free = told.filter(({ kind }) => kind === "free");
        if (free.length === 0) continue;
        const placing = new Placing(accounts, free);
        for (const { address } of free) for (let sector = 0; sector < 64; sector += 1, values += 1) {
            const times = elsewhere(orders, new Map([[address, sector]]));
            assert.equal(placing.took - placing.savedAt(address, sector), times, `seed ${seed}: ${address} at ${sector}`);
        }
        const among = chance(seed);
        for (let at = 0; at < PLACINGS; at += 1, placings += 1) {
            const sectors = new Map(free.map(({ address }) => [address, among(64)]));
            for (const [address, sector] of sectors) placing.move(address, sector);
            const times = elsewhere(orders, sectors);
            assert.deepEqual([placing.times, timesOf(placing.drawn)], [times, times], `seed ${seed}: ${[...sectors]}`);
        }
    }
    assert.ok(placings >= 5 * PROGRAMS && values >= 64 * PROGRAMS, `${placings} placings, ${values} sectors' values`);
});

const ENDED = "at the kiosk's end stand the orders, the turns and the share of waits that follow from the definitions, in both languages";

test(ENDED, { skip }, async () => {
    let sentences = 0;
    const ended = [...programs(SEED + 200_000, 3 * PROGRAMS)].filter(({ orders: told }) => told.at(-1).letter === "z");
    for (const { seed, words, orders } of ended) {
        const laboratory = await done(words);
        const times = orders.reduce((sum, order) => sum + order.sum, 0);
        const waited = orders.reduce((sum, { find, seek }) => sum + find - 1 + seek - 1, 0);
        const turns = Math.floor((10 * times) / 64) / 10;
        for (const code of ["en", "de"]) {
            const said = endText(laboratory, textsIn(code), { offers: () => false });
            const numbers = said.match(/\d+(?:[.,]\d+)?/g).map((number) => Number(number.replace(",", ".")));
            // a program takes 71 word times at least, so none is told as one turn, in a word
            assert.deepEqual(numbers, [orders.length, turns, Math.round((100 * waited) / times)], `seed ${seed}: ${said}`);
            sentences += 1;
        }
    }
    assert.ok(sentences >= PROGRAMS, `${sentences} sentences`);
});
