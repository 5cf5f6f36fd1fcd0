// How long unpacking the page takes in node, in processor time, the best of some turns. How long the page takes to open in Chromium, from
// the
// beginning of its navigation: until something is painted, until its door can be used, and what of that is unpacking, the median of some
// openings, and the best; other work on the machine makes these times longer. And how much memory the kiosk holds after some rounds of an
// exhibit, and after many more.
// No part of the check.
//
//     node tools/bench/opening.mjs [page/laboratory.html]
import { readFileSync } from "node:fs";
import { dirname, join, resolve } from "node:path";
import { fileURLToPath, pathToFileURL } from "node:url";
import { Chromium } from "../../page/tests/chromium.mjs";
import { unsorted } from "../../page/sorted.mjs";
import { unpacked } from "../../page/unpacked.mjs";

const top = join(dirname(fileURLToPath(import.meta.url)), "../..");
const file = resolve(process.argv[2] ?? join(top, "page/laboratory.html"));
const address = pathToFileURL(file).href;
const [OPENINGS, ROUNDS, TURNS] = [7, 60, 12];
const DOORS = [
    ["the hall", "?lang=en"], ["Look", "?lang=en&door=look"], ["Learn", "?lang=en&door=learn"], ["Work", "?lang=en&door=work"],
    ["the kiosk", "?lang=en#kiosk=weather"],
];

/** Runs in the page before its scripts: notes how long each unpacking takes, and when the page says that it can be used. */
function noteTimes() {
    globalThis.unpacking = 0;
    let unpack;
    const timed = (text) => {
        const texts = unpack(text);
        const next = texts.next.bind(texts);
        texts.next = () => {
            const began = performance.now();
            const found = next();
            globalThis.unpacking += performance.now() - began;
            return found;
        };
        return texts;
    };
    Object.defineProperty(globalThis, "unpackedTexts", { get: () => timed, set: (it) => { unpack = it; } });
    const look = () => { if (document.documentElement?.dataset.ready === "true") globalThis.usable ??= performance.now(); };
    new MutationObserver(look).observe(document, { attributes: true, subtree: true });
}

const median = (numbers) => numbers.sort((one, other) => one - other)[numbers.length >> 1];

/** The times of a door, in milliseconds: each time's median and its best. */
async function opened(browser, query) {
    const times = [];
    for (let opening = 0; opening < OPENINGS; opening += 1) {
        await browser.open(address.concat(query), "globalThis.usable !== undefined && performance.getEntriesByType('paint').length > 0");
        times.push(await browser.value("[performance.getEntriesByType('paint')[0].startTime, usable, unpacking]"));
    }
    return [median, (all) => Math.min(...all)].map((of) => [0, 1, 2].map((place) => Math.round(of(times.map((it) => it[place])))));
}

/** What the heap of the page holds when all is collected that is not used, in megabytes. */
async function heapOf(browser) {
    await browser.ask("HeapProfiler.collectGarbage");
    const { usedSize } = await browser.ask("Runtime.getHeapUsage");
    return usedSize / 1e6;
}

/** The heap after some rounds of a visitor who types row 1000 again, hurries to its end and goes back to the start, and after many more. */
async function heapOfKiosk(browser) {
    await browser.open(`${address}?lang=en&idle=900#kiosk=weather`);
    const round = () => browser.value(`(async () => {
        for (const key of ["2", "2", "3", "3", "4"]) {
            document.body.dispatchEvent(new KeyboardEvent("keydown", { key, bubbles: true }));
            await new Promise((resolve) => setTimeout(resolve, 400));
        }
    })()`);
    const heaps = [];
    for (const rounds of [ROUNDS / 6, ROUNDS]) {
        for (let done = 0; done < rounds; done += 1) await round();
        heaps.push((await heapOf(browser)).toFixed(1));
    }
    return heaps;
}

/** The processor time of unpacking a part of the page once, in milliseconds; of the module, of sorting it back as well. */
function unpackedIn(part, text) {
    const before = process.cpuUsage();
    const bytes = unpacked(text);
    if (part === "module") unsorted(bytes);
    return process.cpuUsage(before).user / 1000;
}

for (const [, name, text] of readFileSync(file, "utf8").matchAll(/id="(parts|module)">(\d+ [^<]+)</g)) {
    const best = Math.min(...Array.from({ length: TURNS }, () => unpackedIn(name, text)));
    console.log(`${name}: unpacked in ${Math.round(best)} ms of processor time`);
}
const browser = await Chromium.start(1366, 768);
await browser.preload(`(${noteTimes})()`);
for (const [name, query] of DOORS) {
    const [usual, best] = (await opened(browser, query)).map(
        ([painted, usable, unpacking]) => `painted after ${painted} ms, usable after ${usable}, of which unpacking ${unpacking}`
    );
    console.log(`${name}: ${usual}; at best ${best}`);
}
const [before, after] = await heapOfKiosk(browser);
console.log(`the kiosk's heap: ${before} MB after ${ROUNDS / 6} rounds, ${after} after ${ROUNDS} more`);
await browser.end();
