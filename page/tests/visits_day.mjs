// A day of the kiosk, by a clock that goes faster than the wall's whenever the machine has nothing to answer: exhibits play by themselves,
// visitors come and go, and the page holds no more nodes and listeners than after the first hour. HOURS names how many hours there are, and
// SPEED how much faster the clock goes.
import assert from "node:assert/strict";
import { chance } from "./visits_kiosk.mjs";
import { isIn, strike } from "./visits_exhibits.mjs";

const [HOURS, SPEED] = [Number(process.env.HOURS ?? 3), Number(process.env.SPEED ?? 720)];
/** How often in an hour a visitor comes, and what the page holds is looked at; and how many buttons a visitor presses. */
const [VISITORS, PRESSED] = [6, 5];
/**
 * How many nodes and listeners more than after its first hour the page may hold; and by which share its heap may be larger in the last
 * third of the hours than in the one before. In the first hours the engine still keeps what it makes of code that is used for the first
 * time.
 */
const [MORE, SHARE] = [{ nodes: 60, listeners: 4 }, HOURS < 9 ? 0.3 : 0.1];

/** Runs in the page before its scripts: its clock, its timers and its pictures go by a clock that stands while a Worker has to answer. */
function goesFaster(speed) {
    const [wall, begin, end] = [performance.now.bind(performance), globalThis.setTimeout.bind(globalThis), clearTimeout.bind(globalThis)];
    const [picture, Real, timers, began] = [requestAnimationFrame.bind(globalThis), Worker, new Map(), Date.now()];
    let [passed, last, asked, count] = [0, wall(), 0, 0];
    const now = () => {
        const at = wall();
        if (asked === 0) passed += (at - last) * speed;
        last = at;
        return passed;
    };
    performance.now = now;
    Date.now = () => began + now();
    globalThis.setTimeout = (action, milliseconds = 0, ...given) => {
        const [due, id] = [now() + milliseconds, count += 1];
        const wait = () => timers.set(id, begin(() => {
            if (now() < due) { wait(); return; }
            timers.delete(id);
            action(...given);
        }, (due - now()) / speed));
        wait();
        return id;
    };
    globalThis.clearTimeout = (id) => { end(timers.get(id)); timers.delete(id); };
    globalThis.requestAnimationFrame = (action) => picture(() => action(now()));
    globalThis.Worker = class extends Real {
        constructor(...given) {
            super(...given);
            this.addEventListener("message", () => { now(); asked -= 1; });
        }

        postMessage(...given) {
            now();
            asked += 1;
            super.postMessage(...given);
        }
    };
}

/** Runs in the page: counts how often a program has begun with an empty paper. */
const COUNT_ROUNDS = `(() => {
    let before = 0;
    globalThis.rounds = 0;
    laboratoryOfPage().addEventListener("change", () => {
        const { count } = laboratoryOfPage().printed ?? { count: 0 };
        if (count === 0 && before > 0) globalThis.rounds += 1;
        before = count;
    });
})()`;

/** What the page holds when all is collected that is not used: the heap in megabytes, nodes, and listeners. */
async function heldBy(browser) {
    await browser.ask("HeapProfiler.collectGarbage");
    const [{ usedSize }, { nodes, jsEventListeners }] = [await browser.ask("Runtime.getHeapUsage"), await browser.ask("Memory.getDOMCounters")];
    return { heap: usedSize / 1e6, nodes, listeners: jsEventListeners };
}

/** The least that was held, of each kind. */
const least = (all) => Object.fromEntries(Object.keys(all[0]).map((kind) => [kind, Math.min(...all.map((it) => it[kind]))]));

/** An hour of the page's clock, with its visitors. Gives the least that was held. */
async function hourOf(browser, hour, among) {
    const all = [];
    for (let visitor = 1; visitor <= VISITORS; visitor += 1) {
        const until = (hour + visitor / VISITORS) * 3_600_000;
        for (let left = PRESSED; left > 0; left -= 1) {
            await strike(browser, String(1 + among(4)));
            await browser.value(`new Promise((resolve) => setTimeout(resolve, ${1000 * among(20)}))`);
        }
        await browser.waitFor(`performance.now() >= ${until} && ${isIn("attract")}`, 600_000);
        all.push(await heldBy(browser));
    }
    return least(all);
}

async function day(browser, address) {
    if (browser.engine !== "Chromium") return "but not looked at, since this browser does not tell what it holds";
    const release = await browser.preload(`(${goesFaster})(${SPEED})`);
    try {
        await browser.open(`${address}?lang=en#kiosk`);
        await browser.value(`void ${COUNT_ROUNDS}`);
        const [among, hours] = [chance(24), []];
        for (let hour = 0; hour < HOURS; hour += 1) hours.push(await hourOf(browser, hour, among));
        const [[first], third] = [hours, Math.floor(HOURS / 3)];
        const told = ({ heap, nodes, listeners }) => `${heap.toFixed(1)} MB, ${nodes} nodes and ${listeners} listeners`;
        for (const [place, held] of hours.entries()) {
            const isFlat = Object.entries(MORE).every(([kind, more]) => held[kind] <= first[kind] + more);
            assert.ok(isFlat, `after hour ${place + 1} ${told(held)}, after the first ${told(first)}`);
        }
        const [before, after] = [least(hours.slice(-2 * third, -third)), least(hours.slice(-third))];
        assert.ok(after.heap <= (1 + SHARE) * before.heap, `in the last third ${told(after)}, before it ${told(before)}`);
        const rounds = await browser.value("rounds");
        assert.ok(rounds >= HOURS, `${rounds} rounds`);
        return `${HOURS} hours, ${rounds} rounds; after the first ${told(first)}, after the last ${told(hours.at(-1))}; the heap ${hours.map(({ heap }) => heap.toFixed(1)).join(" ")}`;
    } finally {
        await release();
        await browser.open(`${address}?lang=en&door=work`);
    }
}

/** The visit, by its name. */
export const visitsOfDay = (address) => ({ dayAtKiosk: (browser) => day(browser, address) });
