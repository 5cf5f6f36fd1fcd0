// How long it takes to ask about a moment of a long session: after 100 million orders of a loop, about the first order, about the one in
// the middle, one order back, and to go to the last change of a word that was written at the beginning, by the monitor and by the debug
// adapter; and after a million presses, about the order before them. With the module in node, and with the proved program where it
// is built.
//
//     node tools/bench/moments.mjs [MILLIONS OF ORDERS]
//
// Times on the wall vary: other work on the machine makes them longer. No part of the check.
import { existsSync, readFileSync } from "node:fs";
import { fileURLToPath } from "node:url";
import { Past } from "../../editors/debug/past.mjs";
import { ModuleEngine, ProgramEngine } from "../../libraries/javascript/engines.mjs";
import { linesIn } from "../../libraries/javascript/lines.mjs";
import { REGION, Session, compiled } from "../../libraries/javascript/session.mjs";

const orders = Number(process.argv[2] ?? 100) * 1_000_000;
const PRESSES = 1_000_000;
const pathOf = (name) => fileURLToPath(new URL(`../../${name}`, import.meta.url));
const module = compiled(readFileSync(pathOf("libraries/javascript/lgp_c_region.wasm")));
/** With room for a long transcript. */
const openSession = () => new Session(module, 4 * REGION);
const program = pathOf("crates/lgp30m/out/lgp30m");
/** A word is written once, by the second order; after it a loop counts. */
const LOOP = [
    "put 0000 b 0051", "put 0001 h 0052", "put 0002 b 0050", "put 0003 a 0051", "put 0004 h 0050", "put 0005 u 0002", "put 0051 = 1",
    "press start",
];

async function seconds(work) {
    const begun = performance.now();
    await work();
    return ((performance.now() - begun) / 1000).toFixed(2);
}

async function typed(engine, lines) {
    for (const line of lines) {
        const reply = await engine.type(line);
        if (/^\?/m.test(reply)) throw new Error(`${line}: ${reply}`);
    }
}

/** What each question about a long run takes in an engine. */
async function ofRun(engine) {
    await typed(engine, [...LOOP, `run ${orders}`]);
    const asked = [
        ["the first order", "at 0 panel-data"], ["the middle", `at ${orders / 2} panel-data`], ["one order back", "back 1"],
        ["to the last change", "to last changed 0052"],
    ];
    const told = [];
    for (const [what, line] of asked) told.push([what, await seconds(() => typed(engine, [line]))]);
    await engine.close();
    return told;
}

/** What the last change of the word takes, for which the machine runs forward with a rule and then again up to there. */
const ofChange = () => seconds(async () => {
    const past = new Past(openSession, async () => {});
    await past.follow(linesIn([...LOOP, `run ${orders}`].join("\n")), LOOP.length);
    const [found] = await past.stops([{ kind: "watch", address: "0052" }]);
    if (found !== 2) throw new Error(`it was found after ${found} orders`);
    await past.openedAfter(found);
});

/** What the first order takes after very many presses. */
async function ofPresses(engine) {
    await typed(engine, [...LOOP, "run 1"]);
    for (let press = 0; press < PRESSES; press += 1) await engine.type(press % 2 === 0 ? "press bp4 down" : "press bp4 up");
    await typed(engine, ["run 1"]);
    const told = await seconds(() => typed(engine, ["at 1 panel-data"]));
    await engine.close();
    return told;
}

const engines = [["the module in node", () => new ModuleEngine(openSession())]];
if (existsSync(program)) engines.push(["the program", async () => {
    const engine = new ProgramEngine(program);
    await engine.begin();
    return engine;
}]);
for (const [name, open] of engines) {
    for (const [what, took] of await ofRun(await open())) console.log(`${name}: ${what} of ${orders} orders: ${took} s`);
    console.log(`${name}: the order after ${PRESSES} presses: ${await ofPresses(await open())} s`);
}
console.log(`the debug adapter: the last change of a word, before ${orders} orders: ${await ofChange()} s`);
