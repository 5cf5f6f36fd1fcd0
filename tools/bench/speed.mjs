// How many orders a second: of the proved program, where ./prove has made it; of sessions in node, with the module as the proofs leave it
// and
// with the lowered one; and of the page, in each engine.
//
//     node tools/bench/speed.mjs [--write] [MILLIONS OF ORDERS, 100 where none is said]
//
// With --write the numbers become the rows of the table of docs/DEVELOPMENT.md that has them, with what they are of the program's.
// Each but the page is the best of three runs. Times on the wall vary: other work on the machine makes them longer. No part of the check.
import { spawnSync } from "node:child_process";
import { existsSync, readFileSync, writeFileSync } from "node:fs";
import { dirname, join } from "node:path";
import { fileURLToPath } from "node:url";
import { Session, compiled } from "../../libraries/javascript/session.mjs";
import "./wide_memory.mjs";

const top = join(dirname(fileURLToPath(import.meta.url)), "../..");
const program = join(top, "crates/lgp30/out/lgp30");
const modules = {
    "node, the module as the proofs leave it": join(top, "page/lgp_c_region64.wasm"),
    "node, the lowered module": join(top, "libraries/javascript/lgp_c_region.wasm"),
};
const TURNS = 3;
const FLAG = "--experimental-wasm-memory64"; // node 20 has memory64 by this flag, which later ones lack

/** The loop of four orders that counts up, of loops.sh, and its start. */
const [, words] = /small='([^']*)'/.exec(readFileSync(join(top, "tools/bench/loops.sh"), "utf8"));
const loop = [...words.split("\n").map((word) => `put ${word}`), "press start"];

/** How long a deed takes, in seconds. */
function seconds(deed) {
    const began = performance.now();
    deed();
    return (performance.now() - began) / 1000;
}

/** Tells of the best of some turns, and answers the orders a second. */
function told(name, orders, deed) {
    const best = Math.min(...Array.from({ length: TURNS }, deed));
    console.log(`${name}: ${millions(orders / best)} million orders a second`);
    return orders / best;
}

const millions = (speed) => (speed / 1e6).toFixed(1);

/** The seconds of a session for its orders alone, asked of a process of its own. */
function sessionSeconds(path, orders) {
    const knows = spawnSync(process.execPath, [FLAG, "-e", "0"]).status === 0;
    const words = [...(knows ? [FLAG] : []), "--no-warnings", fileURLToPath(import.meta.url), "session", path, String(orders)];
    return Number(spawnSync(process.execPath, words, { encoding: "utf8" }).stdout);
}

function runSession(path, orders) {
    const session = new Session(compiled(readFileSync(path)));
    for (const line of [...loop, "run 1000000"]) session.answer(line);
    console.log(seconds(() => session.answer(`run ${orders}`)));
}

/** The page's orders a second in an engine, as its visit tells them; NaN where it does not. */
function pageSpeed(engine) {
    const env = { ...process.env, ENGINE: engine, VISITS: "longRun", LEAST_SPEED: "0" };
    const { stdout } = spawnSync(
        process.execPath, [join(top, "page/tests/visit.mjs"), join(top, "page/laboratory.html")], { env, encoding: "utf8" }
    );
    const [, speed] = /^longRun: well, (\d+)/m.exec(stdout) ?? [];
    console.log(`the page in ${engine}: ${speed === undefined ? stdout.trim() : `${millions(Number(speed))} million orders a second`}`);
    return Number(speed);
}

/** The speeds by name, the program's first. */
function speeds(orders) {
    const input = (line) => [...loop, line, ""].join("\n");
    const asked = (line) => seconds(() => spawnSync(program, { input: input(line) }));
    const found = [];
    if (existsSync(program)) found.push(["the program", told("the program", orders, () => asked(`run ${orders}`) - asked("run 1"))]);
    for (const [name, path] of Object.entries(modules)) {
        if (existsSync(path)) found.push([name, told(name, orders, () => sessionSeconds(path, orders))]);
    }
    for (const engine of ["chromium", "firefox", "webkit"]) found.push([`the page in ${engine}`, pageSpeed(engine)]);
    return found;
}

/** The table of the document, by its heading. */
function write(found) {
    const path = join(top, "docs/DEVELOPMENT.md");
    const heading = "| | million orders a second | of the program's |\n|---|---|---|\n";
    const [, whole] = found[0];
    const rows = found.map(([name, speed]) => `| ${name} | ${millions(speed)} | ${(speed / whole).toFixed(2)} |\n`);
    const [before, after] = readFileSync(path, "utf8").split(heading);
    if (after === undefined) throw new Error("docs/DEVELOPMENT.md has no table of orders a second");
    writeFileSync(path, `${before}${heading}${rows.join("")}${after.replace(/^(\|.*\n)*/, "")}`);
}

function main(words) {
    const found = speeds(1e6 * Number(words.find((word) => word !== "--write") ?? 100));
    if (words.includes("--write")) write(found);
}

if (process.argv[2] === "session") runSession(process.argv[3], Number(process.argv[4]));
else main(process.argv.slice(2));
