// An exhibit without a browser, whose clock goes as fast as it is asked, and what its paper may say.
import { existsSync, readFileSync, readdirSync } from "node:fs";
import { dirname, join } from "node:path";
import { fileURLToPath } from "node:url";
import { Controller } from "../controller.mjs";
import { Drive } from "../drive.mjs";
import { Exhibit } from "../exhibit.mjs";
import { ModuleLink } from "../module_link.mjs";
import { Player } from "../player.mjs";
import { KIOSK_GAMES } from "../views/kiosk_game.mjs";

const top = join(dirname(fileURLToPath(import.meta.url)), "../..");
const module = join(top, "libraries/javascript/lgp_c_region.wasm");
/** Whether there is no module. */
export const skip = !existsSync(module);
/** The names of the examples. */
export const examples = readdirSync(join(top, "examples"), { recursive: true })
    .map(String)
    .filter((name) => name.endsWith(".txt"))
    .map((name) => name.slice(0, -".txt".length))
    .sort();
const [part, parts] = (process.env.PART ?? "1/1").split("/").map(Number);
/** Those of the part that PART names: 2/3 is the second of three parts of them. */
export const examplesOfPart = examples.filter((unused, place) => place % parts === part - 1);
const scriptOf = (name) => (examples.includes(name) ? readFileSync(join(top, `examples/${name}.txt`), "utf8") : undefined);

/** A moment, in which others go on. */
export const tick = () => new Promise((resolve) => { setImmediate(resolve); });

/** Numbers that look like chance, the same in each run. */
export function chance(seed) {
    let state = seed;
    return (below) => {
        state = (Math.imul(state, 1_664_525) + 1_013_904_223) >>> 0;
        return Math.floor((state / 2 ** 32) * below);
    };
}

/** An exhibit whose clock goes as fast as it is asked. */
export async function exhibited(name, isStill = false, more = {}) {
    const time = { now: 0 };
    const clocks = { now: () => time.now, sleep: async (milliseconds) => { time.now += milliseconds; await tick(); } };
    const laboratory = new Controller(new ModuleLink(module));
    await laboratory.open();
    const player = new Player();
    const drive = new Drive(laboratory, player, () => laboratory.run(), clocks);
    // an order takes as long as it is played, and is over at once
    drive.addEventListener("play", () => {
        const { account: { sum, act } } = player.at();
        time.now += (1000 * (sum - act + act / (act > 64 ? player.hurry ?? 1 : 1))) / (player.pace ?? 96);
        setImmediate(() => drive.played());
    });
    const exhibit = new Exhibit(laboratory, drive, name, { scriptOf, isStill: () => isStill, sleep: clocks.sleep, ...more });
    return { laboratory, drive, exhibit, time };
}

/** All that a program prints, as far as it prints without keys, and whether it has ended with that. */
export async function printedBy(name) {
    const { laboratory } = await exhibited(name);
    await laboratory.openForShow(name, scriptOf(name));
    await laboratory.command("press start");
    await laboratory.run(3_000_000);
    return { text: laboratory.printed.text, hasEnded: laboratory.way.kind !== "go" };
}

/** Whether a text is the paper of a game with matches up to here. */
function isPaperOfGame(text) {
    const lines = text.split("\n");
    let [left, isYours] = [21, true];
    for (const [place, line] of lines.entries()) {
        const who = isYours ? "you" : "i";
        const takes = [1, 2, 3].filter((count) => count <= left);
        const wanted = left === 0
            ? [`${isYours ? "i" : "you"} win`]
            : [...takes.map((count) => `${left}; ${who} take ${count}`), ...(isYours ? [`${left}; you take no`] : [])];
        if (place === lines.length - 1) return line === "" || wanted.some((it) => it.startsWith(line));
        if (!wanted.includes(line)) return false;
        const taken = Number(/take (\d)$/.exec(line)?.[1] ?? 0);
        if (taken > 0) [left, isYours] = [left - taken, !isYours];
    }
    return true;
}

/** What checks the paper of an example. */
export async function checkOf(name) {
    if (KIOSK_GAMES.has(name)) return isPaperOfGame;
    const { text, hasEnded } = await printedBy(name);
    return (paper) => text.startsWith(paper) || (!hasEnded && paper.startsWith(text));
}
