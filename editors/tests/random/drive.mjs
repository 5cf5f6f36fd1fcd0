#!/usr/bin/env node
// Drives both programs for editors at random, each round from a number of its own, and says what was counted.
//
//     node editors/tests/random/drive.mjs                       a minute, from a seed that is told
//     node editors/tests/random/drive.mjs --seconds 3600        an hour
//     node editors/tests/random/drive.mjs --seed 17 --rounds 1 language     one round of one program again, as a difference names it
//     --program PATH       compares with this lgp_lab, and not with the module in this process
import { Chance, Difference } from "./chance.mjs";
import * as debuggers from "./debugger.mjs";
import * as languages from "./language.mjs";

const DRIVERS = { language: languages, debugger: debuggers };
const { values, names } = read(process.argv.slice(2));

/** The options with a value after each, and the names of drivers. */
function read(words) {
    const found = { values: { seconds: "60", rounds: "Infinity", seed: String(Date.now() % 1_000_000), program: null }, names: [] };
    for (let at = 0; at < words.length; at += 1) {
        const option = words[at].replace(/^--/, "");
        if (words[at].startsWith("--") && option in found.values && words[at + 1] !== undefined) found.values[option] = words[++at];
        else if (words[at] in DRIVERS) found.names.push(words[at]);
        else {
            console.error(
                `drive.mjs: ${words[at]} is neither --seconds, --rounds, --seed or --program with a value, nor language or debugger`
            );
            process.exit(64);
        }
    }
    return found;
}

const chosen = names.length > 0 ? names : Object.keys(DRIVERS);
for (const name of chosen) {
    const counts = new Map();
    const until = performance.now() + (1000 * Number(values.seconds)) / chosen.length;
    let rounds = 0;
    for (let seed = Number(values.seed); performance.now() < until && rounds < Number(values.rounds); seed += 1, rounds += 1) {
        try {
            await new DRIVERS[name].Round(new Chance(seed), counts, { program: values.program }).play();
        } catch (difference) {
            console.error(
                `drive.mjs: ${name}, --seed ${seed} --rounds 1: ${difference instanceof Difference ? difference.message : difference.stack}`
            );
            process.exitCode = 1;
        }
    }
    const counted = [...counts].map(([what, number]) => `${what} ${number}`).join(", ");
    console.log(
        `${name}: seeds ${values.seed} to ${Number(values.seed) + rounds - 1}; ${counted}`
    );
}
