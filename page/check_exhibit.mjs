// Checks an exhibit of the kiosk: its form, and then each scene that its buttons lead to, which is played by the module. docs/EXHIBITS.md
// explains the file.
//
//     node page/check_exhibit.mjs [--address] FILE..
//
// With --address it writes what comes after the name of the page to open the exhibit there. Statuses: 0 where all files are right, 1 where
// one is not, 64 where the words are wrong.
import { existsSync, readFileSync } from "node:fs";
import { dirname, join } from "node:path";
import { fileURLToPath } from "node:url";
import { scriptsBelow } from "./documents.mjs";
import { played } from "./exhibit_trial.mjs";
import { exhibitIn } from "./exhibits.mjs";

const [WRONG, WRONG_WORDS] = [1, 64];
const USAGE = "node page/check_exhibit.mjs [--address] FILE..";
const page = dirname(fileURLToPath(import.meta.url));

/** The sentences for a file: what is wrong, or what is right and what did not come about. */
async function checked(file, examples) {
    if (!existsSync(file)) return { wrong: ["There is no such file."], right: [] };
    const { exhibit, wrong } = exhibitIn(readFileSync(file, "utf8"), (name) => examples.has(name));
    if (wrong !== null) return { wrong: [wrong], right: [] };
    const trial = await played(exhibit, {
        module: join(page, "../libraries/javascript/lgp_c_region.wasm"), scriptOf: (name) => examples.get(name),
    });
    return { wrong: trial.wrong, right: [`right, ${trial.scenes} scenes played`, ...trial.remarks], exhibit };
}

const words = process.argv.slice(2);
const [files, isAddress] = [words.filter((word) => word !== "--address"), words.includes("--address")];
if (files.length === 0 || files.some((word) => word.startsWith("-"))) {
    console[files.includes("--help") ? "log" : "error"](USAGE);
    process.exitCode = files.includes("--help") ? 0 : WRONG_WORDS;
} else {
    const examples = new Map(scriptsBelow(join(page, "../examples")));
    for (const file of files) {
        const { wrong, right, exhibit } = await checked(file, examples);
        for (const sentence of wrong) console.error(`${file}: ${sentence}`);
        if (wrong.length > 0) process.exitCode = WRONG;
        else for (const sentence of right) console.log(`${file}: ${sentence}`);
        if (wrong.length === 0 && isAddress) console.log(`#exhibit=${encodeURIComponent(JSON.stringify(exhibit))}`);
    }
}
