// The help and the versions of the programs, from the table help.txt, which tools/help makes of what the native programs write.
import { readFileSync } from "node:fs";

const CALL = "$ ";
const TOLD = "> ";
const VERSIONS = ["--version", "-V"];
const ASKING = ["--help", "-h", ...VERSIONS];

/** The calls of the table, and what is written for each. */
function recorded() {
    const calls = new Map();
    let lines = [];
    for (const line of readFileSync(new URL("help.txt", import.meta.url), "utf8").split("\n")) {
        if (line.startsWith(CALL)) calls.set(line.slice(CALL.length), (lines = []));
        else if (line.startsWith(TOLD)) lines.push(`${line.slice(TOLD.length)}\n`);
    }
    return new Map([...calls].map(([call, texts]) => [call, texts.join("")]));
}

/** The home page that the package names, on a line; nothing where it names none. */
function homeLine() {
    const { homepage } = JSON.parse(readFileSync(new URL("package.json", import.meta.url), "utf8"));
    return homepage === undefined ? "" : `${homepage}\n`;
}

/** What a program writes for words that ask for its help or its version; null for all others. */
export function helpFor(program, words) {
    const isLab = program === "lgp_lab";
    const [first = "", second] = words;
    const last = isLab && first === "help" ? "--help" : words.at(-1);
    if (!ASKING.includes(last)) return null;
    const command = !isLab || first.startsWith("-") ? undefined : first === "help" ? second : first;
    const text = recorded().get([program, command, last].filter((word) => word !== undefined).join(" ")) ?? null;
    return text !== null && VERSIONS.includes(last) ? text + homeLine() : text;
}
