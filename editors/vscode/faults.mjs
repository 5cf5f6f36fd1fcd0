#!/usr/bin/env node
// @ts-check
// Writes what the monitor says of each kind of fault, a paragraph each, to which faults in the editor are linked.
import { bytes } from "../module.mjs";
import { Laboratory } from "../language/laboratory.mjs";
import { Session } from "../../libraries/javascript/session.mjs";

const TOO_LONG = "## TooLong\n\nA source may have at most 1048576 bytes, and a line at most 4096.\n";
const laboratory = new Laboratory(() => new Session(bytes));
const code = (text) => text.split("/").map((line) => `    ${line}\n`).join("");
const paragraphs = [...laboratory.faults].map(([kind, record]) => {
    const example = record.has("example")
        ? `\n${code(record.get("example"))}\nRight is, for example:\n\n${code(record.get("mended"))}`
        : "";
    return `## ${kind}\n\nWhat is wrong: ${record.get("wrong")}. What would be right: ${record.get("right")}.\n${example}`;
});
process.stdout.write(
    `# Faults in sources of the LGP-30\n\n${paragraphs.join("\n")}\n${TOO_LONG}`
);
