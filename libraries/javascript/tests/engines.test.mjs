// The native program that a terminal's front drives, here a stand-in for it: it ends with the front, however that ends.
import assert from "node:assert/strict";
import { spawn } from "node:child_process";
import { mkdtempSync, rmSync, writeFileSync } from "node:fs";
import { tmpdir } from "node:os";
import { join } from "node:path";
import { test } from "node:test";

const engines = new URL("../engines.mjs", import.meta.url).href;
/** Answers a line with an object, and never one that begins with profile. Its first line is its number. */
const STAND_IN = `#!/usr/bin/env node
process.stdin.setEncoding("utf8").on("data", (text) => {
    for (const line of text.split("\\n").slice(0, -1)) {
        while (line.startsWith("profile"));
        console.log(JSON.stringify({ line, reply: [String(process.pid)], refused: false }));
    }
}).on("end", () => process.exit());
`;
const FRONT = `import { ProgramEngine } from ${JSON.stringify(engines)};
const engine = new ProgramEngine(process.argv[1]);
console.log((await engine.type("pid")).trim());
process.stdin.once("data", () => engine.close());
if (process.argv[2] === "busy") await engine.type("profile 9999999999");
`;

const isAlive = (pid) => {
    try {
        return process.kill(pid, 0);
    } catch {
        return false;
    }
};

/** Whether a process ends within some seconds. */
async function ends(pid, seconds = 10) {
    for (let tries = 0; tries < 20 * seconds && isAlive(pid); tries += 1) await new Promise((resolve) => setTimeout(resolve, 50));
    return !isAlive(pid);
}

for (const [name, end] of [
    ["killed within a long line", (front) => front.kill("SIGKILL")],
    ["ended within a long line", (front) => front.kill("SIGTERM")],
    ["left", (front) => front.stdin.write("\n")],
]) {
    test(`the program ends where its front is ${name}`, async () => {
        const folder = mkdtempSync(join(tmpdir(), "engine-"));
        const program = join(folder, "stand-in");
        writeFileSync(program, STAND_IN, { mode: 0o755 });
        const front = spawn(
            "node", ["--input-type=module", "-e", FRONT, program, name === "left" ? "" : "busy"], { stdio: ["pipe", "pipe", "inherit"] }
        );
        const pid = Number(await new Promise((resolve) => front.stdout.once("data", resolve)));
        try {
            assert.ok(isAlive(pid));
            // the front has typed the long line
            await new Promise((resolve) => setTimeout(resolve, 500));
            end(front);
            assert.ok(await ends(pid), "the program goes on");
        } finally {
            if (isAlive(pid)) process.kill(pid, "SIGKILL");
            front.kill("SIGKILL");
            rmSync(folder, { recursive: true });
        }
    });
}
