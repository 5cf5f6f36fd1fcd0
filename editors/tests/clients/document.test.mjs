// What docs/EDITORS.md shows: the settings for nvim-dap, a launch, and the line for Pygments. The pictures have its settings for Neovim and
// Emacs.
import assert from "node:assert/strict";
import { execFileSync, spawnSync } from "node:child_process";
import { mkdtempSync, readFileSync, rmSync, writeFileSync } from "node:fs";
import { tmpdir } from "node:os";
import { join } from "node:path";
import { test } from "node:test";
import { fileURLToPath } from "node:url";
import { Client } from "../client.mjs";

const editors = fileURLToPath(new URL("../..", import.meta.url));
const document = readFileSync(join(editors, "../docs/EDITORS.md"), "utf8");
const manifest = JSON.parse(readFileSync(join(editors, "vscode/package.json"), "utf8"));
const launched = manifest.contributes.debuggers[0].configurationAttributes.launch.properties;
const OWN = ["type", "request", "name"];

/** The block that has a sign. */
const blockWith = (sign) => document.match(/(?:^ {4}.*\n)+/gm).find((block) => block.includes(sign));

test("the launch has every field that the package for VS Code knows, and the adapter takes it", async () => {
    const launch = JSON.parse(blockWith('"request": "launch"'));
    assert.deepEqual(Object.keys(launch).sort(), [...OWN, ...Object.keys(launched)].sort());
    const client = new Client({ "${file}": "first z\n end first\n", "numbers.txt": "12'\n" });
    await client.asks("initialize");
    await client.asks("launch", launch);
});

test("each condition that is shown is one, and holds where the program is so", async () => {
    const lines = [
        "start   b sum", "        a five", "        h sum", "        z", "five    int 5 30", "half    frac .125", "sum     int 0 30",
        "table   b 0300",
        "        org 0013", "loop    z", "        org 0050", "        int -4 30", "        end start", "",
    ];
    const client = new Client({ "/shown": lines.join("\n") });
    await client.launched({ program: "/shown", stopOnEntry: true });
    await client.event("stopped");
    const [, table] = /\| condition \| holds if \|\n\|---\|---\|\n((?:\|.*\n)+)/.exec(document);
    const shown = table.trimEnd().split("\n").flatMap((row) => Array.from(row.split("|")[1].matchAll(/`([^`]+)`/g), ([, text]) => text));
    assert.equal(shown.length, 10);
    // after three orders all of them hold but two: the sum has these digits, and the counter is not at loop
    const holds = [];
    for (const condition of shown) {
        await client.asks("restart", { arguments: { program: "/shown", stopOnEntry: true } });
        await client.event("stopped");
        const { breakpoints: [point] } = await client.asks(
            "setBreakpoints", { source: { path: "/shown" }, breakpoints: [{ line: 4, condition }] }
        );
        assert.equal(point.verified, true, point.message);
        await client.asks("continue");
        if ((await client.event("stopped")).reason === "breakpoint") holds.push(condition);
    }
    assert.deepEqual(shown.filter((condition) => !holds.includes(condition)), ["sum != 0000000f", "@counter == loop"]);
});

test("the stop that is shown is described so", async () => {
    const client = new Client({ "/shown": "start u loop\n org 0013\nloop z\n end start\n" });
    await client.launched({ program: "/shown" }, [{ line: 3 }]);
    const { description } = await client.event("stopped");
    assert.ok(document.includes(`such as "${description}"`), description);
});

test("of vscode.dev is said what is so, and of the programs what they know themselves", () => {
    assert.match(document, /vscode\.dev has no "Install from VSIX"/);
    assert.doesNotMatch(document, /contain no rules/);
    const [, known] = /^## What they know themselves\n\n([^]*?)\n## /m.exec(document);
    for (const rule of ["`ttss`", "digits of base 16", "blanks", "carriage return", "switches", "overflow", "prints a code", "sets a register", "columns"]) {
        assert.ok(known.includes(rule), rule);
    }
});

test("the settings for nvim-dap name the program and a launch", { skip: spawnSync("nvim", ["--version"]).status !== 0 }, () => {
    const folder = mkdtempSync(join(tmpdir(), "document-"));
    const script = join(folder, "dap.lua");
    writeFileSync(
        script,
        `local dap = { adapters = {}, configurations = {} }\npackage.preload['dap'] = function() return dap end\n${blockWith("require('dap')")}\nio.stdout:write(vim.fn.json_encode(require('dap')))\n`
    );
    const told = JSON.parse(execFileSync(
        "nvim", ["--headless", "-u", "NONE", "-i", "NONE", "-c", `luafile ${script}`, "-c", "quitall!"]
    ).toString());
    rmSync(folder, { recursive: true });
    assert.deepEqual(told.adapters.lgp30, { type: "executable", command: "lgp30-debug-adapter" });
    for (const key of Object.keys(told.configurations.lgp30[0])) assert.ok([...OWN, ...Object.keys(launched)].includes(key), key);
});

test("the line for Pygments colours a source", { skip: spawnSync("/usr/bin/pygmentize", ["-V"]).status !== 0 }, () => {
    const folder = mkdtempSync(join(tmpdir(), "document-"));
    writeFileSync(join(folder, "sum.source"), "first b two ; bring\n");
    const [program, ...words] = /`(pygmentize [^`]*)`/.exec(document)[1].replace("lgp30.py", join(editors, "pygments/lgp30.py")).split(" ");
    const { status, stdout } = spawnSync(
        `/usr/bin/${program}`, [...words, "-f", "tokens"], { cwd: folder, env: { ...process.env, PYTHONDONTWRITEBYTECODE: "1" } }
    );
    rmSync(folder, { recursive: true });
    assert.equal(status, 0);
    assert.match(stdout.toString(), /Token\.Name\.Function\t'first'/);
});
