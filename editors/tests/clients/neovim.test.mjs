// Neovim's own client with the language server.
import assert from "node:assert/strict";
import { spawnSync } from "node:child_process";
import { mkdtempSync, readFileSync, rmSync, writeFileSync } from "node:fs";
import { tmpdir } from "node:os";
import { join } from "node:path";
import { test } from "node:test";
import { fileURLToPath } from "node:url";

const editors = fileURLToPath(new URL("../..", import.meta.url));
const SOURCE = [
    "first   b tow", "        a three", "        h sum", "        z", "two     int 2 30", "three   int 3 30", "sum int 0 30",
    "        end first", "",
].join("\n");
const PLUGIN = `vim.opt.runtimepath:prepend(${JSON.stringify(join(editors, "vim"))})\nvim.cmd('filetype plugin on')\n`;

test("where the program is missing, that is said once", { skip: spawnSync("nvim", ["--version"]).status !== 0 }, () => {
    const folder = mkdtempSync(join(tmpdir(), "neovim-"));
    const [source, other, settings] = ["sum.source", "other.source", "settings.lua"].map((name) => join(folder, name));
    for (const name of [source, other]) writeFileSync(name, SOURCE);
    writeFileSync(
        settings,
        `${PLUGIN}require('lgp30').command = { 'lgp30-nowhere' }\n`
    );
    const { stderr } = spawnSync(
        "nvim", ["--headless", "-u", settings, "-i", "NONE", source, "-c", `edit ${other}`, "-c", "quitall!"],
        { env: { ...process.env, XDG_STATE_HOME: folder, XDG_CACHE_HOME: folder, XDG_DATA_HOME: folder } }
    );
    rmSync(folder, { recursive: true, force: true, maxRetries: 20, retryDelay: 100 });
    assert.equal(
        stderr.toString().match(/lgp30-nowhere is not found: put it into PATH, or set require\("lgp30"\)\.command/g)?.length, 1,
        stderr.toString()
    );
});

test("faults, hover, definition, completion, rename, columns and a sign that is put in", {
    skip: spawnSync("nvim", ["--version"]).status !== 0
}, () => {
    const folder = mkdtempSync(join(tmpdir(), "neovim-"));
    const [source, into, settings] = ["sum.source", "told", "settings.lua"].map((name) => join(folder, name));
    writeFileSync(source, SOURCE);
    writeFileSync(
        settings,
        `${PLUGIN}vim.keymap.set('n', 'gr', ':echo 1<CR>')\nrequire('lgp30').command = { 'node', ${JSON.stringify(join(editors, "lgp30-language-server.mjs"))} }\n`
    );
    const env = { ...process.env, NEOVIM_INTO: into, XDG_STATE_HOME: folder, XDG_CACHE_HOME: folder, XDG_DATA_HOME: folder };
    spawnSync(
        "nvim", ["--headless", "-u", settings, "-i", "NONE", source, "-c", `luafile ${join(editors, "tests/clients/neovim.lua")}`],
        { env, stdio: "ignore" }
    );
    const told = Object.fromEntries(readFileSync(into, "utf8").trim().split("\n").map((row) => JSON.parse(row)));
    rmSync(folder, { recursive: true, force: true, maxRetries: 20, retryDelay: 100 });
    assert.deepEqual([told.never, told.failed], [undefined, undefined]);
    assert.deepEqual(told.faults, [["UnknownName", 0, 10, 13, "no line has this label; perhaps two is meant"]]);
    assert.match(told.hover, /^\*\*b\*\* ttss, LABEL or \*\n\nbrings the word into the accumulator/);
    assert.deepEqual(told.definition, [6, 0]);
    const document = readFileSync(join(editors, "../docs/EDITORS.md"), "utf8");
    const [row] = document.match(/^`K` explains .*$/m);
    const named = Array.from(row.matchAll(/`([^`]+)`/g), ([, key]) => key);
    // a key that the user has stays as it is
    assert.deepEqual([...told.keys, "gr"].sort(), named.filter((key) => !["gq", "grr"].includes(key)).sort());
    assert.equal(told.own, ":echo 1<CR>");
    assert.deepEqual(told.gq, ["first   frac .5", "        a three", "        h sum"]);
    assert.equal(told.omnifunc, "v:lua.vim.lsp.omnifunc");
    assert.deepEqual(told.symbols, ["first", "two", "three", "sum"]);
    assert.deepEqual(told.completion.sort(), ["first", "sum", "three", "two"]);
    assert.equal(told.renamed, SOURCE.replace("tow", "pair").replace("two ", "pair ").trimEnd());
    assert.equal(told.formatted, told.renamed.replace("pair     int", "pair    int").replace("sum int", "sum     int"));
    assert.deepEqual(told.actions, ["Put in ."]);
    assert.equal(told.mended, "first   frac .5");
});
