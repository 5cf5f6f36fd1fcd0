// Emacs with eglot and the language server, and with dap-mode and the debug adapter.
import assert from "node:assert/strict";
import { spawnSync } from "node:child_process";
import { copyFileSync, existsSync, mkdtempSync, readFileSync, rmSync, writeFileSync } from "node:fs";
import { tmpdir } from "node:os";
import { join } from "node:path";
import { test } from "node:test";
import { fileURLToPath } from "node:url";

const editors = fileURLToPath(new URL("../..", import.meta.url));
const SOURCE = [
    "first   b tow", "        a three", "        h sum", "        z", "two     int 2 30", "three   int 3 30", "sum int 0 30",
    "        end first", "",
].join("\n");
const hasEmacs = spawnSync("emacs", ["--version"]).status === 0;
const hasPackage = (name) => hasEmacs && existsSync(`/usr/share/emacs/site-lisp/elpa-src`) && spawnSync(
    "emacs", ["--batch", "-f", "package-initialize", "--eval", `(kill-emacs (if (locate-library "${name}") 0 1))`]
).status === 0;

/** What a script of Emacs has told of a source, with a server. */
function toldBy(script, server, text) {
    const folder = mkdtempSync(join(tmpdir(), "emacs-"));
    const [source, into] = ["sum.source", "told"].map((name) => join(folder, name));
    writeFileSync(source, text);
    const document = readFileSync(join(editors, "../docs/EDITORS.md"), "utf8");
    const settings = document.match(/(?:^ {4}.*\n)+/gm).find((block) => block.includes("dap-ui-mode"));
    const env = {
        ...process.env, EMACS_SETTINGS: settings, HOME: folder, XDG_STATE_HOME: folder, EMACS_SOURCE: source, EMACS_INTO: into,
        EMACS_SERVER: join(editors, server),
    };
    const { stderr } = spawnSync("emacs", ["--batch", "-L", join(editors, "emacs"), "-l", join(editors, "tests/clients", script)], { env });
    assert.ok(existsSync(into), stderr.toString());
    const told = Object.fromEntries(readFileSync(into, "utf8").trim().split("\n").map((row) => JSON.parse(row)));
    rmSync(folder, { recursive: true, force: true, maxRetries: 20, retryDelay: 100 });
    assert.deepEqual([told.never, told.failed], [undefined, undefined], stderr.toString());
    return told;
}

test("eglot: faults, hover, definition, rename, columns and a sign that is put in", { skip: !hasPackage("eglot") }, () => {
    const told = toldBy("eglot.el", "lgp30-language-server.mjs", SOURCE);
    assert.deepEqual(told.faults, [[1, "tow", "lgp30 [UnknownName]: no line has this label; perhaps two is meant"]]);
    assert.match(told.hover, /^\*\*three\*\*, line 6: `three   int 3 30`/);
    assert.equal(told.definition, 6);
    assert.deepEqual(told.symbols, ["first", "two", "three", "sum"]);
    assert.equal(told.renamed, SOURCE.replace("tow", "pair").replace("two ", "pair "));
    assert.equal(told.formatted, told.renamed.replace("pair     int", "pair    int").replace("sum int", "sum     int"));
    assert.deepEqual(told.actions, ["Put in ."]);
    assert.equal(told.mended, "first   frac .5");
});

test("dap-mode: a breakpoint, an order, the end, and the way back", { skip: !hasPackage("dap-mode") }, () => {
    const told = toldBy("dap.el", "lgp30-debug-adapter.mjs", SOURCE.replace("tow", "two"));
    assert.deepEqual(told.keys, ["lgp-step-back", "lgp-reverse-continue"]);
    assert.deepEqual([told.entry, told.breakpoint, told.next, told.end, told["step back"], told["reverse continue"], told.console], [
        "0000  first  b 0004", "0002  h 0006", "0003  z 0000", "0004  two  z 0001", "0003  z 0000", "0002  h 0006", "0004 00000004"]);
    // the line where the machine is, and the breakpoint
    assert.deepEqual(told.marked, [1, 3]);
    assert.match(told.clock, /\d+\n$/);
    assert.deepEqual(told.scopes, ["Registers", "Switches", "Tape", "Labels", "Kept steps"]);
});

test("lsp-mode knows the language server", { skip: !hasPackage("lsp-mode") }, () => {
    const told = toldBy("lsp.el", "lgp30-language-server.mjs", SOURCE);
    assert.equal(told.language, "lgp30");
    assert.deepEqual(told.faults, ["no line has this label; perhaps two is meant"]);
    assert.match(told.hover, /^\*\*three\*\*, line 6/);
});

test("where a program is missing, that is said once", { skip: !hasEmacs }, () => {
    const { stderr } = spawnSync(
        "emacs",
        [
            "--batch", "-L", join(editors, "emacs"), "-l", "lgp-mode", "--eval",
            '(dotimes (_ 2) (with-temp-buffer (let ((lgp-language-server (list "lgp30-nowhere"))) (lgp-mode))))',
        ]
    );
    assert.deepEqual(
        stderr.toString().match(/lgp30-nowhere is not found: put it into PATH, or customize the group lgp/g)?.length, 1, stderr.toString()
    );
});

test("lgp-mode is compiled without a warning", { skip: !hasEmacs }, () => {
    const folder = mkdtempSync(join(tmpdir(), "emacs-"));
    copyFileSync(join(editors, "emacs/lgp-mode.el"), join(folder, "lgp-mode.el"));
    const { status, stderr } = spawnSync(
        "emacs", ["--batch", "--eval", "(setq byte-compile-error-on-warn t)", "-f", "batch-byte-compile", join(folder, "lgp-mode.el")]
    );
    rmSync(folder, { recursive: true, force: true, maxRetries: 20, retryDelay: 100 });
    assert.equal(status, 0, stderr.toString());
});
