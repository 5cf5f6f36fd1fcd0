// What page/make says where wasm-opt is not there.
import assert from "node:assert/strict";
import { spawnSync } from "node:child_process";
import { mkdtempSync, rmSync, symlinkSync, writeFileSync } from "node:fs";
import { tmpdir } from "node:os";
import { dirname, join } from "node:path";
import { test } from "node:test";
import { fileURLToPath } from "node:url";

const make = join(dirname(fileURLToPath(import.meta.url)), "../make");

test("without wasm-opt a line says which package has it", () => {
    const folder = mkdtempSync(join(tmpdir(), "make-"));
    try {
        for (const name of ["bash", "dirname"]) {
            symlinkSync(spawnSync("which", [name], { encoding: "utf8" }).stdout.trim(), join(folder, name));
        }
        writeFileSync(join(folder, "rt"), "", { mode: 0o755 });
        const { status, stderr } = spawnSync(join(folder, "bash"), [make], { encoding: "utf8", env: { PATH: folder } });
        assert.deepEqual([status, stderr], [70, "page/make: wasm-opt is not there (Debian package binaryen)\n"]);
    } finally {
        rmSync(folder, { recursive: true });
    }
});
