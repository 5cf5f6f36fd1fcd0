// The check of a class, as teaching/tasks/README.md shows it for any system that has node.
import assert from "node:assert/strict";
import { spawnSync } from "node:child_process";
import { copyFileSync, mkdirSync, mkdtempSync, readFileSync, rmSync, symlinkSync } from "node:fs";
import { tmpdir } from "node:os";
import { join } from "node:path";
import { test } from "node:test";
import { fileURLToPath } from "node:url";

const top = fileURLToPath(new URL("../..", import.meta.url));
const FILES = 30;
const KINDS = ["sum.source", "sum.wrong-1.source"];

/** The lines by which a document shows the check of a class. */
const shown =
    (name) => [
        ...readFileSync(join(top, "teaching/tasks", name), "utf8").matchAll(/^ {4}((?:node page\/check_task\.mjs|\.\/check_task) .*)$/gm),
    ].map(([, line]) => line);

for (const name of ["README.md", "README.de.md"]) test(`thirty files are checked as ${name} shows`, () => {
    const folder = mkdtempSync(join(tmpdir(), "class-"));
    try {
        mkdirSync(join(folder, "class"));
        for (const part of ["page", "check_task"]) symlinkSync(join(top, part), join(folder, part));
        for (let pupil = 0; pupil < FILES; pupil += 1) {
            copyFileSync(
                join(top, "teaching/tasks/solutions", KINDS[pupil % KINDS.length]),
                join(folder, `class/${String(pupil).padStart(2, "0")}.source`)
            );
        }
        const lines = shown(name);
        assert.equal(lines.length, 2);
        const [first, second] = lines.map((line) => spawnSync("bash", ["-c", line], { cwd: folder, encoding: "utf8" }));
        assert.deepEqual([first.status, second.status, second.stdout], [1, 1, first.stdout]);
        const right = first.stdout.split("\n").filter((line) => / richtig\. Wortzeiten: [\d, ]+$/.test(line));
        const wrong = first.stdout.split("\n").filter((line) => /^class\/\d+\.source: noch nicht/.test(line));
        assert.deepEqual([right.length, wrong.length], [FILES / 2, FILES / 2]);
    } finally {
        rmSync(folder, { recursive: true });
    }
});
