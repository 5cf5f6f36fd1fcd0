// The files of a class on a task of the page: the same is said of them as by ./check_task, and folders are read to their ends.
import assert from "node:assert/strict";
import { spawnSync } from "node:child_process";
import { copyFileSync, mkdirSync, mkdtempSync, readFileSync, readdirSync, rmSync } from "node:fs";
import { tmpdir } from "node:os";
import { join } from "node:path";
import { test } from "node:test";
import { fileURLToPath } from "node:url";
import { checkClass, dropped, textOf } from "../class_check.mjs";
import { ModuleLink } from "../module_link.mjs";
import { sentencesIn, taskIn } from "../task.mjs";

const top = fileURLToPath(new URL("../..", import.meta.url));
const stored = (name) => readFileSync(join(top, name), "utf8");
const KINDS = ["sum.source", "sum.wrong-1.source", "sum.wrong-2.source"];

test("what is said of thirty files is what ./check_task says", async () => {
    const folder = mkdtempSync(join(tmpdir(), "class-"));
    try {
        mkdirSync(join(folder, "class"));
        for (let pupil = 0; pupil < 30; pupil += 1) {
            copyFileSync(
                join(top, "teaching/tasks/solutions", KINDS[pupil % KINDS.length]),
                join(folder, `class/${String(pupil).padStart(2, "0")}.source`)
            );
        }
        const names = readdirSync(join(folder, "class")).sort().map((name) => `class/${name}`);
        const { stdout } = spawnSync(
            "node", [join(top, "page/check_task.mjs"), "--language", "de", "sum", ...names], { cwd: folder, encoding: "utf8" }
        );
        const files = names.map((name) => ({ name, file: new Blob([readFileSync(join(folder, name))]) }));
        const sentences = Object.assign({}, ...["en", "de"].map((code) => sentencesIn(stored(`teaching/tasks/language/${code}`))));
        const places = [];
        const link = new ModuleLink(join(top, "libraries/javascript/lgp_c_region.wasm"));
        const verdicts = await checkClass(link, files, {
            task: taskIn(stored("teaching/tasks/sum/task")), sentences, code: "de", told: (at) => places.push(at),
        });
        assert.equal(textOf(verdicts), stdout);
        assert.deepEqual([places.length, places.at(-1), verdicts.filter(({ isRight }) => isRight).length], [30, 30, 10]);
    } finally {
        rmSync(folder, { recursive: true });
    }
});

const fileEntry = (path) => (
    { name: path.split("/").at(-1), fullPath: path, isFile: true, isDirectory: false, file: (resolve) => resolve(path) }
);
const folderEntry = (path, parts) => (
    {
        name: path.slice(1),
        fullPath: path,
        isFile: false,
        isDirectory: true,
        createReader: () => ({ readEntries: (resolve) => resolve(parts.shift() ?? []) }),
    }
);

test("a folder is read to its end, in the order of names, without hidden files; files alone are themselves", async () => {
    const folder = folderEntry("/class", [[fileEntry("/class/b.source"), fileEntry("/class/.hidden")], [fileEntry("/class/a.source")]]);
    const { isFolder, files } = dropped({ items: [{ webkitGetAsEntry: () => folder }], files: [] });
    assert.deepEqual([isFolder, (await files).map(({ name }) => name)], [true, ["class/a.source", "class/b.source"]]);
    const plain = dropped({ items: [{}, { webkitGetAsEntry: () => null }], files: [{ name: "b" }, { name: "a" }] });
    assert.deepEqual([plain.isFolder, (await plain.files).map(({ name }) => name)], [false, ["a", "b"]]);
});
