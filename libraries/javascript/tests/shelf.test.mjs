// What a session is kept by, and which of those in a folder are offered.
import assert from "node:assert/strict";
import { mkdirSync, mkdtempSync, readFileSync, readdirSync, rmSync, writeFileSync } from "node:fs";
import { tmpdir } from "node:os";
import { join } from "node:path";
import { test } from "node:test";
import { isKeptElsewhere, newName, startOf } from "../keepers.mjs";
import { Shelf } from "../shelf.mjs";

/** A test with a folder of its own. */
function inFolder(name, body) {
    test(name, () => {
        const folder = mkdtempSync(join(tmpdir(), "shelf-"));
        try {
            body(folder);
        } finally {
            rmSync(folder, { recursive: true });
        }
    });
}

const kept = (folder, part = "sessions") => (
    readdirSync(join(folder, part)).sort().map((name) => readFileSync(join(folder, part, name), "utf8"))
);

test("a process is known by its number and its start", () => {
    const parent = `${startOf(process.ppid)}-${process.ppid}`;
    assert.equal(isKeptElsewhere(`20260101T000000000Z-${parent}-0`), true);
    assert.equal(isKeptElsewhere(`20260101T000000000Z-none-${process.ppid}-0`), false);
    assert.equal(isKeptElsewhere(`20260101T000000-${process.ppid}-0`), false);
    assert.equal(isKeptElsewhere(newName()), false);
});

inFolder("lines are kept as they come, and a transcript takes their place", (folder) => {
    const shelf = new Shelf(folder);
    shelf.keepTyped("turn 5");
    shelf.keepTyped("source", " z", ".");
    assert.deepEqual(kept(folder), ["turn 5\nsource\n z\n.\n"]);
    shelf.keepSession("turn 5\nsource\n z\n.\nturn 6\n");
    assert.deepEqual(kept(folder), ["turn 5\nsource\n z\n.\nturn 6\n"]);
    shelf.keepSession("turn 7\n");
    shelf.keepTyped("turn 8");
    assert.deepEqual(kept(folder), ["turn 7\nturn 8\n"]);
    shelf.putSessionAway();
    shelf.keepTyped("turn 9");
    assert.deepEqual(kept(folder), ["turn 7\nturn 8\n", "turn 9\n"]);
    assert.deepEqual(shelf.lastSession().lines, ["turn 7", "turn 8"]);
});

inFolder("a source that is left is no open one, and one that is dropped is gone", (folder) => {
    const shelf = new Shelf(folder);
    shelf.keepSource([" z"]);
    assert.equal(readFileSync(shelf.leaveSource(), "utf8"), " z\n");
    assert.equal(shelf.leaveSource(), null);
    shelf.keepSource([" u 0000"]);
    shelf.dropSource();
    assert.deepEqual(kept(folder, "sources"), [" z\n"]);
    shelf.putSessionAway();
    assert.deepEqual(shelf.sessions(), []);
    shelf.keepSource([" b 0000"]);
    shelf.putSessionAway();
    assert.deepEqual(shelf.lastSession().source.lines, [" b 0000"]);
});

inFolder("a trouble is told once, also where it comes in the middle, and its end too", (folder) => {
    const shelf = new Shelf(folder);
    shelf.keepTyped("turn 1");
    const [name] = readdirSync(join(folder, "sessions"));
    rmSync(join(folder, "sessions", name));
    mkdirSync(join(folder, "sessions", name));
    shelf.keepTyped("turn 2");
    shelf.keepLine("turn 2");
    assert.match(
        shelf.takeNews().join("\n"),
        /^this session is not kept any more, in [^\n]*: a folder is in the place of a file; it is tried again with each line$/
    );
    shelf.keepTyped("turn 3");
    assert.deepEqual(shelf.takeNews(), []);
    assert.match(shelf.trouble, /a folder is in the place of a file$/);
    rmSync(join(folder, "sessions", name), { recursive: true });
    shelf.keepTyped("turn 4");
    assert.deepEqual(shelf.takeNews(), ["this session is kept again"]);
    assert.equal(shelf.trouble, null);
    assert.deepEqual(kept(folder), ["turn 1\nturn 2\nturn 3\nturn 4\n"]);
});

inFolder("twenty sessions are kept, the newest", (folder) => {
    mkdirSync(join(folder, "sessions"));
    for (let number = 10; number < 40; number++) writeFileSync(join(folder, "sessions", `202601${number}T000000-1-0`), `turn ${number}\n`);
    const shelf = new Shelf(folder);
    shelf.keepTyped("turn 99");
    assert.deepEqual(shelf.sessions().map(({ lines: [line] }) => line), Array.from({ length: 20 }, (_, at) => `turn ${39 - at}`));
});
