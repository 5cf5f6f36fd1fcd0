// Files and links, and lines that come back, without a browser.
import assert from "node:assert/strict";
import { mkdtempSync, rmSync, writeFileSync } from "node:fs";
import { tmpdir } from "node:os";
import { join } from "node:path";
import { test } from "node:test";
import { isOfSimh, linkOf, scriptOfSimh, unopened } from "../files.mjs";
import { LineHistory } from "../line_history.mjs";
import { pasted } from "../lines.mjs";
import { Desk } from "../../libraries/javascript/node_desk.mjs";
import { askedIn } from "../opening.mjs";

test("a file that is no script is named, before anything is done", () => {
    const knows = (command) => ["put", "run"].includes(command);
    assert.equal(unopened("; a comment\n\nput 0000 b 0001\n", knows), null);
    assert.equal(unopened("; comments alone\n", knows), null);
    assert.deepEqual(
        ["start b one\n", "\0\x01", "\ufffd", "x".repeat(3_000_001)].map((text) => unopened(text, knows)),
        ["fileNoScript", "fileNoText", "fileNoText", "fileTooLong"]
    );
});

test("a drum of SIMH's is opened as the words that it has, in both of its forms; another line is named", () => {
    assert.deepEqual(scriptOfSimh("d -lt 0150 89fgjkqq\nd -lt 0163 0000000F\n"), { script: "put 0150 89fgjkqq\nput 0163 0000000f\n" });
    assert.deepEqual(scriptOfSimh("0000:\t00010008\r\n0001:\tJKQW0000\r\n"), { script: "put 0000 00010008\nput 0001 jkqw0000\n" });
    assert.deepEqual(
        ["d -lt 0150 89fgjkqq\n", "0000:\t00010008\r\n", "0000:\t00010008", "put 0000 z\n", "; d -lt 0150 89fgjkqq\n", ""].map(isOfSimh),
        [true, true, true, false, false, false]
    );
    const wrong = (text) => scriptOfSimh(text).wrong;
    assert.deepEqual(
        [
            wrong("d -lt 0150 89fgjkqq\n\n"),
            wrong("d -lt 0150 89fgjkqq\nput 0151 z"),
            wrong("0001:\t00000000\n0000:\t00000000\n"),
            wrong("0064:\t00000000\n"),
            wrong("0000:\t00000000\n0000:\t00000000\n"),
        ],
        [2, 2, 2, 1, 2]
    );
});

test("what such a file puts is what the monitor restores of it", async (context) => {
    const [folder, text] = [mkdtempSync(join(tmpdir(), "simh-")), "d -lt 0150 0001000q\nd -lt 0163 Q0000002\n"];
    context.after(() => rmSync(folder, { recursive: true }));
    writeFileSync(join(folder, "drum"), text);
    const [restored, put] = [await Desk.open(), await Desk.open()];
    restored.type(`restore-simh ${join(folder, "drum")}`);
    for (const line of scriptOfSimh(text).script.trimEnd().split("\n")) put.type(line);
    for (const address of ["0150", "0163"]) assert.equal(put.type(`show ${address} 1`), restored.type(`show ${address} 1`), address);
});

test("a link holds the script, and a script that is too long has none", () => {
    const script = "put 0000 z 0000 ; ä\npress start\n";
    const link = linkOf(script, { protocol: "file:", origin: "null", pathname: "/a/laboratory.html" });
    assert.match(link, /^file:\/\/\/a\/laboratory\.html#script=put%200000/);
    assert.equal(askedIn({ search: "", hash: new URL(link).hash }).script, script.replace(/\n$/, ""));
    assert.equal(
        linkOf(script, { protocol: "https:", origin: "https://x.org", pathname: "/l.html" }).slice(0, 28), "https://x.org/l.html#script="
    );
    assert.equal(linkOf("x".repeat(30_000), { protocol: "file:", origin: "null", pathname: "/" }), null);
});

test("lines come back one before another, and the draft after the last", () => {
    const history = new LineHistory();
    assert.deepEqual([history.back("x"), history.forward()], [null, null]);
    for (const line of ["run 1", "panel", "panel", ""]) history.add(line);
    assert.deepEqual([history.back("dra"), history.back("panel"), history.back("run 1")], ["panel", "run 1", null]);
    assert.deepEqual([history.forward(), history.forward(), history.forward()], ["panel", "dra", null]);
});

test("what is pasted is the lines that it has; the last one stays to be sent", () => {
    assert.equal(pasted("run 1", "", ""), null);
    assert.deepEqual(pasted("put 0000 z\r\nrun 1\npan", "; ", "el"), { lines: ["; put 0000 z", "run 1"], stays: "panel" });
});
