// What of a script is refused, and why.
import assert from "node:assert/strict";
import { readFileSync, readdirSync } from "node:fs";
import { test } from "node:test";
import { linesIn } from "../lines.mjs";
import { faultsOfSource, refusalsOf, toldRefusals } from "../refusals.mjs";
import { answerScript, compiled } from "../session.mjs";

const module = compiled(readFileSync(new URL("../lgp_c_region.wasm", import.meta.url)));
const told = (script) => toldRefusals("it", refusalsOf(module, script));

test("a refusal has its line's number, its line and the monitor's reason", () => {
    assert.equal(
        told("; a comment\n\nput 0001 00000001\r\nrun 5\nback 9"),
        "it:3: put 0001 00000001\n    ? 1 Form: 00000001 is odd, but the last bit of a word is always 0\nit:5: back 9\n    ? 7 TooFar 0: only this many orders are kept\n"
    );
    assert.equal(
        told("put 0000 00080000\nwords 0000 2\nrun 1\nlist\n"), "it:4: list\n    ? 10 NoImage: no source has been assembled yet\n"
    );
});

test("each fault of a source has the number of its own line, also where the source is not closed", () => {
    assert.equal(told("turn 5\nsource\nfirst b two\n q two\n end first\n.\nlist\n"),
        "it:3: first b two\n    ? 9 Faults: UnknownName\n            first b two\n                    ^^^\n            no line has this label: check the spelling, or give a line this label\nit:4:  q two\n    ? 9 Faults: UnknownOrder\n             q two\n             ^\n            there is no such operation: write one of the sixteen letters, -t, word, frac, int, org or end\nit:7: list\n    ? 10 NoImage: no source has been assembled yet\n");
    assert.equal(told("source\n z"), "it:3: \n    ? 9 Faults: NoEnd\n");
});

test("each fault of a source for asm has its line and a sentence", () => {
    const toldOf = (source) => toldRefusals("it", faultsOfSource(module, source));
    assert.equal(toldOf("first b two\r\ntwo z\n q two\n end first"),
        "it:3:  q two\n    UnknownOrder\n             q two\n             ^\n            there is no such operation: write one of the sixteen letters, -t, word, frac, int, org or end\n");
    assert.equal(toldOf(" z"), "it:2: \n    NoEnd\n            the end line is missing: end with a line that has end and the label of the first order\n");
    assert.equal(toldOf(" z\n end"), "");
    assert.equal(toldOf(" q\n.\n end"), "");
});

test("what the monitor does for a line that scripts may not have is undone", () => {
    assert.equal(told("put 0000 z\nput 0001 u 0000\nwords 0000 2\nback 1\n"),
        "it:1: put 0000 z\n    ? 1 Form: only ./lgp_monitor takes this line; a script has other forms\nit:2: put 0001 u 0000\n    ? 1 Form: only ./lgp_monitor takes this line; a script has other forms\nit:4: back 1\n    ? 7 TooFar 0: only this many orders are kept\n");
});

test("each example has as many refusals as its replies", () => {
    const folder = new URL("../../../examples/", import.meta.url);
    for (const name of readdirSync(folder).filter((it) => it.endsWith(".txt"))) {
        const script = readFileSync(new URL(name, folder), "latin1");
        const replies = linesIn(Buffer.from(answerScript(module, Buffer.from(script, "latin1")).replies).toString("latin1"));
        const wanted = replies.filter((line) => /^\? (?!9 )|^line \d+ [A-Z]/.test(line)).length;
        assert.equal(refusalsOf(module, script).length, wanted, name);
    }
});
