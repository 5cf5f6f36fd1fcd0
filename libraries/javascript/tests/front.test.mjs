// A sitting by a keyboard that types by itself: what its faults do, and what it asks of the laboratory.
import assert from "node:assert/strict";
import { test } from "node:test";
import { NoMemory } from "../session.mjs";
import { sat } from "./sat.mjs";

test("a fault of the terminal's own is told in one line, and the next line is answered", async () => {
    const { shown, kept } = await sat(["turn 5", "turn 6", "turn 7"], (line) => {
        if (line === "turn 6") null.nothing;
    });
    assert.match(shown, /^this line met a fault of the program: [^\n]*null[^\n]*\. The session goes on$/m);
    assert.match(shown, /clock 5\n[^]*clock 12\n/);
    assert.deepEqual(kept, ["turn 5\nturn 7\n"]);
});

test("memory that ends in a line that is taken back ends no session, and elsewhere it does", async () => {
    const spoil = (isTakenBack) => (line) => {
        if (line === "turn 6") throw Object.assign(new NoMemory("there is not enough memory"), { isTakenBack });
    };
    const { shown } = await sat(["turn 5", "turn 6", "turn 7"], spoil(true));
    assert.match(shown, /there was not enough memory for this line; it was taken back[^\n]*\n[^]*clock 12\n/);
    await assert.rejects(sat(["turn 6"], spoil(false)), NoMemory);
});

test("an output that is gone ends the sitting", async () => {
    await assert.rejects(sat(["turn 6"], () => {
        throw Object.assign(new Error("EIO"), { syscall: "write" });
    }), /EIO/);
});

test("the transcript is asked for at the end, and not for each line", async () => {
    const { asked, kept } = await sat(Array.from({ length: 40 }, (_, number) => `turn ${number}`));
    assert.equal(asked.filter((line) => line === "transcript").length, 1);
    assert.equal(kept[0].split("\n").length, 41);
});

test("what is kept is the transcript, also of lines that mean others", async () => {
    const { kept } = await sat([
        "source", "loop z", " end loop", ".", "go loop", "s", "panel", "put *+3 loop", "break loop+2", "back", "press manual",
        "put *+3 u loop",
    ]);
    assert.deepEqual(kept, [
        "source\nloop z\n end loop\n.\npress manual\ntype 000f0000\npress fill\npress oneop\npress execute\norders 1\npress normal\npress start\nrun 1\npanel\nput *+3 loop\nbreak 0002\nback 1\npress manual\nput 0003 000f0000\n",
    ]);
});
