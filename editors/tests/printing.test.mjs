// What a program prints, as a client of the debug adapter shows it: only what is new is asked for, and nothing is lost where memory ends.
import assert from "node:assert/strict";
import { test } from "node:test";
import { paperOf } from "../../libraries/javascript/replies.mjs";
import { NoMemory, Session, bytesOf, textOf } from "../../libraries/javascript/session.mjs";
import { Client, openSession } from "./client.mjs";

/** A program that prints codes again and again, and what a session has on its paper then. */
const printing = (codes) => `start ${codes.map((code) => ` p ${String(code).padStart(2, "0")}00`).join("\n")}\n u start\n end start\n`;
const [SHOWN, RETURN, TAB, UPPER, LOWER, BACK] = [57, 16, 24, 8, 4, 20];

/** The lines that sessions are sent while a deed is done. */
async function linesOf(deed) {
    const lines = [];
    const { bytesFor } = Session.prototype;
    Session.prototype.bytesFor = function (line) {
        lines.push(textOf(line));
        return bytesFor.call(this, line);
    };
    try {
        await deed();
    } finally {
        Session.prototype.bytesFor = bytesFor;
    }
    return lines;
}

const repl = (client, expression) => client.asks("evaluate", { expression, context: "repl" });

test("only what is new is asked for, and no message has more than 65,536 signs", async () => {
    const client = new Client({ "/prints": printing([SHOWN, SHOWN, RETURN]) });
    const lines = await linesOf(async () => {
        await client.launched({ program: "/prints" });
        await client.event("stopped");
    });
    const asked = lines.filter((line) => line.startsWith("paper-data ")).map((line) => Number(line.split(" ")[1]));
    assert.deepEqual(asked, [...asked].sort((one, other) => one - other));
    assert.ok(asked.at(-1) > 2000);
    // a typewriter prints each of the two codes by itself, after one sign and after two; the whole paper is not read
    assert.equal(lines.filter((line) => line === "paper").length, 4);
    const { text } = paperOf((await repl(client, "paper")).result);
    assert.equal(client.output("stdout").trimEnd(), text.trimEnd());
    for (const { event, body } of client.messages) if (event === "output") assert.ok(body.output.length <= 65_536);
});

test("a megabyte is printed in about as many messages as portions, and no portion is small because the paper is long", async () => {
    const client = new Client({ "/prints": printing([...Array(70).fill(SHOWN), RETURN]) });
    await client.launched({ program: "/prints" });
    await client.event("stopped");
    const begun = performance.now();
    let runs = 1;
    const outputs = () => client.messages.filter(
        ({ event, body }) => event === "output" && body.category === "stdout"
    ).map(({ body }) => body.output.length);
    while (outputs().reduce((sum, length) => sum + length) < 1_000_000) {
        await client.asks("continue");
        await client.event("stopped");
        runs += 1;
    }
    assert.ok(runs <= 50, `${runs} runs`);
    assert.ok(outputs().length < 6 * runs, `${outputs().length} messages in ${runs} runs`);
    assert.ok(performance.now() - begun < 60_000);
});

test("what depends on where it is printed is shown as the monitor's paper has it", async () => {
    const codes = [
        UPPER, SHOWN, 2, LOWER, TAB, SHOWN, RETURN, SHOWN, BACK, 53, 12, 28, RETURN, RETURN, SHOWN, 3, SHOWN, UPPER, RETURN, SHOWN, LOWER,
        RETURN, 49, RETURN,
    ];
    const client = new Client({ "/prints": printing(codes) });
    await client.launched({ program: "/prints", stopOnEntry: true });
    await client.event("stopped");
    for (let round = 0; round < 400; round += 1) {
        await repl(client, `run ${1 + (round % 7)}`);
        await client.event("stopped");
    }
    const { text } = paperOf((await repl(client, "paper")).result);
    // a row that is struck over is shown once more, as a row of its own
    const shown = new Set(client.output("stdout").split("\n"));
    for (const row of text.split("\n").slice(0, -1)) assert.ok(shown.has(row), row);
});

test("after a way back the same is printed once more, and no more than that", async () => {
    const client = new Client({ "/prints": printing([SHOWN, 53, RETURN, 49]) });
    await client.launched({ program: "/prints", stopOnEntry: true });
    await client.event("stopped");
    const shown = [];
    for (const line of ["run 10", "back 6", "run 6", "back 10", "run 3"]) {
        const before = client.output("stdout").length;
        await repl(client, line);
        await client.event("stopped");
        shown.push(client.output("stdout").slice(before));
    }
    assert.deepEqual(shown, ["ac\nhac\nh", "", "ac\nh", "", "ac\n"]);
});

test("where memory ends, that is said, and all that was done is kept", async () => {
    const kept = [];
    const shelf = { keepSession: (text) => kept.push(text), putSessionAway() {}, keepSource() {}, dropSource() {} };
    const client = new Client({ "/prints": printing([SHOWN]) }, { shelf });
    await client.launched({ program: "/prints" });
    await client.event("stopped");
    const { bytesFor, show } = Session.prototype;
    let isGone = false;
    const refused = () => { throw new NoMemory("there is not enough memory for this line"); };
    Session.prototype.bytesFor = function (line) {
        isGone ||= textOf(line).startsWith("run ") && kept.length > 0;
        return isGone ? refused() : bytesFor.call(this, line);
    };
    Session.prototype.show = function (what) {
        return isGone ? refused() : show.call(this, what);
    };
    await client.asks("continue");
    await client.event("terminated");
    Object.assign(Session.prototype, { bytesFor, show });
    assert.match(
        client.output("important"),
        /^the laboratory's memory is used up after 2\d{4} printed codes: there is not enough memory for this line; what was done is kept, and restart begins anew\n$/
    );
    assert.match(kept.at(-1), /\nload\n(run \d+\n){2,}$/);
    assert.equal(kept.at(-1).match(/^run/gm).length, kept.at(-2).match(/^run/gm).length + 1);
    await client.asks("restart", { arguments: { program: "/prints", stopOnEntry: true } });
    assert.equal((await client.event("stopped")).reason, "entry");
});
