// A press of Step, with the module: how many lines it sends, what of them stays in the transcript, and whether what the page then shows is
// what the monitor says.
import assert from "node:assert/strict";
import { existsSync, readFileSync, readdirSync } from "node:fs";
import { dirname, join } from "node:path";
import { test } from "node:test";
import { fileURLToPath } from "node:url";
import { trackOf } from "../addresses.mjs";
import { Controller } from "../controller.mjs";
import { drumRowsOf, heldOf, linesOf, originsOf, paperOf, rulesOf, toldOf } from "../../libraries/javascript/replies.mjs";
import { ModuleLink } from "../module_link.mjs";

const top = join(dirname(fileURLToPath(import.meta.url)), "../..");
const module = join(top, "libraries/javascript/lgp_c_region.wasm");
const skip = !existsSync(module);
const exampleNamed = (name) => readFileSync(join(top, `examples/${name}.txt`), "utf8");
const names = readdirSync(join(top, "examples"), { recursive: true })
    .map(String)
    .filter((name) => name.endsWith(".txt"))
    .map((name) => name.slice(0, -".txt".length));

/** A laboratory over the module, and its link. */
async function opened() {
    const link = new ModuleLink(module);
    const laboratory = new Controller(link);
    await laboratory.open();
    return { link, laboratory };
}

/** The lines that an action sends. */
async function sentBy(link, action) {
    const before = link.sent.length;
    await action();
    return link.sent.slice(before);
}

test("a Step sends two lines, one more where it goes to another track or something was printed, and never more than three", { skip }, async () => {
    const { link, laboratory } = await opened();
    let steps = 0;
    for (const name of names) {
        await laboratory.openScript(name, exampleNamed(name));
        for (let step = 0; step < 60 && laboratory.way.kind === "go"; step += 1) {
            const lines = await sentBy(link, () => laboratory.step());
            const said = `${name}, step ${step}: ${lines.join("; ")}`;
            assert.equal(lines[0], "json trace-data 1", said);
            assert.match(lines[1], /^json look \d\d00 64 \d+$/, said);
            assert.ok(
                lines.length <= 3 && lines.slice(2).every((line) => line === "paper" || /^json show-data \d\d00 64$/.test(line)), said
            );
            assert.equal(lines.includes("paper"), laboratory.accounts.at(-1).printed !== null, said);
            steps += 1;
        }
    }
    assert.ok(steps > 500, `${steps} steps`);
});

test("after twenty steps the transcript has the lines that set the machine up, and twenty more", { skip }, async () => {
    const { link, laboratory } = await opened();
    await laboratory.openScript("self-modifying", exampleNamed("self-modifying"));
    const before = linesOf(await link.ask("transcript"));
    const lines = await sentBy(link, async () => {
        for (let step = 0; step < 20; step += 1) await laboratory.step();
    });
    assert.deepEqual(linesOf(await link.ask("transcript")), [...before, ...Array(20).fill("run 1")]);
    assert.equal(await laboratory.transcript(), `${before.join("\n")}\n${"run 1\n".repeat(20)}`);
    assert.ok(lines.length <= 60, lines.join("; "));
});

test("a Step after the costs of a word were asked, or the page has shown another part of the drum, asks no more", { skip }, async () => {
    const { link, laboratory } = await opened();
    await laboratory.openScript("self-modifying", exampleNamed("self-modifying"));
    for (const action of [
        () => laboratory.askPlacing([]), () => laboratory.showAt("0500"), () => laboratory.why("0009"), () => laboratory.transcript(),
    ]) {
        await laboratory.step(3);
        await action();
        const lines = await sentBy(link, () => laboratory.step());
        assert.ok(lines.length <= 3, `${action}: ${lines.join("; ")}`);
    }
});

/** What the monitor says now of what the page shows. */
async function saidNow(laboratory, link) {
    const addresses = laboratory.words.map(({ address }) => address);
    const track = trackOf(laboratory.panel.counter);
    const told = heldOf(await link.askAll([...addresses, ...track].map((address) => `json show-data ${address} 1`)));
    const shown = (word) => ({ address: word.address, digits: word.digits, order: word.order ?? `word ${word.digits}` });
    return {
        words: told.slice(0, addresses.length).map(shown),
        track: told.slice(addresses.length).map(({ address, digits: text }) => ({ address, text })),
        rules: rulesOf(await link.ask("json rules-data")),
        printed: paperOf(await link.ask("paper")),
        origins: originsOf(await link.askAll(addresses.map((address) => `json why-data ${address}`))),
    };
}

test("what the page shows after Steps is what the monitor says then, and so is the whole drum", { skip }, async () => {
    const { link, laboratory } = await opened();
    for (const name of names) {
        await laboratory.openScript(name, exampleNamed(name));
        await laboratory.drum();
        for (const orders of [1, 1, 3, 1, 40, 1, 1, 7, 1]) {
            await laboratory.step(orders);
            const { origins, ...said } = await saidNow(laboratory, link);
            const { words, track, rules, printed } = laboratory;
            assert.deepEqual(
                { words: words.map(({ address, digits, order }) => ({ address, digits, order })), track, rules, printed }, said, name
            );
            for (const { address, origin } of words) {
                if (origin !== null) assert.deepEqual(origin, origins.get(address), `${name}: ${address}`);
            }
        }
        const asked = await link.askAll(Array.from({ length: 64 }, (unused, track) => `numbers ${String(track).padStart(2, "0")}00 64`));
        assert.deepEqual(await laboratory.drum(), linesOf(asked).map((line) => line.split(" ")[1]), name);
    }
});

test("a word that an order has changed has that order beside it, also where it was not shown then", { skip }, async () => {
    const { laboratory } = await opened();
    await laboratory.say(
        "put 0000 b 0003", "put 0001 h 0520", "put 0002 u 0510", "put 0003 = 4", "put 0510 h 0520", "put 0511 z", "press start"
    );
    await laboratory.step(1);
    await laboratory.step(1);
    await laboratory.step(1);
    const origin = { order: "h 0520", at: "0001", lost: "z 0000" };
    const written = () => (({ order, at, lost }) => ({ order, at, lost }))(laboratory.writerOf("0520"));
    assert.deepEqual([laboratory.panel.counter, written()], ["0510", origin]);
    await laboratory.step(1);
    assert.deepEqual(written(), origin);
    await laboratory.say("press manual", "put 0520 = 7");
    assert.equal(laboratory.writerOf("0520"), null);
});

test("the turns that are drawn of accounts are those that the monitor draws", { skip }, async () => {
    const { link, laboratory } = await opened();
    let turns = 0;
    for (const name of names) {
        await laboratory.openScript(name, exampleNamed(name));
        for (const orders of [1, 5, 1, 60, 2]) {
            const performed = await laboratory.step(orders);
            if (performed === 0) break;
            const { rows } = laboratory;
            await link.ask(`back ${performed}`);
            const drawn = drumRowsOf(toldOf(await link.ask(`drum ${performed}`)).told);
            assert.deepEqual(rows, drawn, `${name}: ${laboratory.accounts.slice(-performed).map(({ order }) => order)}`);
            turns += drawn.length;
        }
    }
    assert.ok(turns > 1000);
});
