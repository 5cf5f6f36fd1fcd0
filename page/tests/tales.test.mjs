// The stories of Look: what a caption says of an order is so of the one that it plays.
import assert from "node:assert/strict";
import { existsSync, readFileSync } from "node:fs";
import { test } from "node:test";
import { Controller } from "../controller.mjs";
import { ModuleLink } from "../module_link.mjs";
import { TALES } from "../views/tales.mjs";
import { LANGUAGES, textsIn } from "../words.mjs";
import { signedOf } from "../../libraries/javascript/replies.mjs";

const file = (path) => new URL(`../../${path}`, import.meta.url).pathname;
const module = file("libraries/javascript/lgp_c_region.wasm");
const skip = !existsSync(module);

/** The orders that each caption of a story plays, and what is there before them. */
async function playedIn({ example, before, plays, asks, back = [] }) {
    const laboratory = new Controller(new ModuleLink(module));
    await laboratory.open();
    await laboratory.openForShow(example, readFileSync(file(`examples/${example}.txt`), "utf8"));
    await laboratory.command("press start");
    if (before > 0) await laboratory.step(before);
    const played = [];
    for (const [at, orders] of plays.entries()) {
        const { text } = laboratory.printed;
        const there = { text, counter: laboratory.panel.counter, words: new Map(laboratory.words.map((word) => [word.address, word])) };
        const { lines: [why] } = asks === undefined ? { lines: [] } : await laboratory.why(asks[1]);
        if (orders > 0) await laboratory.step(orders);
        played.push(Object.assign(orders > 0 ? laboratory.accounts.slice(-orders) : [], { there, why }));
        if (back[at] > 0) await laboratory.back(back[at]);
    }
    return played;
}

const played = skip ? new Map() : new Map(await Promise.all(TALES.map(async (tale) => [tale.name, await playedIn(tale)])));

/** The addresses that a caption names; 1956 is a year, and what is in an order p is a code. */
const namedIn = (caption) => (caption.replace(/\bp \d{4}/g, "").match(/\b\d{4}\b/g) ?? []).filter((number) => number !== "1956");

test("each address that a caption names is the place or the word of an order that it plays, in each language", { skip }, () => {
    let named = 0;
    for (const code of Object.keys(LANGUAGES)) for (const { name, plays } of TALES) {
        const { captions } = textsIn(code).table.tales[name];
        assert.equal(Object.keys(captions).length, plays.length, name);
        for (const [at, caption] of Object.values(captions).entries()) {
            const orders = played.get(name)[at];
            const places = orders.flatMap((account) => [account.at, account.word]);
            if (orders.length === 0) continue;
            const which = `${name}, caption ${at + 1} in ${code}`;
            for (const address of namedIn(caption)) assert.ok(places.includes(address), `${which}: ${address} is not of ${places}`);
            named += namedIn(caption).length;
        }
    }
    assert.ok(named >= 5 * Object.keys(LANGUAGES).length, `${named}`);
});

test("what the captions say of waits, of six turns and of a word that is rewritten, is so of the orders that they play", { skip }, () => {
    const last = (name, caption) => played.get(name)[caption - 1].at(-1);
    const [around, twice, mostly] = [2, 3, 4].map((caption) => last("wait", caption));
    const [rewrites, types, changes] = [last("rewrite", 4), last("type", 3), last("type", 4)];
    const told = { en: /nearly three quarters/, de: /fast drei Viertel/ };
    for (const [code, words] of Object.entries(told)) assert.match(textsIn(code).table.tales.wait.captions[1], words);
    assert.ok(around.find > 0.7 * 64 && around.find < 0.75 * 64, "nearly three quarters of the way round");
    assert.ok(twice.find > 1 && twice.seek > 1, "waits twice");
    assert.ok((mostly.find + mostly.seek - 2) / mostly.sum > 0.8, "nearly all of it is waiting");
    assert.equal(signedOf(rewrites.stored.after.digits) - signedOf(rewrites.stored.before.digits), 4, "the next address");
    assert.deepEqual([Math.floor(types.act / 64), types.printed.code], [6, 46], "six turns for one character");
    const again = changes.stored.address;
    const isOrder = played.get("type").flat().some(({ at }) => at === again);
    assert.ok(isOrder && again !== last("type", 2).stored.address, "another of its own orders");
});

test("the story that goes back tells what is there at each of its moments", { skip }, () => {
    const [row, typed, made, puts, after] = played.get("rewind");
    const orderAt = ({ there }, address) => there.words.get(address).order;
    assert.equal(row.there.text, "1\n2\n2\n2\n");
    assert.deepEqual([typed.there.text, typed.there.counter, orderAt(typed, "0000")], ["1\n2\n", "0000", "p 1001"]);
    assert.deepEqual([made.there.counter, orderAt(made, "0003"), made.there.words.get("0012").digits], ["0003", "a 0012", "00000004"]);
    assert.match(made.why, /put there by h 0012 at 0007/);
    const [{ at, order, stored }] = puts;
    assert.deepEqual([at, order, stored.before.digits, stored.after.digits], ["0007", "h 0012", "00000400", "00000004"]);
    assert.equal(after.there.words.get("0012").origin.at, "0007");
    for (const [code, seven] of [["en", /Seven orders before it/], ["de", /Sieben Befehle vor ihm/]]) {
        const { captions } = textsIn(code).table.tales.rewind;
        assert.match(captions[2], seven);
        const named = [[0, "2"], [1, "p 1001"], [2, "a 0012"], [2, "00000400"], [3, "h"]];
        for (const [caption, word] of named) assert.ok(captions[caption].includes(word), `${code}: ${word}`);
    }
    const { plays, back } = TALES.at(-1);
    assert.equal(back[1] - plays[1], 7);
});
