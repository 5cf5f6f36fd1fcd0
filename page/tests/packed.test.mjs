// Bytes and texts as the page has them, and back.
import assert from "node:assert/strict";
import { readFileSync } from "node:fs";
import { test } from "node:test";
import { gzipSync } from "node:zlib";
import { packed, packedModule, packedText } from "../packed.mjs";
import { sorted, unsorted } from "../sorted.mjs";
import { unpacked, unpackedText, unpackedTexts } from "../unpacked.mjs";

const module = new Uint8Array(readFileSync(new URL("../../libraries/javascript/lgp_c_region.wasm", import.meta.url)));

test("whatever the bytes are, they are unpacked as they were, and nothing of the text ends an element or is changed by a page", () => {
    let seed = 1956;
    const any = Uint8Array.from(
        { length: 70_000 }, () => { seed = (Math.imul(seed, 1103515245) + 12345) | 0; return (seed >>> 16) & 255; }
    );
    // three distances by turns, so that a copy goes back as far as one of the last ones
    const turns = Uint8Array.from(
        { length: 20_000 }, (unused, at) => (at % 700 < 350 ? any[at % 97] : any[at % 61] ^ (at % 350 === 0 ? 1 : 0))
    );
    for (const bytes of [
        any,
        module,
        turns,
        new Uint8Array(0),
        new Uint8Array(100_000),
        Uint8Array.of(255, 0, 60, 13),
        Uint8Array.from({ length: 3000 }, (unused, at) => at % 7),
    ]) {
        assert.equal(Buffer.compare(unpacked(packed(bytes)), bytes), 0);
        assert.match(packed(bytes), /^\d+ [A-Za-z0-9+/=]*$/);
    }
    assert.equal(unpackedText(packedText("Zurück → 5 ½ 𝄞")), "Zurück → 5 ½ 𝄞");
    for (const texts of [[""], ["", "a", ""], ["Zurück".repeat(2000), "b", "Zurück".repeat(2000), "c".repeat(9000)]]) {
        assert.deepEqual([...unpackedTexts(packedText(texts.join("\0")))], texts);
    }
});

test("what xz has once packed is read without it", () => {
    assert.equal(
        unpackedText("45 ADoa2gUgHgddfQ33YM5dhjog9sYyuwraytjS8B+QcMbcWP//soAAAA=="), "the drum turns, and the drum turns on, and on"
    );
});

test("a module is sorted and put together again, whatever its orders are, and so are bytes that are none", () => {
    // a function of nine locals, with a table of ways, a copy and a fill of memory, a constant of 64 bits and a place beyond 127
    const body = [
        1, 9, 0x7f, 0x20, 8, 0x20, 0, 0x21, 8, 0x20, 8, 0x22, 7, 0x0e, 2, 0, 1, 0, 0xfc, 10, 0, 0, 0xfc, 11, 0, 0xfc, 7, 0x42, 0xff, 0x7f,
        0x28, 2, 0x80, 0x01, 0x0b,
    ];
    const small = Uint8Array.of(0, 0x61, 0x73, 0x6d, 1, 0, 0, 0, 10, body.length + 2, 1, body.length, ...body, 0, 2, 1, 65);
    for (const bytes of [module, small, new Uint8Array(0), new TextEncoder().encode("no module")]) {
        assert.equal(Buffer.compare(unsorted(sorted(bytes)), bytes), 0);
        assert.equal(Buffer.compare(unsorted(unpacked(packedModule(bytes))), bytes), 0);
    }
    // the places of the locals 8, 0, 8, 8 and 7 among those that were named last
    assert.deepEqual([...sorted(small).slice(-9)], [8, 1, 1, 0, 8, 0xff, 0x7f, 0x80, 0x01]);
});

test("the file is small: 1.3 million bytes at most, and 400 kilobytes on its way through a network; the module's text has a third of its bytes", () => {
    const page = readFileSync(new URL("../laboratory.html", import.meta.url));
    assert.ok(page.length <= 1_300_000, `${page.length} bytes`);
    assert.ok(gzipSync(page, { level: 9 }).length <= 400_000, `${gzipSync(page, { level: 9 }).length} bytes by gzip`);
    assert.ok(packedModule(module).length <= module.length / 3);
});
