// Works that are sent, without a browser: each example comes back as it was, whatever is cut off or changed is refused, and so is what is
// of a later version or too long; and the code for a camera says the link.
import assert from "node:assert/strict";
import { spawnSync } from "node:child_process";
import { existsSync, mkdtempSync, rmSync, writeFileSync } from "node:fs";
import { tmpdir } from "node:os";
import { dirname, join } from "node:path";
import { test } from "node:test";
import { fileURLToPath } from "node:url";
import { deflateSync } from "node:zlib";
import { remarksBelow, scriptsBelow } from "../documents.mjs";
import { withRemarks } from "../examples.mjs";
import { areInSource, isIdle, linesIn } from "../lines.mjs";
import {
    LONGEST_LINK, fileOf, isWorkFile, linkTo, ordersIn, packedWork, pageOf, sentOf, together, workInFile, workInLink,
} from "../sending.mjs";
import { Desk } from "../../libraries/javascript/node_desk.mjs";

const top = join(dirname(fileURLToPath(import.meta.url)), "../..");
const module = join(top, "libraries/javascript/lgp_c_region.wasm");
const [examples, remarks] = [new Map(scriptsBelow(join(top, "examples"))), remarksBelow(join(top, "examples"))];
const editionsOf = (name) => (
    examples.has(name) ? ["en", "de"].map((code) => [code, withRemarks(examples.get(name), remarks[code]?.[name] ?? [])]) : []
);
const noEditions = () => [];

const work = {
    door: "work",
    lines: "put 0000 z 0000\npress start\norders 10",
    script: null,
    drafts: { source: "start z ; ä, <b>\n end start", tape: "1'2'" },
    task: null, source: null, pupil: null, isPaperUp: false,
};
const packedOf = (text) => `a${deflateSync(text).toString("base64url")}`;
const wrongOf = async (text, editions = noEditions) => (await workInLink(text, editions)).wrong;

/** A work in which all lines of an example were done, in a language. */
function workOf(name, code) {
    const lines = linesIn(new Map(editionsOf(name)).get(code));
    const inSource = areInSource(lines);
    const done = together(lines.filter((line, place) => inSource[place] || !isIdle(line)));
    return { ...work, lines: done.join("\n"), script: { name, lines, at: lines.length }, drafts: {} };
}

test("each example comes back as it was, in both languages: by its name, and as a script of one's own", async () => {
    assert.ok(examples.size > 30);
    for (const [name] of examples) {
        for (const code of ["en", "de"]) {
            const own = workOf(name, code);
            const [named, whole] = [sentOf(own, editionsOf), sentOf(own, noEditions)];
            assert.deepEqual(await workInLink(await packedWork(named), editionsOf), { work: own, wrong: null }, `${name} ${code}`);
            assert.ok((await packedWork(named)).length < 500, name);
            assert.deepEqual(await workInFile(fileOf(whole), noEditions), { work: own, wrong: null }, `${name} ${code} in a file`);
            const packed = await packedWork(whole);
            assert.equal(await wrongOf(packed), packed.length > LONGEST_LINK ? "tooLong" : null, name);
        }
    }
});

test("all of a work comes back but for torn pieces and words that were moved", async () => {
    const whole = {
        ...work,
        door: "learn",
        task: "sum",
        source: "start z\n",
        pupil: { lesson: "rewriting", at: 3, isDone: [0, 2] },
        isPaperUp: true,
        script: { name: "laboratory.txt", lines: ["panel", "panel"], at: 1 },
    };
    const sent = sentOf({ ...whole, drafts: { ...whole.drafts, pieces: "{", carried: "0001 3" }, title: "x", performed: 7 }, noEditions);
    assert.deepEqual(await workInLink(await packedWork(sent), noEditions), { work: whole, wrong: null });
    // what somebody else has written into a link is not taken either
    assert.deepEqual((await workInLink(packedOf(JSON.stringify({ ...sent, drafts: { pieces: "{" } })), noEditions)).work.drafts, {});
});

test("a link that is cut at any place is refused, and one that is changed at any place is refused or the same", async () => {
    const link = await packedWork(sentOf(workOf("self-modifying", "en"), editionsOf));
    for (let end = 0; end < link.length; end += 1) assert.equal(await wrongOf(link.slice(0, end), editionsOf), "broken", `cut at ${end}`);
    for (let at = 1; at < link.length; at += 1) {
        for (const letter of ["A", "z", "-", "!", " ", "ä"]) {
            const { work: found, wrong } = await workInLink(link.slice(0, at) + letter + link.slice(at + 1), editionsOf);
            assert.ok(wrong === "broken" || JSON.stringify(found) === JSON.stringify(workOf("self-modifying", "en")), `changed at ${at}`);
        }
    }
});

test("a later version, one that is too long or would be when unpacked, another edition of an example, and what is no work are told apart", async () => {
    const link = await packedWork(sentOf(work, noEditions));
    assert.equal(await wrongOf(`b${link.slice(1)}`), "later");
    assert.equal(await wrongOf(`z${"x".repeat(100)}`), "later");
    assert.equal(await wrongOf(`a${"x".repeat(LONGEST_LINK)}`), "tooLong");
    const bomb = packedOf(new Uint8Array(5_000_000).fill(32));
    assert.ok(bomb.length < LONGEST_LINK);
    assert.equal(await wrongOf(bomb), "tooLong");
    const named = await packedWork(sentOf(workOf("self-modifying", "en"), editionsOf));
    assert.deepEqual(
        [
            await wrongOf(named, noEditions),
            await wrongOf(named, () => [["en", "panel\n"]]),
            await wrongOf(named, (name) => editionsOf(name).slice(1)),
        ],
        ["otherEdition", "otherEdition", "otherEdition"]
    );
    for (const text of [
        "", "{", "null", "[]", "7", "{}", JSON.stringify({ ...JSON.parse(JSON.stringify(sentOf(work, noEditions))), lines: "panel" }),
    ]) {
        assert.equal(await wrongOf(packedOf(text)), "broken", text);
    }
    assert.equal(await wrongOf(packedOf(Uint8Array.of(0x22, 0xff, 0x22))), "broken");
});

test("what has not the form of a work is refused, field by field", async () => {
    const sent = JSON.parse(
        JSON.stringify(
            sentOf(
                { ...work, pupil: { lesson: "rewriting", at: 0, isDone: [] }, script: { name: "x", lines: ["panel"], at: 0 } }, noEditions
            )
        )
    );
    assert.equal(await wrongOf(packedOf(JSON.stringify(sent))), null);
    const changes = [
        { door: "hall" }, { door: null }, { lines: [7] }, { lines: ["a\nb"] }, { lines: ["a\0"] }, { same: -1 }, { same: 1 }, { same: 1.5 },
        { drafts: null }, { drafts: [] }, { drafts: { source: 7 } }, { task: 7 }, { source: {} }, { isPaperUp: 1 },
        { script: {} },
        { script: { name: "x", lines: ["panel"], at: 2 } },
        { script: { name: "x", lines: "panel", at: 0 } },
        { script: { name: "x", at: 0, code: "en" } },
        { pupil: { lesson: "x", at: "0", isDone: [] } },
        { pupil: { lesson: "x", at: 0, isDone: 3 } },
    ];
    for (const change of changes) {
        assert.equal(await wrongOf(packedOf(JSON.stringify({ ...sent, ...change }))), "broken", JSON.stringify(change));
    }
    for (const name of Object.keys(sent)) {
        assert.equal(await wrongOf(packedOf(JSON.stringify({ ...sent, [name]: undefined }))), "broken", `without ${name}`);
    }
});

test("a file is read by the same rules; an exhibit of the kiosk is none", async () => {
    const file = fileOf(sentOf(work, noEditions));
    assert.deepEqual([isWorkFile(file), isWorkFile("{\"title\": {}}"), isWorkFile("panel\n")], [true, false, false]);
    const wrong = async (text) => (await workInFile(text, noEditions)).wrong;
    assert.deepEqual(
        [
            await wrong(file),
            await wrong(file.replace("\"a\"", "\"b\"")),
            await wrong(file.replace("\"a\"", "7")),
            await wrong(file.slice(0, -3)),
            await wrong(" ".repeat(3_000_001)),
            await wrong("{\"condugwa\":\"a\"}"),
        ],
        [null, "later", "broken", "broken", "tooLong", "broken"]
    );
});

test("portions that follow one another are one line, and lead to the same machine; not so after a rule, and not in a source", async () => {
    assert.deepEqual(
        together([
            "orders 5", "orders 7", "press start", "orders 400000", "orders 400000", "source", "orders 1", "orders 2", ".", "break 0000",
            "orders 1", "orders 1", "drop 1", "orders 1", "orders 1", "drop 0", "orders 1", "orders 1",
        ]),
        [
            "orders 12", "press start", "orders 400000", "orders 400000", "source", "orders 1", "orders 2", ".", "break 0000", "orders 1",
            "orders 1", "drop 1", "orders 1", "orders 1", "drop 0", "orders 2",
        ]
    );
    if (!existsSync(module)) return;
    const portions = Array.from({ length: 60 }, (unused, at) => `orders ${1 + (at % 9)}`);
    const lines = [
        ...linesIn(examples.get("self-modifying")).filter((line) => !/^(run|;)/.test(line)),
        ...portions,
        "type 7'",
        ...portions,
        "back 3",
        ...portions,
    ];
    const stateAfter = async (all) => {
        const desk = await Desk.open();
        for (const line of all) desk.type(line);
        return ["panel", "dump", "printed"].map((line) => desk.type(line));
    };
    assert.ok(together(lines).length < lines.length - 150);
    assert.deepEqual(await stateAfter(together(lines)), await stateAfter(lines));
});

test("how many orders lines ask for at most", () => {
    assert.equal(ordersIn("run 10\norders 5\njson trace-data 2\nsource\nrun 7\n.\npress start\n; run 9"), 17);
});

test("a link is the page's address without what that asks for; whether a server has given the page is known", async () => {
    const served = { protocol: "https:", origin: "https://lgp.example", pathname: "/l.html", search: "?lang=de", hash: "#kiosk" };
    const [sent, other] = [sentOf(work, noEditions), { protocol: "file:", origin: "null", pathname: "/a/laboratory.html" }];
    assert.match(await linkTo(sent, served), /^https:\/\/lgp\.example\/l\.html#work=a[\w-]+$/);
    assert.match(await linkTo(sent, other), /^file:\/\/\/a\/laboratory\.html#work=a/);
    assert.deepEqual(
        [pageOf(served).isServed, pageOf(other).isServed, pageOf({ ...served, protocol: "blob:" }).isServed], [true, false, false]
    );
});

/** The library of Debian's that makes codes is bundled into the page by its name; here it is found in the same place. */
const LIBRARY = "/usr/share/javascript/qrcode-generator/qrcode.js";
const hasReader = !spawnSync("zbarimg", ["--version"]).error;

/** A drawing as a picture of dots, each of some pixels: rows of 0 and 1. */
function pictureOf({ width, path }, wide) {
    const dots = Array.from({ length: width }, () => Array(width).fill(0));
    for (const [, column, row, length] of path.matchAll(/M(\d+) (\d+)h(\d+)v1h-\3z/g)) {
        dots[row].fill(1, Number(column), Number(column) + Number(length));
    }
    const lines = dots.flatMap((row) => Array(wide).fill(row.flatMap((dot) => Array(wide).fill(dot)).join(" ")));
    return `P1\n${wide * width} ${wide * width}\n${lines.join("\n")}\n`;
}

test("the code of a link is read as the link, and a text that is too long for a screen has none", {
    skip: !existsSync(LIBRARY) || !hasReader,
}, async (context) => {
    const folder = mkdtempSync(join(tmpdir(), "qr-"));
    context.after(() => rmSync(folder, { recursive: true }));
    // the same text as the page's, with the library where Debian has it
    const made = spawnSync(
        "esbuild",
        ["--bundle", "--format=esm", "--log-level=error", `--outfile=${join(folder, "qr.mjs")}`, join(top, "page/qr.mjs")],
        { env: { ...process.env, NODE_PATH: "/usr/share/javascript" }, encoding: "utf8" }
    );
    assert.equal(made.status, 0, made.stderr);
    const { codeOf } = await import(join(folder, "qr.mjs"));
    const links = [
        await linkTo(
            sentOf(workOf("weather/lorenz", "de"), editionsOf), { protocol: "https:", origin: "https://lgp.example", pathname: "/l.html" }
        ),
        "https://lgp.example/",
        `https://lgp.example/#work=a${"Zy_-09".repeat(207)}`,
    ];
    for (const link of links) {
        writeFileSync(join(folder, "code.pbm"), pictureOf(codeOf(link), 4));
        const { stdout } = spawnSync("zbarimg", ["--raw", "-q", join(folder, "code.pbm")], { encoding: "utf8" });
        assert.equal(stdout, `${link}\n`);
    }
    assert.equal(codeOf("x".repeat(1274)), null);
});
