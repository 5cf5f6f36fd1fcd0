// The package as others import it, with its module where page/make has made that.
import assert from "node:assert/strict";
import { spawnSync } from "node:child_process";
import { copyFileSync, existsSync, mkdtempSync, readFileSync, readdirSync, rmSync, writeFileSync } from "node:fs";
import { tmpdir } from "node:os";
import { dirname, join } from "node:path";
import { test } from "node:test";
import { fileURLToPath } from "node:url";
import { inspect } from "node:util";
import { Laboratory, NoMemory, NoModule, Refusal, assemble, compiled, fractionOf, numberOf, runScript } from "condugwa";
import { Desk } from "condugwa/desk";

const here = dirname(fileURLToPath(import.meta.url));
const path = join(here, "../lgp_c_region.wasm");
const skip = !existsSync(path);
const bytes = skip ? null : readFileSync(path);
const shelf = join(here, "../../../examples");
const LOOP = "put 0100 b 0102\nput 0101 z 0000\nput 0102 = 5\ngo 0100\n";

/** A test with a new laboratory. */
const inLaboratory = (name, body) => test(name, { skip }, () => body(new Laboratory(bytes)));

/** Whether a failure is a refusal of this kind. */
const refused = (kind, detail = null) => (failure) => failure instanceof Refusal && failure.kind === kind && failure.detail === detail;

inLaboratory("a laboratory keeps what was done", (laboratory) => {
    assert.equal(laboratory.answer("put 0050 = 3"), "ok\n");
    assert.deepEqual([...laboratory.words("0050", 2)], [["0050", "00000006"], ["0051", "00000000"]]);
    assert.equal(laboratory.transcript(), "put 0050 00000006\nwords 0050 2\n");
});

inLaboratory("a transcript is a text, whatever its lines are", (laboratory) => {
    assert.throws(() => laboratory.answer("? 7"), refused("Form"));
    assert.equal(laboratory.transcript(), "? 7\n");
    assert.throws(() => laboratory.answer("transcript 1"), refused("Form"));
});

inLaboratory("words come in the order of their addresses", (laboratory) => {
    assert.deepEqual([...laboratory.words("0963", 2).keys()], ["0963", "1000"]);
    assert.equal(laboratory.words("0963").size, 1);
});

inLaboratory("a program is run and taken back", (laboratory) => {
    laboratory.answers(LOOP);
    assert.deepEqual(laboratory.run(10), {
        orders: 2, end: "rest", rule: null, isMet: null, state: "a stop order halted the machine: press start to continue",
    });
    assert.equal(laboratory.panel().accumulator, "0000000f");
    assert.equal(typeof laboratory.back(1), "bigint");
    assert.equal(laboratory.panel().counter, "0101");
});

inLaboratory("a run is told", (laboratory) => {
    laboratory.answers(LOOP);
    const { clock } = laboratory.panel();
    const [bring, stop] = laboratory.trace(10);
    assert.deepEqual(
        [bring.clock, bring.at, bring.order, bring.after, stop.at, stop.order], [clock, "0100", "b 0102", "0000000f", "0101", "z 0000"]
    );
    assert.equal(stop.clock, bring.clock + BigInt(bring.cost));
    assert.equal(laboratory.back(2), clock);
    const profile = laboratory.profile(10);
    assert.deepEqual([profile.orders, profile.times], [2, bring.cost + stop.cost]);
    laboratory.back(2);
    const signs = laboratory.drum(10).map((row) => row.signs).join("").replaceAll(" ", "");
    assert.deepEqual([signs.length, signs.split("F").length - 1], [profile.times, 2]);
});

inLaboratory("the paper has capital letters after upper case, and tab stops", (laboratory) => {
    assert.equal(laboratory.paper(), "");
    laboratory.answers(
        ["p 0800", "p =1", "p 1600", "p 0400", "p =1", "p 2400", "p =0", "z"].map((order, place) => `put 000${place} ${order}`).join("\n")
    );
    laboratory.answer("press start");
    laboratory.run(10);
    assert.equal(laboratory.paper(), "L\n1       0");
});

inLaboratory("a rule stops a run", (laboratory) => {
    laboratory.answers("put 0100 u 0100\nbreak 0100\ngo 0100");
    assert.deepEqual(laboratory.run(10), {
        orders: 1, end: "rule", rule: 0, isMet: null, state: "the machine is still going: use run to continue, or press manual to halt it",
    });
});

inLaboratory("a run waits for a condition", (laboratory) => {
    laboratory.answers("put 0100 b 0104\nput 0101 a 0105\nput 0102 h 0104\nput 0103 u 0100\nput 0104 = 0\nput 0105 = 3\ngo 0100");
    assert.deepEqual(laboratory.run(1000, "0104 = 9"), { orders: 11, end: "limit", rule: null, isMet: true, state: null });
    assert.deepEqual(laboratory.run(10, "0104 < -1").isMet, false);
    assert.match(laboratory.transcript(), /run 11\nrun 10\n$/);
    assert.throws(() => laboratory.run(10, "0104 = x"), refused("Form"));
});

inLaboratory("a refusal is thrown and changes nothing", (laboratory) => {
    assert.throws(() => laboratory.back(1), refused("TooFar", 0));
    assert.throws(() => laboratory.answer("mount 12A"), refused("BadSign", 2));
    assert.throws(() => laboratory.answer("jump 0100"), ({ reply, number, reason }) => number === 1 && reply === `? 1 Form: ${reason}`);
    assert.throws(() => laboratory.answers("put 0050 = 3\njump\nput 0051 = 3"), refused("Form"));
    assert.deepEqual([...laboratory.words("0050", 2).values()], ["00000006", "00000000"]);
});

inLaboratory("a told run that the clock breaks off is refused", (laboratory) => {
    laboratory.answer = () => "{\"orders\":0}\n? 4 ClockEnd\n"; // no text brings the clock to its end
    assert.throws(() => laboratory.profile(1000), refused("ClockEnd"));
});

inLaboratory("any bytes and long lines are answered, and a line has no line feed", (laboratory) => {
    assert.throws(() => laboratory.answer("panel\npanel"), RangeError);
    assert.throws(
        () => laboratory.answer(Uint8Array.from({ length: 256 }, (unused, byte) => byte).filter((byte) => byte !== 10)), refused("Form")
    );
    assert.throws(() => laboratory.answer("put ".padEnd(10_000, "x")), refused("TooLong"));
});

inLaboratory("a transcript has its signs, also a mark of the order of bytes at its beginning", (laboratory) => {
    assert.throws(() => laboratory.answer("\u{feff}; \u{1f39e}"), refused("Form"));
    assert.equal(laboratory.transcript(), "\u{feff}; \u{1f39e}\n");
});

inLaboratory("a reply that is longer than the room is whole", (laboratory) => {
    const comment = `; ${"x".repeat(4000)}`;
    for (let count = 0; count < 600; count += 1) laboratory.answer(comment);
    assert.equal(laboratory.transcript(), `${comment}\n`.repeat(600));
    assert.equal(laboratory.answer("words 0000 1"), "0000 00000000\n");
});

inLaboratory("a closed laboratory answers nothing", (laboratory) => {
    laboratory.answer("source");
    assert.equal(laboratory.close(), "? 9 Faults\nline 1 NoEnd\n");
    assert.equal(laboratory.close(), "");
    assert.throws(() => laboratory.panel(), /^Error: the laboratory is closed$/);
});

test("the longest reply to an end is whole", { skip }, () => {
    const laboratory = new Laboratory(bytes, { region: 2 ** 28 });
    laboratory.answer("source");
    for (let line = 0; line < 524_287; line += 1) laboratory.answer("q");
    const lines = laboratory.close().split("\n");
    assert.deepEqual([lines[0], lines.filter((line) => line.startsWith("line ")).length], ["? 9 Faults", 524_287]);
});

test("memory that ends closes a laboratory", { skip }, () => {
    const laboratory = new Laboratory(bytes, { region: 2 ** 20 });
    assert.throws(
        () => { for (;;) laboratory.answer("panel"); },
        (failure) => failure instanceof NoMemory && failure.message === "there is not enough memory for this line"
    );
    assert.throws(() => laboratory.panel(), /^Error: the laboratory is closed$/);
    assert.throws(
        () => new Laboratory(bytes, { region: 2 ** 16 }),
        (failure) => failure instanceof NoMemory && failure.message === "there is not enough memory to open a laboratory"
    );
});

test("memory that cannot grow is told", { skip }, () => {
    assert.throws(
        () => new Laboratory(bytes, { region: 2 ** 40 }),
        (failure) => failure instanceof NoMemory && /^there is not enough memory: /.test(failure.message)
    );
});

test("bytes that are no module are told", { skip }, () => {
    const told = (source, message) => (
        assert.throws(() => new Laboratory(source), (failure) => failure instanceof NoModule && message.test(failure.message))
    );
    told(new Uint8Array(), /^these bytes are not a module that can be used here: /);
    told(bytes.subarray(0, 1000), /^these bytes are not a module that can be used here: /);
    told("lgp_c_region.wasm", /^these bytes are not a module that can be used here: /);
    told(Uint8Array.of(0, 0x61, 0x73, 0x6d, 1, 0, 0, 0), /^this module is not the laboratory's: it has no lgp_open_in$/);
});

test("a browser without WebAssembly or BigInt is told", { skip }, () => {
    for (const name of ["WebAssembly", "BigInt"]) {
        const kept = globalThis[name];
        delete globalThis[name];
        try {
            assert.throws(
                () => new Laboratory(bytes),
                (failure) => failure instanceof NoModule && failure.message === "there is no WebAssembly here, or no BigInt"
            );
        } finally {
            globalThis[name] = kept;
        }
    }
});

test("a module is compiled once for several laboratories", { skip }, () => {
    const module = compiled(bytes);
    const [one, other] = [new Laboratory(module), new Laboratory(module)];
    one.answer("put 0050 = 3");
    assert.equal(other.words("0050").get("0050"), "00000000");
});

test("scripts are answered whole", { skip }, () => {
    assert.deepEqual(runScript(bytes, ""), { text: "", questions: 0 });
    assert.deepEqual(runScript(bytes, "x\nback 1\nwords 0000 1\n"), { text: "? 1 Form\n? 7 TooFar 0\n0000 00000000\n", questions: 2 });
    assert.equal(runScript(bytes, "words 0000 64\n".repeat(2000)).text.length, 2000 * 64 * 14);
    assert.throws(() => runScript(bytes, "panel\n", { region: 2 ** 16 }), NoMemory);
});

const examples = readdirSync(shelf, { recursive: true }).map(String).filter((name) => name.endsWith(".txt"));
for (const name of examples) test(`${name} is answered to the byte`, { skip }, () => {
    assert.equal(
        runScript(bytes, readFileSync(join(shelf, name))).text, readFileSync(join(shelf, name.replace(/txt$/, "expected")), "utf8")
    );
});

test("the types name what is there", () => {
    const types = readFileSync(join(here, "../index.d.ts"), "utf8");
    const [, body] = /export class Laboratory \{([^]*?)\n\}/.exec(types);
    const methods = [...body.matchAll(/^ {4}(?:readonly )?(\w+)[(:]/gm)].map(([, name]) => name);
    assert.deepEqual(methods.sort(), Object.getOwnPropertyNames(Laboratory.prototype).sort());
});

/** The fields of a record as the types have them, by its name. */
function fieldsOf(name) {
    const [, body] = new RegExp(`export interface ${name} \\{([^]*?)\\n\\}`).exec(readFileSync(join(here, "../index.d.ts"), "utf8"));
    return [...body.matchAll(/^ {4}(\w+)\??:/gm)].map(([, field]) => field).sort();
}

test("the types of each record name its fields, and no others", { skip }, async () => {
    const laboratory = await Laboratory.open();
    laboratory.source("start b x\n a x\n h sum\n p =a\n z\nx int 5 30\nsum int 0 30\n end start\n");
    laboratory.load();
    const optimum = laboratory.optimum(9);
    laboratory.back(optimum.orders);
    const wordOptimum = laboratory.optimumOf(9, "x");
    laboratory.back(wordOptimum.orders);
    laboratory.watch("sum");
    const account = laboratory.trace(3).at(-1);
    const records = {
        Panel: laboratory.panel(), Run: laboratory.lastRun, Rule: laboratory.rules()[0], PutThere: laboratory.why("sum"), Account: account,
        Word: account.stored.after, DrumRow: laboratory.drum(1)[0], Fault: (await assemble(" q\n")).faults[0],
        Optimum: optimum, WordOptimum: wordOptimum, Gain: [...optimum.free, ...optimum.performed][0],
    };
    records.Profile = laboratory.profile(1);
    records.Share = records.Profile.parts[0];
    for (const [name, record] of Object.entries(records)) assert.deepEqual(Object.keys(record).sort(), fieldsOf(name), name);
});

const tsc = spawnSync("tsc", ["--version"]).error === undefined;
test("a program with types is taken, and one with wrong types is not", { skip: !tsc }, () => {
    const { stdout } = spawnSync(
        "tsc",
        ["--noEmit", "--strict", "--target", "es2022", "--module", "node16", "--moduleResolution", "node16", join(here, "types.mts")],
        { encoding: "utf8" }
    );
    assert.equal(stdout, "");
});

test("docs/EMBEDDING.md shows what the package does", { skip }, () => {
    const page = readFileSync(join(here, "../../../docs/EMBEDDING.md"), "utf8");
    const [, block] = /((?: {4}.*\n|\n)*? {4}import \{ Laboratory \} from "condugwa";\n(?: {4}.*\n|\n)*)/.exec(page);
    const program = block.replace(/^ {4}/gm, "");
    const wanted = [...program.matchAll(/\/\/ (.*)$/gm)].map(([, shown]) => shown);
    const { stdout, stderr } = spawnSync(
        process.execPath, ["--input-type=module", "-e", program], { encoding: "utf8", cwd: join(here, "..") }
    );
    assert.equal(stderr, "");
    assert.deepEqual(stdout.trimEnd().split("\n"), wanted);
});

test("the README shows what the package does", { skip }, () => {
    const [, program] = /```js\n([^]*?)```/.exec(readFileSync(join(here, "../README.md"), "utf8"));
    const { stdout, stderr } = spawnSync(
        process.execPath, ["--input-type=module", "-e", program], { encoding: "utf8", cwd: join(here, "..") }
    );
    assert.equal(stderr, "");
    assert.equal(stdout, `${/\/\/ (.*)/.exec(program)[1]}\n`);
});

const esbuild = spawnSync("esbuild", ["--version"]).error === undefined;
test("a bundle finds the module beside it", { skip: skip || !esbuild }, () => {
    const folder = mkdtempSync(join(tmpdir(), "bundle-"));
    try {
        writeFileSync(
            join(folder, "program.mjs"),
            `import { Laboratory } from ${JSON.stringify(join(here, "../index.mjs"))};\nconsole.log(String(await Laboratory.open()));\n`
        );
        const bundled = spawnSync(
            "esbuild",
            ["--bundle", "--format=esm", "--platform=neutral", "--external:node:*", "program.mjs", "--outfile=out/program.mjs"],
            { cwd: folder, encoding: "utf8" }
        );
        assert.equal(bundled.status, 0, bundled.stderr);
        copyFileSync(path, join(folder, "out/lgp_c_region.wasm"));
        assert.equal(
            spawnSync(process.execPath, ["out/program.mjs"], { cwd: folder, encoding: "utf8" }).stdout,
            "<Laboratory: halted operator, counter 0000, accumulator 00000000, clock 0>\n"
        );
    } finally {
        rmSync(folder, { recursive: true });
    }
});

test("a laboratory opens its own module, takes values, and says how it stands", { skip }, async () => {
    const laboratory = await Laboratory.open();
    for (const [address, word] of [["0100", "b 0102"], ["0101", 0.5], ["0102", -3], ["0103", "0000000f"]]) laboratory.put(address, word);
    laboratory.put("0104", 3, 5);
    assert.deepEqual([...laboratory.words("0100", 5).values()], ["00010108", "40000000", "wwwwwwwf", "0000000f", "0j000000"]);
    assert.deepEqual(
        [
            laboratory.numbers("0102").get("0102"),
            laboratory.numbers("0104", 1, 5).get("0104"),
            numberOf("00000018"),
            fractionOf("40000000"),
        ],
        [-3, 3, 12, 0.5]
    );
    laboratory.go("0100");
    const { at, order, after, cost, putThere } = laboratory.step();
    assert.deepEqual([at, order, numberOf(after), putThere.order], ["0100", "b 0102", -3, null]);
    assert.ok(cost > 0);
    assert.deepEqual(laboratory.lastRun, { orders: 1, end: "limit", rule: null, isMet: null, state: null });
    assert.match(inspect(laboratory), /^<Laboratory: going, counter 0101, accumulator wwwwwwwf, clock \d+>$/);
    laboratory.close();
    assert.equal(inspect(laboratory), "<Laboratory: closed>");
});

test("a source is loaded, run and looked at, and its faults are told", { skip }, async () => {
    const laboratory = await Laboratory.open();
    assert.deepEqual(laboratory.source("start b x\n a x\n h sum\n z\nx int 5 30\nsum int 0 30\n end start\n"), { cells: 6, start: "0000" });
    laboratory.load();
    laboratory.go("start");
    assert.deepEqual([laboratory.breakAt("0002"), laboratory.watch("sum")], [0, 1]);
    assert.deepEqual(laboratory.rules()[1], { number: 1, kind: "watch", address: "0005", label: "sum" });
    assert.deepEqual(laboratory.run(100).rule, 0);
    laboratory.drop(0);
    assert.equal(laboratory.run(100).rule, 0);
    assert.equal(laboratory.why("sum").order, "h 0005");
    assert.equal(laboratory.labels().get("sum"), "0005");
    assert.throws(
        () => laboratory.source(" add x\n"),
        ({ faults: [{ line, kind, columns, wrong }] }) => (
            line === 1 && kind === "UnknownOrder" && columns.join() === "1,4" && wrong === "there is no such operation"
        )
    );
    assert.deepEqual((await assemble(" z\n end\n")).text, "0000 00000000  z\n               end\n");
    assert.equal((await assemble(" z\n")).faults[0].kind, "NoEnd");
    assert.deepEqual(laboratory.optimum(1).free, []);
    laboratory.answer("source");
    assert.throws(() => laboratory.panel(), /a source is open/);
});

test("wrong arguments are named", { skip }, async () => {
    const laboratory = await Laboratory.open();
    const named = (call, message) => assert.throws(call, (failure) => failure instanceof TypeError && failure.message.includes(message));
    named(() => laboratory.words(50), "an address is a text, such as '0050' or a label, and not 50");
    named(() => laboratory.run("3"), "a whole number, and not '3'");
    named(() => laboratory.put("0000", null), "a word is a text of digits or an order, a whole number, or a fraction, and not null");
    named(() => laboratory.answer(5), "a line is a text or bytes, and not 5");
    assert.throws(() => laboratory.put("0000", 1.5), RangeError);
    assert.equal(laboratory.transcript(), "");
});

test("a desk types lines that name files", { skip }, async () => {
    const folder = mkdtempSync(join(tmpdir(), "desk-"));
    try {
        const desk = await Desk.open();
        assert.equal(desk.type("put 0050 = 3") + desk.type(`save ${join(folder, "drum")}`), `ok\nsaved ${join(folder, "drum")}\n`);
        assert.equal(readFileSync(join(folder, "drum"), "utf8"), "0050 00000006\n");
        desk.type("jump");
        assert.deepEqual([desk.isRefused, inspect(desk)], [true, "<Desk: bare, a reply was a refusal>"]);
        desk.type("quit");
        assert.deepEqual([desk.hasLeft, desk.leave()], [true, ""]);
        await assert.rejects(Desk.open("loud"), /manner is to be one of bare, prompting, echo, json, and not 'loud'/);
    } finally {
        rmSync(folder, { recursive: true });
    }
});

test("npm's programs are those of the module, with their help and their version", () => {
    const manifest = JSON.parse(readFileSync(join(here, "../package.json"), "utf8"));
    for (const name of ["lgp_lab", "lgp_monitor"]) {
        const called = (...words) => (
            spawnSync("node", [join(here, "..", manifest.bin[name]), ...words], { input: "panel\n", encoding: "utf8" })
        );
        assert.equal(
            called("--version").stdout,
            [`${name} ${manifest.version}`, manifest.homepage].filter((line) => line !== undefined).map((line) => `${line}\n`).join("")
        );
        assert.match(called("--help").stdout, new RegExp(`^Usage: ${name} `, "m"));
        if (!skip) assert.match(called().stdout, /^counter 0000 accumulator 00000000 /);
    }
    assert.match(
        spawnSync("node", [join(here, "../lgp_lab.mjs"), "help", "tape"], { encoding: "utf8" }).stdout, /^Usage: lgp_lab tape <FILE>$/m
    );
});

test("the file of the module's programs says how it is called", () => {
    const called = (...words) => spawnSync("node", [join(here, "../terminal.mjs"), ...words], { encoding: "utf8" });
    assert.match(called("--help").stdout, /^node terminal\.mjs lgp_lab\|lgp_monitor WORDS\.\.$/m);
    assert.deepEqual([called().status, called("lgp_other").status], [64, 64]);
});
