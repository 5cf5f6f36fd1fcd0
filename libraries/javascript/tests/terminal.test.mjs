// The programs lgp_lab and lgp_monitor over the module: what they write and with which status.
import assert from "node:assert/strict";
import { spawn, spawnSync } from "node:child_process";
import { cpSync, existsSync, mkdirSync, mkdtempSync, openSync, readFileSync, readdirSync, rmSync, writeFileSync } from "node:fs";
import { tmpdir } from "node:os";
import { dirname, join } from "node:path";
import { test } from "node:test";
import { fileURLToPath } from "node:url";
import { LineParts, standInOf, withoutReturn } from "../lines.mjs";

const top = fileURLToPath(new URL("../../..", import.meta.url));
const program = join(top, "libraries/javascript/terminal.mjs");
const examples = join(top, "examples");
const HANDED_BACK = 75;

const named = (ending) => readdirSync(examples, { recursive: true }).filter((name) => name.endsWith(ending)).sort();
const stored = (name) => readFileSync(join(examples, name), "utf8");

/** What a program writes and its status. */
function ran(name, words, input = "", options = {}) {
    const { stdout, stderr, status } = spawnSync("node", [program, name, ...words], { input, ...options });
    return { text: stdout?.toString(), told: stderr.toString(), status };
}

const lab = (words, input, options) => ran("lgp_lab", words, input, options);
const monitor = (words, input, options) => ran("lgp_monitor", words, input, options);

/** A test in a folder of its own, in which files stand. */
function inFolder(name, files, body) {
    test(name, () => {
        const cwd = mkdtempSync(join(tmpdir(), "terminal-"));
        try {
            for (const [file, text] of Object.entries(files)) writeFileSync(join(cwd, file), text);
            body({ cwd });
        } finally {
            rmSync(cwd, { recursive: true });
        }
    });
}

test("one line says at a terminal which program it is, and none in a pipe", () => {
    for (const [name, maker] of [["lgp_lab", "./prove"], ["lgp_monitor", "./prove lgp30m"]]) {
        const { stdout } = spawnSync("script", ["-qec", `node ${program} ${name} < /dev/null`, "/dev/null"]);
        assert.equal(stdout.toString(), `${name}: running the WebAssembly build in node; ${maker} builds the native program\r\n`);
        assert.equal(ran(name, [], "panel\n").told, "");
    }
});

test("scripts have the stored replies", () => {
    const scripts = named(".txt");
    assert.ok(scripts.length > 15);
    for (const script of scripts) {
        const wanted = stored(script.replace(/\.txt$/, ".expected"));
        const { text, status } = lab(["script", script], "", { cwd: examples });
        assert.deepEqual([script, text, status], [script, wanted, /^\?/m.test(wanted) ? 1 : 0]);
    }
    const { text } = lab(["batch", ...scripts], "", { cwd: examples });
    assert.equal(text, scripts.map((script) => `file ${script}\n${stored(script.replace(/\.txt$/, ".expected"))}`).join(""));
    assert.equal(lab([], stored("first-run.txt")).text, stored("first-run.expected"));
});

test("sessions are told as stored", () => {
    const sessions = named(".typed");
    assert.ok(sessions.length > 3);
    for (const session of sessions) assert.equal(monitor([], stored(session)).text, stored(session.replace(/\.typed$/, ".told")));
});

test("the session that the native program is tried by", () => {
    const crate = join(top, "crates/lgp30m");
    const cwd = mkdtempSync(join(tmpdir(), "terminal-"));
    cpSync(join(crate, "data"), cwd, { recursive: true });
    const words = readFileSync(join(crate, "args"), "utf8").trim().split("\n");
    const { text, status } = monitor(words, readFileSync(join(crate, "stdin")), { cwd });
    rmSync(cwd, { recursive: true });
    assert.equal(text, readFileSync(join(crate, "stdout"), "utf8"));
    assert.equal(status, Number(readFileSync(join(crate, "status"), "utf8")));
});

test("sources are listed and run", () => {
    // those in folders are parts of programs
    for (const source of named(".source").filter((name) => !name.includes("/"))) {
        const path = join(examples, source);
        assert.equal(lab(["asm", path]).text, stored(source.replace(/source$/, "listing")));
        assert.equal(lab(["run", path, "100"]).text, stored(source.replace(/source$/, "run")));
    }
});

inFolder("faults of a source", { faulty: " b none", long: `${" z\n".repeat(300_000)} z\n` }, (here) => {
    assert.deepEqual(
        [lab(["asm", "faulty"], "", here).text, lab(["run", "faulty", "5"], "", here).text],
        Array(2).fill("line 1 UnknownName\nline 2 NoEnd\n")
    );
    assert.equal(lab(["asm", "faulty"], "", here).status, 1);
    assert.match(lab(["asm", "long"], "", here).text, /^line 4097 PastEnd\n/m);
});

inFolder("a batch goes on after a refusal and ends at a file that is not there", { one: "foo\n", two: "turn 5\n" }, (here) => {
    assert.deepEqual(
        [lab(["batch", "one", "two"], "", here)].map(({ text, status }) => [text, status]), [["file one\n? 1 Form\nfile two\nclock 5\n", 1]]
    );
    assert.deepEqual(
        [lab(["batch", "two", "none", "one"], "", here)].map(({ text, status }) => [text, status]), [["file two\nclock 5\n", 2]]
    );
});

inFolder("statuses", { two: "turn 5\n" }, (here) => {
    mkdirSync(join(here.cwd, "folder"));
    const statuses = [["script", "two"], ["script", "none"], ["script", "folder"], ["asm", "none"], ["run", "none", "5"]].map(
        (words) => lab(words, "", here).status
    );
    assert.deepEqual(statuses, [0, 2, 2, 2, 2]);
    if (existsSync("/dev/full")) {
        const stdio = ["pipe", openSync("/dev/full", "w"), "pipe"];
        assert.equal(lab([], "panel\n", { stdio }).status, 2);
        assert.equal(monitor([], "panel\n", { stdio }).status, 2);
    }
});

inFolder("mistaken words have their own status, and nothing is read or done", { good: " z\n end\n" }, (here) => {
    const mistaken = {
        jump: "error: unrecognized subcommand 'jump'\n\nUsage: lgp_lab [COMMAND]",
        "--loud": "error: unexpected argument '--loud'\n\nUsage: lgp_lab [COMMAND]",
        asm: "error: the following required arguments were not provided:\n  <FILE>\n\nUsage: lgp_lab asm <FILE>",
        batch: "error: the following required arguments were not provided:\n  <FILE>...\n\nUsage: lgp_lab batch <FILE>...",
        run: "error: the following required arguments were not provided:\n  <FILE>\n  <LIMIT>\n\nUsage: lgp_lab run <FILE> <LIMIT>",
        "run good": "error: the following required arguments were not provided:\n  <LIMIT>\n\nUsage: lgp_lab run <FILE> <LIMIT>",
        "run good 4294967296": "error: invalid value '4294967296' for '<LIMIT>': it is a number from 0 to 4294967295\n\nUsage: lgp_lab run <FILE> <LIMIT>",
        "run good five": "error: invalid value 'five' for '<LIMIT>': it is a number from 0 to 4294967295\n\nUsage: lgp_lab run <FILE> <LIMIT>",
        "script a b": "error: unexpected argument 'b' found\n\nUsage: lgp_lab script <FILE>",
        "tape --loud": "error: unexpected argument '--loud' found\n\nUsage: lgp_lab tape <FILE>",
    };
    for (const [words, why] of Object.entries(mistaken))
        assert.deepEqual(
            [words, lab(words.split(" "), "panel\n", here)],
            [words, { text: "", told: `${why}\n\nFor more information, try '--help'.\n`, status: 64 }]
        );
    const usage = "Usage: lgp_monitor [OPTIONS] [FILE]...\n\nFor more information, try '--help'.\n";
    assert.deepEqual(
        monitor(["--none"], "panel\n", here), { text: "", told: `error: unexpected argument '--none' found\n\n${usage}`, status: 64 }
    );
    assert.deepEqual(
        monitor(["--echo", "--echo"], "panel\n", here),
        { text: "", told: `error: the argument '--echo' cannot be used multiple times\n\n${usage}`, status: 64 }
    );
    for (const call of [lab, monitor]) {
        assert.deepEqual(
            call(["script\ufffd"], "", here), { text: "", told: "error: the words of the command line are not UTF-8 text\n", status: 64 }
        );
    }
});

inFolder("words after two hyphens are files, and one hyphen is a file's name", { "--echo": "turn 5\n", "-": "turn 6\n" }, (here) => {
    assert.equal(monitor(["--", "--echo"], "", here).text, "clock 5\n");
    assert.equal(monitor(["-", "--echo"], "", here).text, "> turn 6\nclock 6\n");
    assert.equal(lab(["batch", "-", "--", "--echo"], "", here).text, "file -\nclock 6\nfile --echo\nclock 5\n");
});

inFolder("each source is listed, taped and run, whatever lines it has", {
    point: " z\n.\n end\n", wide: `; ${"x".repeat(5000)}\n end\n`, good: " z\n end 0000\n", last: " end",
}, (here) => {
    assert.equal(lab(["asm", "point"], "", here).text, "line 2 BadLabel\n");
    assert.equal(lab(["asm", "wide"], "", here).text, `              ; ${"x".repeat(5000)}\n               end\n`);
    assert.deepEqual(
        lab(["tape", "good"], "", here), { text: "000k0000'wwwwwwwj'00000000'[16]800f0000'\n", told: lab([], "", here).told, status: 0 }
    );
    assert.equal(lab(["asm", "last"], "", here).text, "               end\n");
    const piped = spawnSync("bash", ["-c", `cat | node ${program} lgp_lab asm /dev/stdin`], { input: " z\n end\n", ...here });
    assert.equal(piped.stdout.toString(), "0000 00000000  z\n               end\n");
});

inFolder("what cannot be read or written is said", {}, (here) => {
    mkdirSync(join(here.cwd, "folder"));
    assert.match(lab(["script", "folder"], "", here).told, /^lgp_lab: 'folder' is a folder, and no file\n$/);
    if (existsSync("/dev/full")) {
        assert.match(
            monitor([], "panel\n", { stdio: ["pipe", openSync("/dev/full", "w"), "pipe"] }).told,
            /^lgp_monitor: the output could not be written: the disk is full\n$/
        );
    }
});

test("an output that somebody stops reading ends the program without a word", () => {
    const call = (name, words) => spawnSync(
        "bash",
        ["-c", `node ${program} ${name} ${words} 2>told | head -n 1; cat told`],
        { input: "panel\n".repeat(20_000), cwd: mkdtempSync(join(tmpdir(), "terminal-")) }
    );
    for (const name of ["lgp_lab", "lgp_monitor"]) assert.match(call(name, "").stdout.toString(), /^counter 0000[^\n]*\n$/);
});

test("a long line is held by its front alone, and is the line that it is", () => {
    const parts = new LineParts();
    for (let count = 0; count < 1000; count++) assert.deepEqual(parts.linesIn(";".repeat(10_000)), []);
    assert.equal(parts.end(), `${";".repeat(4096)}.`);
    const signs = ["", " ", "\r", "\n", "x", " ".repeat(4095), "x".repeat(4094), " ".repeat(5000), "\r\n", "y".repeat(9000)];
    for (let number = 0; number < 1000; number++) {
        const pieces = Array.from(String(number).padStart(3, "0"), (digit) => signs[digit]);
        const lines = [...pieces.flatMap((piece) => parts.linesIn(piece)), ...(parts.hasBegun ? [parts.rest()] : [])];
        const [...whole] = pieces.join("").split("\n");
        const last = whole.pop();
        const wanted = [...whole.map(withoutReturn), ...(last === "" ? [] : [last])];
        assert.deepEqual(lines.map(standInOf), wanted.map(standInOf), JSON.stringify(pieces.map((piece) => piece.length)));
    }
});

test("a reply comes before the next line is read", async () => {
    const child = spawn("node", [program, "lgp_monitor"], { stdio: ["pipe", "pipe", "ignore"] });
    const replies = child.stdout[Symbol.asyncIterator]();
    for (const [line, reply] of [["put 0000 = 5", "ok\n"], ["words 0000 1", "0000 0000000f\n"]]) {
        child.stdin.write(`${line}\n`);
        assert.equal((await replies.next()).value.toString(), reply);
    }
    child.stdin.write("quit\nwords 0000 1\n");
    assert.equal((await replies.next()).done, true);
});

test("bytes that are no text, long lines and a last line without an end", () => {
    assert.equal(monitor([], Buffer.from("; \xe4\xff\ntranscript", "latin1")).text, "; \ufffd\ufffd\n");
    assert.equal(monitor([], `${" ".repeat(5000)}x\n`).text, monitor([], `${"y".repeat(5000)}\n`).text);
    assert.equal(monitor([], `${" ".repeat(5000)}\n`).text, "");
    assert.equal(monitor([], "panel\r").status, 1);
    assert.match(monitor(["--echo"], `quit${" ".repeat(4100)}\n`).text, /^\? quit *\.\.\n\? 11 TooLong/);
});

const LESSON = "put 0000 b 0003\nput 0003 = 4\nsave drum\nput 0003 = 5\nput 0009 = 1\nrestore drum\n";

inFolder("a dump is kept and given back, without a trace of what was asked", {
    lesson: LESSON, again: "press start\nrestore drum\n",
}, (here) => {
    assert.equal(monitor(["lesson"], "transcript\n", here).text, [
        "ok", "ok", "saved drum", "ok", "ok", "restored 2",
        "put 0000 0001000j", "put 0003 00000008", "put 0003 0000000f", "put 0009 00000002", "put 0003 00000008", "put 0009 00000000", "",
    ].join("\n"));
    assert.equal(readFileSync(join(here.cwd, "drum"), "utf8"), "0000 0001000j\n0003 00000008\n");
    assert.deepEqual(readdirSync(here.cwd).sort(), ["again", "drum", "lesson"]);
    assert.match(
        monitor(["again"], "transcript\n", here).text,
        /^live\n\? 2 Moving: the machine is running.*\n +drum, line 2 of again\npress start\n$/
    );
});

inFolder("nothing is left out of the transcript of a new laboratory", { drum: "0000 00000002\n" }, (here) => {
    const lines = "put 0000 00000004\n".repeat(9);
    assert.equal(monitor([], `restore drum\nnew\n${lines}transcript\n`, here).text, `restored 1\nnew\n${"ok\n".repeat(9)}${lines}`);
});

const two = (number) => String(number).padStart(2, "0");
const FULL = Array.from({ length: 4000 }, (_, place) => `${two(place >> 6)}${two(place & 63)} 00000002\n`).join("");

inFolder("a dump is given back as often as one likes", { drum: FULL }, (here) => {
    assert.equal(monitor([], "restore drum\nnew\n".repeat(60), here).text, "restored 4000\nnew\n".repeat(60));
});

inFolder("dumps that are none", {
    odd: "0000 00000001\n", zero: "0000 00000000\n", order: "0001 00000002\n0000 00000002\n", end: "0000 00000002\n#.\n",
    wide: "0000  00000002\n",
}, (here) => {
    assert.equal(monitor([], "restore odd\nrestore zero\nrestore order\nrestore end\nrestore wide\n", here).text, [
        "? 1 Form: line 1 is not a line of a dump", "        odd", "? 1 Form: line 1 is not a line of a dump", "        zero",
        "? 1 Form: the address of line 2 is not above that of the line before it", "        order",
        "? 1 Form: line 2 is not a line of a dump", "        end", "? 1 Form: line 1 is not a line of a dump", "        wide", "",
    ].join("\n"));
});

inFolder("tapes of many lines and groups", {
    lines: `${"0".repeat(80)}\n`.repeat(51) + "0".repeat(10),
    groups: `${"[02]".repeat(20)}\r\n`.repeat(60),
    cut: `${"0".repeat(4088)}[02]1\n`,
    long: `${"0".repeat(80)}\n`.repeat(51) + "0".repeat(11), bad: `${"0".repeat(80)}\n`.repeat(60) + "[6x]", empty: "",
}, (here) => {
    const { text } = monitor([], "tape lines\ntape groups\ntape cut\ntape long\ntape bad\ntape empty\n", here);
    assert.deepEqual(text.trimEnd().split("\n"), [
        "ok 4090", "ok 1200", "ok 4090", "ok 4091",
        "? 13 File bad: the byte at place 4860, counting from 0, in line 61, does not begin a tape sign", "ok 0",
    ]);
});

inFolder("tapes", { tape: "l2\n[16][02]'\n", cut: "[1\n6]", bad: "12\n3Q", long: "1".repeat(5000), archive: "12!16'\n" }, (here) => {
    const { text, status } = monitor([], "tape tape\ntape cut\ntape bad\ntape long\narchive archive\ntranscript\n", here);
    assert.equal(status, 1);
    assert.equal(text, [
        "ok 5", "? 13 File cut: the byte at place 0, counting from 0, in line 1, does not begin a tape sign",
        "? 13 File bad: the byte at place 4, counting from 0, in line 2, does not begin a tape sign",
        "ok 5000", "ok 4", "mount 12[16]0'", "tape long", "mount 12[16]'", "",
    ].join("\n"));
});

inFolder("what was printed is kept as text, without a trace of what was asked", {}, (here) => {
    const lines =
        "put 0000 p =h\nput 0001 p 0400\nput 0002 z\npress start\npunch blank\nrun 9\npunch tape\n  punch   tape two \ntape tape\nsource\npunch none\n.\ntranscript\n";
    assert.equal(monitor([], lines, here).text, [
        "ok", "ok", "ok", "live", "saved blank", "ran 3 rest", "saved tape", "saved tape two", "ok 2", "? 9 Faults", "line 1 UnknownOrder",
        "        punch none", "              ^^^^", "        there is no such operation: write one of the sixteen letters, -t, word, frac, int, org or end",
        "line 2 NoEnd", "        the end line is missing: end with a line that has end and the label of the first order",
        "put 0000 00083100", "put 0001 00080400", "put 0002 00000000", "press start", "run 9", "mount h[04]", "source", "punch none", ".",
        "",
    ].join("\n"));
    assert.deepEqual(readdirSync(here.cwd).sort(), ["blank", "tape", "tape two"]);
    assert.deepEqual(["blank", "tape", "tape two"].map((name) => readFileSync(join(here.cwd, name), "utf8")), ["", "h[04]", "h[04]"]);
});

inFolder("a tape and a drum are kept and read in each form", {}, (here) => {
    const kept = "mount 12[16]0'\ncopy text\ncopy-archive archive\ncopy-bytes bytes\nput 0050 = 3\nsave-simh drum\nput 0050 = 4\n";
    const read = "archive archive\nbytes bytes\ntape text\nrestore-simh drum\ntranscript\n";
    assert.equal(monitor([], kept + read, here).text, [
        "ok 5", "saved text", "saved archive", "saved bytes", "ok", "saved drum", "ok", "ok 5", "ok 5", "ok 5", "restored 1",
        "mount 12[16]0'", "put 0050 00000006", "put 0050 00000008", "mount 12[16]0'", "mount 12[16]0'", "mount 12[16]0'",
        "put 0050 00000006", "",
    ].join("\n"));
    assert.deepEqual(readdirSync(here.cwd).sort(), ["archive", "bytes", "drum", "text"]);
});

inFolder("files that are refused", { point: " z\n.\n", self: "do self\n" }, (here) => {
    mkdirSync(join(here.cwd, "folder"));
    assert.equal(monitor([], "source point\ndo none\ndo folder\nsave folder/none/drum\nsave folder\n", here).text, [
        "? 13 File point: a line with only a point would end the source",
        "? 13 File none: it cannot be opened",
        "? 13 File folder: it cannot be read",
        "? 13 File folder/none/drum: it cannot be written, and is unchanged",
        "? 13 File folder: it cannot be written, and is unchanged",
        "",
    ].join("\n"));
    assert.deepEqual(readdirSync(here.cwd).sort(), ["folder", "point", "self"]);
    assert.match(
        monitor(["self"], "", here).text, /^\? 13 File self: 16 files are already open, each from the one before\n +line 1 of self\n$/
    );
    assert.equal(monitor(["none"], "", here).text, "? 13 File none: it cannot be opened\n        named on the command line\n");
});

inFolder("a source that a file leaves open takes the lines that are typed", { open: "source\n z\n" }, (here) => {
    assert.equal(monitor(["open"], "do open\n end\n.\nfoo\n", here).text, [
        "? 9 Faults", "line 2 UnknownOrder", "        do open", "           ^^^^",
        "        there is no such operation: write one of the sixteen letters, -t, word, frac, int, org or end",
        "? 1 Form: there is no such command; help lists them all", "",
    ].join("\n"));
});
