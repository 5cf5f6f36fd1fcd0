// The check of the page says exactly what ./check_task says: of each solution and each mistake what is beside it in
// teaching/tasks/solutions.
import assert from "node:assert/strict";
import { existsSync, readFileSync, readdirSync } from "node:fs";
import { dirname, join } from "node:path";
import { test } from "node:test";
import { fileURLToPath } from "node:url";
import { tasksBelow } from "../documents.mjs";
import { checked, setUpOf, speaker, taskIn, textAtPage } from "../task.mjs";
import { LANGUAGES } from "../words.mjs";
import { ModuleLink } from "../module_link.mjs";

const top = join(dirname(fileURLToPath(import.meta.url)), "../..");
const module = join(top, "libraries/javascript/lgp_c_region.wasm");
const skip = !existsSync(module);
const { tasks, sentences } = tasksBelow(join(top, "teaching/tasks"), join(top, "examples"));
const solutions = join(top, "teaching/tasks/solutions");
const read = (name) => readFileSync(join(solutions, name), "utf8");

/** What the page says of sources, as ./check_task writes it. */
async function said(name, files, code) {
    const [link, task] = [new ModuleLink(module), taskIn(tasks[name].task)];
    let text = "";
    for (const [file, source] of files) {
        const { verdict, missing } = await checked(link, task, source, { file, sentences: sentences[code], code });
        text += [verdict, ...missing.map((line) => `    ${line}`), ""].join("\n");
    }
    return text;
}

test("the page has all tasks, the shortest first, with their texts in each language of the page", () => {
    const names = readdirSync(join(top, "teaching/tasks"), { withFileTypes: true })
        .filter((it) => existsSync(join(top, "teaching/tasks", it.name, "task")))
        .map(({ name }) => name);
    assert.deepEqual(Object.keys(tasks).sort(), names.sort());
    const minutes = Object.values(tasks).map(({ task }) => taskIn(task).minutes);
    assert.deepEqual(minutes, minutes.toSorted((one, other) => one - other));
    for (const { texts } of Object.values(tasks)) assert.deepEqual(Object.keys(texts).sort(), Object.keys(LANGUAGES).sort());
});

for (const name of Object.keys(tasks)) {
    test(`what is said of the solution and the mistakes of ${name} is beside them`, { skip }, async () => {
        const files = [`${name}.source`, `${name}.wrong-1.source`, `${name}.wrong-2.source`].map((file) => [file, read(file)]);
        for (const code of Object.keys(sentences)) assert.equal(await said(name, files, code), read(`${name}.${code}`), code);
    });
}

/**
 * Sources that .ci/tasks has ./check_task say the same of: what each is, and of what is said of it the sentence's name and the words put
 * in.
 */
const ODD = [
    ["", ["fault", "1", "fault.NoEnd", ""]],
    ["start\0\x01\x02", ["no-text"]],
    ["start z\n end start\n.\npress manual\n", ["point"]],
    ["start z\n z ; \u00fcber\n end start", ["fault", "2", "fault.BadByte", ': " z ; ??ber"']],
    ["start p =A\r\n end start\r\n", ["fault", "1", "fault.BadOperand", ': "start p =A"']],
    [
        " q\n".repeat(12),
        ...Array.from({ length: 10 }, (unused, place) => ["fault", String(place + 1), "fault.UnknownOrder", ': " q"']),
        ["more-faults", "3"],
    ],
    ["; a comment\n".repeat(100_000), ["too-long"]],
    [`${";".repeat(5000)}\n end\n`, ["too-long"]],
    [" p =a\n p =b\n end\n", ["no-start"]],
    ["start u start\n end start\n", ["not-ended", "100", "0000"], ["printed-like", "nothing", "like"]],
    ["start b big\n p =a\n p =a\n a big\nbig frac .9\n end start\n", ["ended-in.halted-overflow", "0004"]],
    ["start p =a\n p =a\n i 0000\n end start\n", ["ended-in.waiting", "0003"]],
    [" end\n\n printed\n", ["fault", "3", "fault.AfterEnd", ': " printed"']],
    [" end\n. \n", ["fault", "2", "fault.AfterEnd", ': ". "']],
];

test("odd sources get their sentences", { skip }, async () => {
    for (const [code, table] of Object.entries(sentences)) {
        const say = speaker({ ...table, like: taskIn(tasks.initials.task).likes[code] });
        const wordOf = (word) => (word in table || word === "like" ? say(word) : word);
        for (const [source, ...missing] of ODD) {
            const wanted = [
                say("wrong", "odd"), ...missing.map(([name, ...words]) => `    ${say(name, ...words.map(wordOf))}`), "",
            ].join("\n");
            assert.equal(await said("initials", [["odd", source]], code), wanted);
        }
    }
});

/** A task with each kind of line, its source, and of what is missing the sentences' names and words. */
const OWN =
    "limit 50\nbegin put 0300 00000002\nmost orders 1\nmost times 2\nmost words 1\nwant counter 0000\nwant shows 0000 a 0300\nwant word 0300 00000004 2\nwant status halted overflow\n";
const OWN_MISSING = [
    ["ended-in", "halted stop", "halted overflow", "0002"],
    ["words", "2", "1"],
    ["counter", "0002", "0000"],
    ["shows", "0000", "b 0300", "a 0300"],
    ["word", "0300", "1 (00000002)", "2 (00000004)"],
];

test("a task of one's own: each kind of line, and a line in no form", { skip }, async () => {
    const check = (task) => checked(
        new ModuleLink(module), taskIn(task), "start b 0300\n z\n end start\n", { file: "two", sentences: sentences.en, code: "en" }
    );
    const say = speaker(sentences.en);
    assert.deepEqual(
        await check(OWN), { isRight: false, verdict: say("wrong", "two"), missing: OWN_MISSING.map((words) => say(...words)) }
    );
    const { missing } = await check("most orders 1\nmost times 2\n");
    assert.deepEqual(
        missing.map((line) => line.replace(/took \d+ word/, "took 9 word")), [say("orders", "2", "1"), say("times", "9", "2")]
    );
    assert.throws(() => taskIn("minutes 5\nwnat printed x\n"), /faulty-task: 2: wnat printed x/);
});

test("a machine is set up as the first try begins", () => {
    const task = taskIn(tasks.sum.task);
    assert.equal(setUpOf(task, null), "press manual\nput 0300 0000000f\nput 0301 0000000q\npress normal\npress start");
    assert.equal(setUpOf(task, " end\n"), `source\n end\n.\nload\n${setUpOf(task, null)}`);
});

test("at the page a task asks for no line that the page does by itself, and all else of its text is as it is", () => {
    let changed = 0;
    for (const { texts } of Object.values(tasks)) for (const [code, text] of Object.entries(texts)) {
        const seen = textAtPage(text, "DONE:");
        const prose = seen.split(/\n\n+/).filter((block) => !block.startsWith("    ")).join("\n");
        assert.doesNotMatch(
            prose, /\b(re)?typ(e|ing)\b|\b(ab)?tipp(e|en|t)\b|Load your program first|Lade zuerst/i, `${seen.slice(0, 40)} in ${code}`
        );
        const [before, after] = [text, seen].map((it) => it.trim().split(/\n\n+/));
        assert.equal(before.length, after.length);
        const others = before.filter((block, place) => block !== after[place]);
        assert.ok(others.every((block) => block.endsWith(":")) && others.length <= 1);
        changed += others.length;
    }
    assert.ok(changed >= 18, `${changed}`);
});
