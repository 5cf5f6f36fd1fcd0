// The form of an exhibit's file: what is right is read, and each kind of mistake is refused by a sentence that names the field, what stands
// there, and what was wanted.
import assert from "node:assert/strict";
import { readFileSync, readdirSync } from "node:fs";
import { dirname, join } from "node:path";
import { test } from "node:test";
import { fileURLToPath } from "node:url";
import { exhibitsBelow } from "../documents.mjs";
import { exhibitIn, scriptOfProgram } from "../exhibits.mjs";
import { askedIn, addressOf } from "../opening.mjs";

const top = join(dirname(fileURLToPath(import.meta.url)), "../..");
const said = (en) => ({ en, de: `${en} (de)` });
/** A small exhibit, with all kinds of fields. */
const small = () => ({
    title: said("Small"),
    scenes: {
        attract: {
            program: "message",
            do: [{ press: "start" }, { run: 1, to: { row: "good" } }],
            captions: [{ text: said("Look") }],
            buttons: [{ text: said("On"), to: "on", bet: true, main: true }, null, null, "language"],
        },
        on: {
            program: ["start z 0000", " end start"], beside: { bits: "start" }, then: "attract",
            do: [
                { type: "h'" },
                { again: "10", after: " '" },
                { mount: "1'" },
                { tear: true },
                { run: "fast" },
                { run: "slow", to: { place: "start", times: 2 } },
                { run: 0.5, to: { orders: 3 } },
                { run: 2, to: "keys" },
                { carry: "start" },
                { rest: 2 },
            ],
            captions: [
                { text: said("A"), row: "10" },
                { text: said("B"), place: "start", times: 2 },
                { text: said("C"), order: "z 0000" },
                { text: said("D"), when: "done", bet: 1 },
            ],
            buttons: [{ text: said("More"), do: [{ press: "transfer down" }] }, { text: said("Bit"), bits: 1 }, "halt", "start"],
        },
    },
});
const read = (exhibit) => exhibitIn(JSON.stringify(exhibit), (name) => name === "message");

test("an exhibit with all kinds of fields is read as it stands", () => {
    assert.deepEqual(read(small()), { exhibit: small(), wrong: null });
});

/** Each mistake: what is done to the small exhibit, and the sentence. */
const MISTAKES = [
    [(it) => { it.colour = "red"; }, "colour is not a field. The fields here are title, scenes."],
    [
        (it) => { it.scenes.attract.sound = true; },
        "scenes.attract.sound is not a field. The fields here are program, do, captions, beside, buttons, then.",
    ],
    [
        (it) => { it.scenes.on.captions[0].line = "10"; },
        "scenes.on.captions[0].line is not a field. The fields here are text, row, place, times, order, when, bet.",
    ],
    [(it) => { delete it.title; }, "title is missing. It has to be there: an exhibit has a title and scenes."],
    [(it) => { delete it.title.de; }, "title.de is missing. It has to be there: a text has to be there in each language, en and de."],
    [(it) => { it.title.en = ""; }, 'title.en is "". It has to be a text of at most 60 characters.'],
    [(it) => { it.title.en = "x".repeat(61); }, `title.en is "${"x".repeat(56)}.... It has to be a text of at most 60 characters.`],
    [
        (it) => { delete it.scenes.attract; delete it.scenes.on.then; },
        "scenes.attract is missing. An exhibit begins with this scene, and comes back to it.",
    ],
    [
        (it) => { it.scenes.attract.program = "mesage"; },
        'scenes.attract.program is "mesage". There is no example with this name in examples/.',
    ],
    [(it) => { delete it.scenes.attract.program; }, "scenes.attract.program is missing. The first scene has to open a program."],
    [
        (it) => { it.scenes.on.program = 7; },
        "scenes.on.program is 7. It has to be the name of an example, or a list of the lines of a source.",
    ],
    [
        (it) => { it.scenes.On = it.scenes.on; },
        'the name of a scene, "On", is "On". It has to be a name of small letters, digits and hyphens.',
    ],
    [
        (it) => { it.scenes.on.beside.orders = "start"; },
        'scenes.on.beside is {"bits":"start","orders":"start"}. Orders and their count go together.',
    ],
    [(it) => { it.scenes.attract.buttons[0].to = "off"; }, 'scenes.attract.buttons[0].to is "off". The scenes are attract, on.'],
    [(it) => { it.scenes.attract.buttons = []; }, "scenes.attract.buttons is []. It has to be a list of 1 to 4 buttons."],
    [(it) => { it.scenes.attract.buttons.push(null); }, /^scenes\.attract\.buttons is \[.*\.\.\. It has to be a list of 1 to 4 buttons\.$/],
    [
        (it) => { it.scenes.attract.buttons = ["language"]; },
        'scenes.attract.buttons is ["language"]. One of them has to lead on: "start", or a button with "to".',
    ],
    [
        (it) => { it.scenes.attract.buttons[1] = "begin"; },
        'scenes.attract.buttons[1] is "begin". It has to be "start" or "language" or "halt".',
    ],
    [
        (it) => { it.scenes.attract.buttons[1] = { text: said("No") }; },
        /^scenes\.attract\.buttons\[1\] is \{.*\. It has to be null, "start", "language" or "halt", or to have a text, and to, do or bits\.$/,
    ],
    [
        (it) => { it.scenes.on.do[0] = { pres: "start" }; },
        'scenes.on.do[0] is {"pres":"start"}. It has to be one of press, type, again, mount, tear, run, carry and rest.',
    ],
    [(it) => { it.scenes.on.do[0] = { press: "start", type: "1'" }; }, /It has press and type, and only one of them is possible\.$/],
    [(it) => { it.scenes.on.do[0] = { press: "begin" }; }, /^scenes\.on\.do\[0\]\.press is "begin"\. It has to be a button or a switch/],
    [(it) => { it.scenes.on.do[0] = { type: "A'" }; }, /^scenes\.on\.do\[0\]\.type is "A'"\. It has to be what is struck/],
    [(it) => { it.scenes.on.do[0] = { type: "1'\nquit" }; }, /^scenes\.on\.do\[0\]\.type is "1'\\nquit"\. It has to be what is struck/],
    [
        (it) => { delete it.scenes.on.do[1].after; },
        "scenes.on.do[1].after is missing. It has to be there: after each number of the row these keys are struck, such as \" '\".",
    ],
    [(it) => { it.scenes.on.do[6].run = "quick"; }, 'scenes.on.do[6].run is "quick". It has to be "fast" or "slow".'],
    [
        (it) => { it.scenes.on.do[6].run = 5000; },
        'scenes.on.do[6].run is 5000. It has to be "fast", "slow", or how many times faster than the machine, from 0.01 to 2000.',
    ],
    [
        (it) => { it.scenes.on.do[6].to = { line: "10" }; },
        /^scenes\.on\.do\[6\]\.to is \{"line":"10"\}\. It has to be "keys", "stop", or one of/,
    ],
    [(it) => { it.scenes.on.do[9].rest = 0; }, "scenes.on.do[9].rest is 0. It has to be a whole number from 1 to 600."],
    [(it) => { delete it.scenes.on.beside; }, /^scenes\.on\.beside is missing\. A carry is shown bit by bit/],
    [
        (it) => { it.scenes.on.beside = { words: "4000" }; },
        "scenes.on.beside.count is missing. It has to be there: it says how many words are shown.",
    ],
    [(it) => { it.scenes.on.captions = []; }, "scenes.on.captions is []. It has to be a list of at least one caption."],
    [
        (it) => { it.scenes.on.captions[0].when = "done"; },
        /^scenes\.on\.captions\[0\] is \{.*\. Only one of row, place, order and when is possible\.$/,
    ],
    [(it) => { it.scenes.on.captions[0].times = 2; }, "scenes.on.captions[0].times is 2. It goes with place."],
    [
        (it) => { it.scenes.on.captions[0].row = 10; },
        'scenes.on.captions[0].row is 10. It has to be the text with which a printed row begins, such as "0250".',
    ],
];

test("each mistake is refused by its sentence", () => {
    for (const [spoil, sentence] of MISTAKES) {
        const it = small();
        spoil(it);
        const { exhibit, wrong } = read(it);
        assert.equal(exhibit, null);
        if (sentence instanceof RegExp) assert.match(wrong, sentence);
        else assert.equal(wrong, sentence);
    }
    for (const file of ["", "{", "7", "null", "[]"]) {
        assert.match(exhibitIn(file, () => true).wrong, /^The file is (not JSON: .+|7\. .+|null\. .+|\[\]\. .+)/, file);
    }
    assert.equal(exhibitIn(" ".repeat(60_001), () => true).wrong, "The file has 60001 characters. At most 60000 are read.");
});

test("whatever stands in a file, it is read or refused, and nothing else happens", () => {
    const values = [null, true, 0, -1, 1e9, "", "x", [], {}, [[]], { toString: 1 }, { __proto__: null, constructor: 2 }];
    const walk = (value, set) => {
        for (const other of values) { set(other); assert.equal(typeof (read(current).wrong ?? ""), "string"); }
        set(value);
        if (value !== null && typeof value === "object") {
            for (const key of Object.keys(value)) walk(value[key], (it) => { value[key] = it; });
        }
    };
    const current = small();
    for (const key of Object.keys(current)) walk(current[key], (it) => { current[key] = it; });
    assert.deepEqual(current, small());
});

test("the exhibits of the page are right, and each file is in their order", () => {
    const folder = join(top, "page/exhibits");
    const files = readdirSync(folder).filter((name) => name.endsWith(".json")).map((name) => name.slice(0, -".json".length));
    assert.deepEqual(Object.keys(exhibitsBelow(folder, join(top, "examples"))).sort(), files.sort());
});

test("no exhibit of the page has a printed row stored: a caption names the beginning of one alone", () => {
    for (const name of readdirSync(join(top, "page/exhibits"))) {
        assert.doesNotMatch(readFileSync(join(top, "page/exhibits", name), "utf8"), /\d{4}\s+-?\d{4}\s+-?\d{4}/, name);
    }
});

test("a program is the script of an example, or a source that is loaded", () => {
    assert.deepEqual(
        [scriptOfProgram("message", (name) => `; ${name}`), scriptOfProgram(["a", "b"], () => "")], ["; message", "source\na\nb\n.\nload\n"]
    );
});

test("an address names an exhibit, or has it in itself", () => {
    const asked = (search, hash) => {
        const { isKiosk, example, exhibit } = askedIn({ search, hash });
        return [isKiosk, example, exhibit];
    };
    assert.deepEqual(
        [asked("", "#kiosk"), asked("", "#kiosk=weather"), asked("?kiosk=loop", ""), asked("", "#exhibit=%7B%7D"), asked("", "#first-run")],
        [[true, null, null], [true, "weather", null], [true, "loop", null], [true, null, "{}"], [false, "first-run", null]]
    );
    assert.deepEqual(
        ["#kiosk=weather", "#exhibit=%7B%7D", "#kiosk", "#first-run"].map((hash) => askedIn({ search: "", hash }).door),
        ["hall", "hall", "hall", "work"]
    );
    assert.equal(addressOf({ kiosk: "loop" }, { search: "?lang=de" }), "?lang=de&kiosk=loop");
});
