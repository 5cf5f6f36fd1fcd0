// Views in a document without a browser: what is told, what is live, what a press does, and what the keys of a list do.
import assert from "node:assert/strict";
import { test } from "node:test";
import { codesOf } from "../../libraries/javascript/replies.mjs";
import { holesOf } from "../flexowriter.mjs";
import { LANGUAGES, textsIn } from "../words.mjs";
import { openWindow, pressKey, textsOf } from "./window.mjs";

const isOpen = openWindow();
const options = isOpen ? {} : { skip: "jsdom is not installed" };
const viewed = (name, work) => test(name, options, async () => {
    document.body.replaceChildren();
    await work();
});
const from = async (view) => (isOpen ? import(`../views/${view}.mjs`) : {});
const texts = textsIn("en");

/** A laboratory of which a view sees what it is given, and notes what it is asked to do. */
function laboratoryOf(more = {}) {
    const asked = [];
    const noted = (name) => (...given) => { asked.push([name, ...given]); };
    const names = ["command", "tell", "back", "addUp", "say", "scriptLines"];
    const actions = Object.fromEntries(names.map((name) => [name, noted(name)]));
    const panel = {
        counter: "0013", accumulator: "00000018", register: "000f0012", status: "halted stop", mode: "normal", clock: 1234567n, tape: 0,
        readerOn: false, down: { bp32: false, bp16: false, bp8: true, bp4: false, transfer: false, sixbit: false },
    };
    return {
        asked, panel, live: new Set(["start"]), way: { kind: "start" }, history: { behind: 0, typed: [] }, orderInRegister: "u 0012",
        struck: null, printed: { count: 0, text: "" }, openSource: null, loaded: null, loading: null, rows: [], profile: null,
        script: null, talk: [], awaited: [], usesWord: (letter) => letter !== "u", ...actions, ...more,
    };
}

const { makeTabs, reveal } = await from("tabs");
viewed("of tabs one is seen, by a press, by arrows, and after the page was laid anew", () => {
    const entries = ["first", "second", "third"].map((name) => ({ name, title: name, nodes: [document.createElement("p")] }));
    const { node, set } = makeTabs("some", "some tabs");
    document.body.append(node);
    // as long as none was chosen, the first one is seen, whichever that is
    set([...entries].reverse());
    assert.equal([...node.querySelectorAll(".tab-panel")].find((it) => !it.hidden).dataset.panel, "third");
    set(entries);
    const tabs = () => [...node.querySelectorAll("[role=tab]")];
    const seen = () => [...node.querySelectorAll(".tab-panel")].filter((it) => !it.hidden).map((it) => it.dataset.panel).join();
    const chosen = () => tabs().filter((it) => it.getAttribute("aria-selected") === "true").map((it) => it.dataset.tab).join();
    assert.deepEqual([seen(), chosen()], ["first", "first"]);
    tabs()[1].click();
    assert.deepEqual([seen(), chosen()], ["second", "second"]);
    pressKey(tabs()[1], "ArrowRight");
    assert.deepEqual([seen(), document.activeElement.dataset.tab], ["third", "third"]);
    pressKey(tabs()[2], "ArrowRight");
    assert.equal(seen(), "first");
    pressKey(tabs()[0], "ArrowLeft");
    const again = makeTabs("some", "some tabs");
    again.set(entries);
    assert.equal([...again.node.querySelectorAll(".tab-panel")].find((it) => !it.hidden).dataset.panel, "third");
    reveal(entries[0].nodes[0]);
    assert.equal([...again.node.querySelectorAll(".tab-panel")].find((it) => !it.hidden).dataset.panel, "first");
});

const { makeConsole, makeKeyboard } = await from("console");
viewed("a dead button says so and does nothing, a live one is pressed, and a lever goes to where it is not", () => {
    const laboratory = laboratoryOf();
    const { node, show } = makeConsole(laboratory, texts);
    document.body.append(node);
    show();
    const named = (name) => node.querySelector(`[data-name="${name}"]`);
    for (const name of ["read", "start", "bp8", "bp4"]) named(name).click();
    assert.deepEqual(laboratory.asked, [
        ["tell", { kind: "dead", detail: texts.table.button.read[0] }], ["command", "press start"], ["command", "press bp8 up"],
        ["command", "press bp4 down"],
    ]);
    const isDead = (name) => named(name).getAttribute("aria-disabled");
    assert.deepEqual([isDead("read"), isDead("start")], ["true", "false"]);
    assert.deepEqual(["bp8", "bp4"].map((name) => named(name).getAttribute("aria-checked")), ["true", "false"]);
    assert.deepEqual(["normal", "oneop"].map((name) => named(name).getAttribute("aria-pressed")), ["true", "false"]);
});

viewed("a typewriter is one stop of Tab, and its live keys type", () => {
    const laboratory = laboratoryOf({ live: new Set(["keys"]), way: { kind: "keys" } });
    const { node, show } = makeKeyboard(laboratory, texts, { playing: () => null, held: () => null });
    document.body.append(node);
    show();
    const keys = [...node.querySelectorAll("[data-key]")];
    assert.equal(keys.filter(({ tabIndex }) => tabIndex === 0).length, 1);
    keys[0].focus();
    pressKey(keys[0], "ArrowRight");
    assert.equal(document.activeElement, keys[1]);
    keys[1].click();
    keys.at(-1).click();
    assert.deepEqual(laboratory.asked, [
        ["command", `type ${keys[1].dataset.key}`], ["tell", { kind: "dead", detail: texts.text("conditionalStop") }],
    ]);
    const [struck] = codesOf("d");
    Object.assign(laboratory, { struck, printed: { count: 1, text: "d" } });
    show();
    assert.deepEqual([...node.querySelectorAll(".down")].map(({ dataset }) => dataset.key), ["d"]);
    const holes = holesOf(struck.code).map((isHole) => (isHole ? "●" : "○")).join("");
    assert.equal(node.querySelector('[data-key="d"]').dataset.holes.replace(" ", ""), holes);
});

const { makePanel } = await from("panel");
viewed("the panel has each register with its bits and what they mean, in both languages", () => {
    for (const [code, clock] of [["en", "1,234,567"], ["de", "1\u202f234\u202f567"]]) {
        const { node, show } = makePanel(laboratoryOf(), textsIn(code));
        show();
        assert.deepEqual(textsOf(node.querySelectorAll("code")), ["0013", "00000018", "000f0012"]);
        const bits = [...node.querySelectorAll(".lamps")].map((it) => it.getAttribute("aria-label").split(" ").at(-1));
        // the digits of a word are 0 to 9, f, g, j, k, q, w: 18 is 16 and 8, f is ten
        assert.deepEqual(bits.map((it) => [it.length, Number.parseInt(it, 2)]), [[32, 0x18], [32, 0xa0012]]);
        assert.match(node.textContent, new RegExp(clock));
        assert.match(node.textContent, /u 0012/);
    }
});

const { makeTurns } = await from("turns");
viewed("the drum's last turns are drawn while they are open, each run of a kind in its colour", () => {
    const signs = `${".".repeat(30)}FFi${"R".repeat(5)}x${"-".repeat(25)}`;
    const laboratory = laboratoryOf({ rows: [{ clock: 64, signs }] });
    const told = [];
    const { node, show } = makeTurns(laboratory, texts, false, (is) => told.push(is));
    show();
    assert.equal(node.querySelector(".drum-row"), null);
    node.open = true;
    show();
    assert.deepEqual(textsOf(node.querySelectorAll(".half")).join(""), signs);
    const kinds = [...node.querySelectorAll(".half span")].map(({ className, textContent }) => `${className} ${textContent.length}`);
    // a row is in two halves of 32 word times
    assert.deepEqual(kinds, ["wait 30", "find 2", "take 1", "seek 5", "act 1", "none 25"]);
    assert.match(node.querySelector(".row-clock").textContent, /^ *64 +$/);
});

const { makePace } = await from("pace");
viewed("the drive says what comes, goes one way back where there is one, and tells faults before it runs", () => {
    const laboratory = laboratoryOf();
    const noted = (name) => () => laboratory.asked.push([name]);
    const drive = { pace: null, chosen: "own", goOn: noted("goOn"), step: noted("step"), choose: noted("choose") };
    let faults = null;
    const { node, show } = makePace(laboratory, texts, drive, { run: null, when: null, faults: () => faults });
    document.body.append(node);
    show();
    const control = (id) => node.querySelector(`#${id}`);
    const way = () => node.querySelector(".way").textContent;
    assert.match(control("go-on").textContent, new RegExp(texts.text("goOn")));
    assert.equal(way(), texts.text("wayStart"));
    for (const id of ["back", "go-on", "step"]) control(id).click();
    assert.deepEqual(laboratory.asked.splice(0), [["tell", { kind: "noneBehind" }], ["goOn"], ["step"]]);
    Object.assign(laboratory.history, { behind: 1 });
    Object.assign(drive, { pace: "fast" });
    show();
    control("back").click();
    assert.deepEqual(laboratory.asked, [["back", 1]]);
    assert.match(control("go-on").textContent, new RegExp(texts.text("halt")));
    assert.equal(way(), texts.table.wayOn.fast);
    Object.assign(drive, { pace: null });
    faults = 1;
    show();
    assert.equal(way(), texts.text("oneFaultFirst"));
    assert.deepEqual([...node.querySelectorAll("[type=radio]")].filter((it) => it.checked).map((it) => it.value), ["own"]);
});

const { makeProfile } = await from("profile");
viewed("a profile has a bar for each part, the longest one for the greatest, and asks for at least one order", () => {
    const parts = [["find", 60, "60.0"], ["take", 10, "10.0"], ["seek", 20, "20.0"], ["act", 10, "10.0"], ["none", 0, "0.0"]];
    const lines = parts.map(([name, times, percent]) => ({ name, times, percent }));
    const places = [{ name: "0003 loop", times: 40, percent: "40.0" }];
    const laboratory = laboratoryOf({ profile: { orders: 3, times: 100, turns: 2, parts: lines, places } });
    const { node, show } = makeProfile(laboratory, texts, { held: (field) => field });
    show();
    const widths = [...node.querySelectorAll(".bar")].map(({ dataset, style }) => [dataset.name, Number.parseFloat(style.width)]);
    assert.deepEqual(widths, [["find", 100], ["take", 16.7], ["seek", 33.3], ["act", 16.7], ["none", 0], ["0003 loop", 100]]);
    node.querySelector("input").value = "-3";
    node.querySelector("button").click();
    assert.deepEqual(laboratory.asked, [["addUp", 1]]);
});

const { makeCard } = await from("card");
viewed("the card has sixteen orders, says which need a word, and lights the one of the line", () => {
    let written = "h";
    const { node, toggle, light, isOpen: isShown } = makeCard(laboratoryOf(), texts, () => written);
    const field = document.createElement("input");
    document.body.append(field, node);
    const rows = [...node.querySelectorAll("[data-operation]")];
    const orders = rows.filter((row) => row.dataset.operation.length === 1);
    assert.equal(new Set(orders.map((row) => row.dataset.operation)).size, 16);
    for (const row of orders) {
        const { operation } = row.dataset;
        const needs = texts.text(operation === "u" ? "cardNoWord" : "cardWord");
        assert.deepEqual(textsOf(row.children), [operation, texts.table.orders[operation], needs]);
    }
    field.focus();
    toggle();
    const lit = () => rows.filter((row) => row.classList.contains("lit")).map((row) => row.dataset.operation).join();
    assert.deepEqual([isShown(), lit()], [true, "h"]);
    written = "org";
    light();
    assert.equal(lit(), "org");
    node.querySelector("#card-close").focus();
    node.querySelector("#card-close").click();
    assert.deepEqual([isShown(), document.activeElement], [false, field]);
});

const { makeMenu } = await from("menu");
viewed("the menu opens by its button, goes by arrows, and shuts by Escape and by what was chosen", () => {
    const made = (id) => Object.assign(document.createElement("button"), { id, textContent: id });
    const { control, list } = makeMenu(texts, [[made("new"), made("open")], [made("language")]], ["language"]);
    document.body.append(control, list);
    const isExpanded = () => control.getAttribute("aria-expanded");
    assert.deepEqual([isExpanded(), list.hidden], ["false", true]);
    control.click();
    assert.deepEqual([isExpanded(), list.hidden], ["true", false]);
    pressKey(control, "ArrowDown");
    assert.equal(document.activeElement.id, "new");
    pressKey(document.activeElement, "End");
    assert.equal(document.activeElement.id, "language");
    pressKey(document.activeElement, "Home");
    assert.equal(document.activeElement.id, "new");
    list.querySelector("#language").focus();
    document.activeElement.click();
    assert.equal(isExpanded(), "true");
    pressKey(document.activeElement, "Escape");
    assert.deepEqual([isExpanded(), document.activeElement], ["false", control]);
    control.click();
    list.querySelector("#open").focus();
    list.querySelector("#open").click();
    assert.deepEqual([isExpanded(), document.activeElement], ["false", control]);
});

const { makeLineBox, makeLines, makeScript } = await from("writing");
viewed("lines that were sent come back by the arrows, and the log adds only what is new", () => {
    const laboratory = laboratoryOf();
    const kept = new Map();
    const sent = [];
    const history = { add: (line) => sent.push(line), back: () => sent.at(-1) ?? null, forward: () => "" };
    const drafts = { held: (field) => field, keep: (name, text) => kept.set(name, text), history };
    const { node } = makeLineBox(laboratory, texts, drafts, "a line", "line");
    document.body.append(node);
    const field = node.querySelector("input");
    field.value = "run 5";
    node.dispatchEvent(new Event("submit", { cancelable: true }));
    assert.deepEqual([laboratory.asked, field.value, kept.get("line")], [[["say", "run 5"]], "", null]);
    pressKey(field, "ArrowUp");
    assert.deepEqual([field.value, kept.get("line")], ["run 5", "run 5"]);
    const lines = makeLines(laboratory, texts, drafts);
    laboratory.talk = [{ line: "panel", reply: "counter 0000\n" }];
    lines.show();
    const [first] = lines.node.querySelector(".log").children;
    laboratory.talk = [...laboratory.talk, { line: "words 0000 1", reply: "0000 00000000\n" }];
    lines.show();
    assert.equal(lines.node.querySelector(".log").children[0], first);
    assert.equal(lines.node.querySelector(".log").textContent, "panel\ncounter 0000\nwords 0000 1\n0000 00000000\n");
});

viewed("a script says how far it is, and its buttons are dead at its end", () => {
    const laboratory = laboratoryOf({ script: { lines: ["put 0000 z", "run 1"], at: 1 } });
    const { node, show } = makeScript(laboratory, texts);
    document.body.append(node);
    show();
    assert.equal(node.querySelector(".now").textContent, "run 1\n");
    const [next, all] = node.querySelectorAll("button");
    next.click();
    all.click();
    laboratory.script.at = 2;
    show();
    next.click();
    assert.deepEqual(laboratory.asked, [["scriptLines", 1], ["scriptLines", Infinity], ["tell", { kind: "scriptDone" }]]);
});

const { titleOf, listOfWorks } = await from("works");
viewed("a work is called by its lesson, its file or its first line, and the one at hand is no button", () => {
    const laboratory = laboratoryOf({ source: "\n  start b one\n" });
    const [pupil, sources] = [{ lesson: null }, { open: null }];
    assert.equal(titleOf(laboratory, pupil, sources, texts), "start b one");
    assert.equal(titleOf({ ...laboratory, script: { name: "primes" } }, pupil, sources, texts), "primes");
    assert.equal(titleOf(laboratory, pupil, { open: "mine.txt" }, texts), "mine.txt");
    const withLessons = { ...texts, table: { ...texts.table, lessons: { first: { title: "First steps" } } } };
    for (const [at, step] of [[0, 1], [2, 3], [3, 3]]) {
        const inLesson = { lesson: { name: "first", steps: [1, 2, 3] }, at };
        assert.equal(titleOf(laboratory, inLesson, sources, withLessons), texts.text("stepOf", { title: "First steps", step }));
    }
    const all = [{ id: 2, title: "b", when: 0, lines: "" }, { id: 1, title: "a", when: 0, lines: "run 1\nrun 2\n" }];
    const works = { id: 2, all: () => all };
    const opened = [];
    const node = listOfWorks(works, texts, (work) => opened.push(work.id), () => {});
    assert.deepEqual([...node.querySelectorAll("[data-work]")].map((it) => it.dataset.work), ["1"]);
    node.querySelector("[data-work]").click();
    assert.deepEqual(opened, [1]);
    assert.match(node.querySelectorAll("li")[1].textContent, /2/);
});

const { oneStop, refill, memoized } = await from("dom");
viewed("what is filled anew keeps its nodes and the focus, and a list is one stop of Tab", () => {
    const list = document.createElement("div");
    document.body.append(list);
    const nodeOf = memoized(({ text }) => Object.assign(document.createElement("button"), { textContent: text }));
    const made = (name, text) => {
        const node = nodeOf(name, { text });
        node.dataset.name = name;
        return node;
    };
    refill(list, made("a", "1"), made("b", "1"));
    const kept = list.children[0];
    list.children[1].focus();
    refill(list, made("a", "1"), made("b", "2"), made("c", "1"));
    assert.deepEqual([list.children[0] === kept, document.activeElement.dataset.name, list.textContent], [true, "b", "121"]);
    const refresh = oneStop(list, ".now");
    refresh();
    assert.deepEqual([...list.children].map(({ tabIndex }) => tabIndex), [0, -1, -1]);
    list.children[0].focus();
    pressKey(list.children[0], "End");
    assert.equal(document.activeElement.dataset.name, "c");
    pressKey(document.activeElement, "ArrowDown");
    assert.equal(document.activeElement.dataset.name, "c");
    pressKey(document.activeElement, "Home");
    assert.deepEqual([...list.children].map(({ tabIndex }) => tabIndex), [0, -1, -1]);
    pressKey(document.activeElement, "ArrowDown");
    assert.equal(document.activeElement.dataset.name, "b");
});

viewed("each text of these views is there in each language", () => {
    for (const code of Object.keys(LANGUAGES)) {
        const laboratory = laboratoryOf();
        const of = textsIn(code);
        for (const view of [makeConsole(laboratory, of), makePanel(laboratory, of), makeScript(laboratory, of)]) {
            view.show();
            assert.doesNotMatch(view.node.textContent, /undefined|\{\w+\}/, code);
        }
    }
});
