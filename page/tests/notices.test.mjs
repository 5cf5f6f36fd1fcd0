// What a reader is told, and what can be done about it: notices, what was typed on the paper, and the doors.
import assert from "node:assert/strict";
import { test } from "node:test";
import { LANGUAGES, textsIn } from "../words.mjs";
import { openWindow, textsOf } from "./window.mjs";

const BODY = '<button id="go-on"></button><button id="kiosk-1"></button><p class="lines"><input></p>'
    + '<div id="notices"><p id="notice"></p><p id="open-source"></p><p id="lost"></p></div>';
const isOpen = openWindow(BODY);
const options = isOpen ? {} : { skip: "jsdom is not installed" };
const from = async (view) => (isOpen ? import(`../views/${view}.mjs`) : {});
const texts = textsIn("en");
const named = (id) => document.getElementById(id);
const linkTo = (lines) => Object.assign(document.createElement("a"), { textContent: `${lines}` });

const { makeNotices, placeNotices } = await from("notice");

/** The notices of a laboratory that notes what it is asked. */
function noticesOf(of, isKiosk = false) {
    const asked = [];
    const noted = (name) => (...given) => { asked.push([name, ...given]); };
    const laboratory = {
        notice: null, openSource: null, lost: [], way: { kind: "start" },
        ...Object.fromEntries(["command", "say", "putAway"].map((name) => [name, noted(name)])),
    };
    const actions = { ...Object.fromEntries(["run", "save", "anew", "goBack"].map((name) => [name, noted(name)])), linkTo };
    const { show } = makeNotices(laboratory, of, isKiosk, actions);
    const told = (notice) => {
        laboratory.notice = notice;
        show();
        return named("notice").textContent;
    };
    return { laboratory, asked, show, told, buttons: () => [...named("notice").querySelectorAll("button")] };
}

/** Notices of each kind, with what they tell of. */
const MOVED = { words: [], took: 1234n, foretold: 1234n, waited: { now: 1n, before: 1n } };
const NOTICES = [
    ...["before", "stopped", "noMemory", "sourceIsOpen", "sourceTooLong", "notLoaded", "noSourceToRun", "scriptDone", "noneBehind"],
    ...["beforeKept", "notKept", "notWaiting", "usedUp", "atRest"],
].map((kind) => ({ kind, lines: "a line" }));
NOTICES.push(
    { kind: "dead", detail: "Start" }, { kind: "rule", number: 2, rule: "break 0013 loop", isOfScript: true },
    { kind: "printedMuch", count: 20000 }, { kind: "tooMany", line: " run 1000001", most: 1000000 },
    { kind: "broken", detail: "it ended", lines: "a line" }, { kind: "fileTooLong", detail: "a.txt" },
    { kind: "fileOfSimh", detail: "a.txt", line: 3 }, { kind: "noExample", detail: "x" }, { kind: "noLesson", detail: "x" },
    { kind: "noTask", detail: "x", tasks: ["sum", "table"] }, { kind: "moved", ...MOVED }, { kind: "sentLong", most: 20000 },
    { kind: "Form", line: "foo", reason: "there is no such command" },
);

test("each notice is told in each language, with what it tells of", options, () => {
    for (const code of Object.keys(LANGUAGES)) for (const isKiosk of [false, true]) {
        const { told } = noticesOf(textsIn(code), isKiosk);
        for (const notice of NOTICES) {
            const text = told(notice);
            assert.ok(text.length > 8, `${code} ${notice.kind}: ${text}`);
            assert.doesNotMatch(text, /undefined|\{\w+\}|\[object/, `${code} ${notice.kind}`);
            const shown = [notice.detail, notice.reason, notice.line].filter((it) => typeof it === "string");
            for (const it of shown) assert.ok(text.includes(it.trim()), text);
        }
    }
});

test("a stop of a rule can go on or take the rule out, and the focus goes to a control that stays", options, () => {
    const { asked, told, buttons } = noticesOf(texts);
    for (const [at, wanted] of [[0, ["run"]], [1, ["command", "drop 2"]]]) {
        told({ kind: "rule", number: 2, rule: "break 0013 loop" });
        assert.equal(buttons().length, 2);
        buttons()[at].focus();
        buttons()[at].click();
        assert.deepEqual([asked.pop(), document.activeElement.id], [wanted, "go-on"]);
    }
});

test("lines that were lost can be saved, and a work before can be gone back to", options, () => {
    const { asked, told, buttons, laboratory, show } = noticesOf(texts);
    assert.match(told({ kind: "broken", detail: "it ended", lines: "put 0000 z", work: 4 }), /put 0000 z/);
    buttons()[0].click();
    assert.deepEqual(asked.pop(), ["goBack", 4]);
    laboratory.lost = ["one", "two"];
    show();
    assert.deepEqual(textsOf(named("lost").querySelectorAll("a")), ["one", "two"]);
    named("lost").querySelector("button").click();
    assert.deepEqual(asked.pop(), ["putAway"]);
    laboratory.lost = [];
    show();
    assert.equal(named("lost").hidden, true);
});

test("an open source is told with its lines, and can be ended", options, () => {
    const { asked, laboratory, show } = noticesOf(texts);
    show();
    assert.equal(named("open-source").hidden, true);
    laboratory.openSource = ["start z", " end"];
    show();
    assert.deepEqual([named("open-source").hidden, named("open-source").textContent.includes("2")], [false, true]);
    named("open-source").querySelector("button").click();
    assert.deepEqual([asked.pop(), document.activeElement.tagName], [["say", "."], "INPUT"]);
});

test("notices that are moved to another place keep the focus", options, () => {
    const { told, buttons } = noticesOf(texts);
    told({ kind: "printedMuch", count: 20000 });
    const slot = document.createElement("div");
    document.body.append(slot);
    const [button] = buttons();
    button.focus();
    placeNotices(slot);
    assert.deepEqual([named("notices").parentElement === slot, document.activeElement === button], [true, true]);
    placeNotices(null);
    assert.deepEqual([document.body.firstElementChild.id, document.activeElement === button], ["notices", true]);
    slot.remove();
});

const { fillPaper } = await from("flexowriter");
test("what was typed stands between what was printed, and is no part of the paper's text", options, () => {
    const paper = document.createElement("pre");
    const printed = () => [...paper.childNodes].filter((it) => it.nodeType === 3).map((it) => it.data).join("");
    assert.equal(fillPaper(paper, "12\n", [{ at: 0, keys: "7'" }], texts), "7\n12\n");
    assert.deepEqual([printed(), textsOf(paper.querySelectorAll(".typed"))], ["12\n", [""]]);
    assert.equal(paper.querySelector(".typed").dataset.typed, "7");
    const [first] = paper.childNodes;
    fillPaper(paper, "12\n34", [{ at: 0, keys: "7'" }], texts);
    assert.deepEqual([paper.childNodes[0] === first, printed()], [true, "12\n34"]);
    fillPaper(paper, "1", [], texts);
    assert.deepEqual([printed(), paper.querySelector(".typed")], ["1", null]);
});

const { rowOn } = await from("running");
test("a row of the paper is found by its beginning, in whatever pieces it was printed", options, () => {
    const rows = "0245 -0060\n0250 -0074\n0255 0250\n";
    for (let size = 1; size <= rows.length; size += 1) {
        const paper = document.createElement("pre");
        for (let end = size; end < rows.length + size; end += size) fillPaper(paper, rows.slice(0, end), [], texts);
        for (const row of ["0245", "0250", "0255"]) {
            const { node, at } = rowOn(paper, row);
            const pieces = [...paper.childNodes];
            const before = pieces.slice(0, pieces.indexOf(node)).map(({ data }) => data).join("").length;
            assert.equal(`\n${rows}`.indexOf(`\n${row}`), before + at, `${row} in pieces of ${size}`);
        }
        assert.equal(rowOn(paper, "0074"), null);
    }
    const typed = document.createElement("pre");
    fillPaper(typed, "1000 2\n", [{ at: 0, keys: "7'" }], texts);
    assert.deepEqual([rowOn(typed, "1000").at, rowOn(typed, "7")], [0, null]);
});

const { behind, hideOthers, showDoor, makeDoors } = await from("doors");
test("what other doors have is hidden, and the link of the open one says that it is", options, () => {
    const parts = [["look", "p"], ["look learn", "i"], ["work", "b"]].map(([doors, name]) => behind(doors, document.createElement(name)));
    const gone = [];
    const nav = makeDoors(texts, (door) => gone.push(door));
    document.body.append(nav, ...parts);
    showDoor("learn");
    hideOthers();
    assert.deepEqual(parts.map((it) => it.hidden), [true, false, true]);
    assert.deepEqual([...nav.querySelectorAll("[aria-current]")].map((it) => it.dataset.doorTo), ["learn"]);
    nav.querySelector('[data-door-to="work"]').click();
    assert.deepEqual(gone, ["work"]);
    for (const node of [nav, ...parts]) node.remove();
});
