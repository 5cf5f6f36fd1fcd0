// What the reader should know: a refusal or a word of the page's own, and what can be done about it; the source that is open; and the lines
// of
// laboratories that were lost.
import { LESSONS } from "../lesson_steps.mjs";
import { counted } from "../words.mjs";
import { button, h } from "./dom.mjs";
import { ruleText } from "./listing.mjs";
import { reveal } from "./tabs.mjs";

/** What lets the machine go on, with the names that the controls have here. */
export function wayText({ way: { kind, mode } }, { text, table }, isKiosk) {
    if (isKiosk && kind === "keys") return text("kioskKeys");
    return text({ go: "wayGo", start: "wayStart", keys: "wayKeys", mode: "wayMode" }[kind], { mode: table.modes[mode] ?? "" });
}

/**
 * The name of the sentence for a source that was run with its words elsewhere. The loader may end elsewhere as well, and the wait for the
 * first order is then another one.
 */
function movedName({ took, foretold, waited: { now, before } }) {
    if (took === foretold) return "movedAsForetold";
    return took - now === foretold - before ? "movedButFirst" : "movedOtherwise";
}

/** The text of a notice. */
function noticeText(notice, laboratory, texts, isKiosk) {
    const { kind, number, detail, line, reason, count, most } = notice;
    const { text, table, code } = texts;
    const way = () => wayText(laboratory, texts, isKiosk);
    const plain = [
        "before", "stopped", "noMemory", "sourceIsOpen", "sourceTooLong", "notLoaded", "noSourceToRun", "scriptDone", "noneBehind",
        "beforeKept", "notKept", "notWaiting",
    ];
    if (plain.includes(kind)) return text(kind);
    if (kind === "usedUp") return text(isKiosk ? "kioskUsedUp" : "usedUp");
    if (kind === "atRest") return `${text("atRest")} ${way()}`;
    if (kind === "dead") return `${text("dead", { name: detail })} ${way()}`;
    if (kind === "rule") {
        return [
            text("stoppedByRule", { number, rule: ruleText(notice.rule, texts) }), notice.isOfScript ? text("ruleOfScript") : "",
        ].join(" ");
    }
    if (kind === "printedMuch") return text("printedMuch", { count: counted(count, code) });
    if (kind === "tooMany") return text("tooMany", { line: line.trim(), most: counted(most, code) });
    if (kind === "broken") return text("broken", { detail });
    if (["fileTooLong", "fileNoText", "fileNoScript"].includes(kind)) return text(kind, { detail });
    if (kind === "fileOfSimh") return text(kind, { detail, line });
    if (kind === "noExample") return text("wrongAddress", { name: detail });
    if (kind === "noLesson") return text("wrongLesson", { name: detail, lessons: LESSONS.map(({ name }) => name).join(", ") });
    if (kind === "noTask") return text("wrongTask", { name: detail, tasks: notice.tasks.join(", ") });
    if (kind === "notMoved") return text("notMoved", { why: text(`notMoved_${notice.wrong}`, notice) });
    if (kind === "moved") {
        return text(movedName(notice), {
            words: notice.words.map((it) => text("wordMoved", it)).join(" "),
            took: counted(notice.took, code),
            foretold: counted(notice.foretold, code),
        });
    }
    if (kind === "wrongSent") return table.wrongSent[notice.wrong];
    if (kind === "sentLong") return text("sentLong", { most: counted(most, code) });
    if (kind === "noGame") return text("wrongGame", { name: detail });
    if (kind === "noStory") return text("wrongStory", { name: detail });
    if (kind === "wrongExhibit") return text("wrongExhibit", { detail });
    if (kind === "noKioskExample") return text("wrongKiosk", { name: detail, shown: notice.shown });
    return `${line}\n${text("refused", { kind, text: `${table.refusals[kind] ?? ""} ${reason ?? ""}` })}`;
}

/** A button of a notice, which goes away when it is pressed: the focus goes on to a control that stays. */
const passing = (label, action, goesTo) => button(label, () => {
    reveal(goesTo())?.focus();
    action();
});

/** What can be done about a notice. `actions` has `run`, `save`, `anew`, and `goBack`, which goes back to a work. */
function buttonsOf({ kind, number, lines, work }, laboratory, { text }, isKiosk, actions) {
    const run = () => document.getElementById(isKiosk ? "kiosk-1" : "go-on");
    const goOn = passing(text("goOn"), actions.run, run);
    if (kind === "printedMuch") return [goOn];
    if (kind === "rule") return [goOn, passing(text("takeOut", { number }), () => laboratory.command(`drop ${number}`), run)];
    const back = work === undefined ? [] : [passing(text("goBack"), () => actions.goBack(work), run)];
    if (["broken", "before"].includes(kind)) return [actions.linkTo(lines), ...back];
    if (["beforeKept", "sentLong"].includes(kind)) return back;
    if (kind !== "usedUp") return [];
    if (isKiosk) return [passing(text("kioskToStart"), actions.anew, run)];
    return [button(text("save"), actions.save), passing(text("new"), actions.anew, run)];
}

/** The controls after a text, all in one line. */
export const waysOut = (...controls) => (
    controls.length === 0 ? [] : [" ", h("span", { class: "ways-out" }, ...controls.flatMap((control) => [control, " "]).slice(0, -1))]
);

/** Shows the notice; it is made anew only where it is another one, so that the focus stays. */
function makeNotice(laboratory, texts, isKiosk, actions) {
    const place = document.getElementById("notice");
    let shown;
    return () => {
        const { notice } = laboratory;
        if (notice === shown) return;
        shown = notice;
        place.hidden = notice === null;
        if (notice === null) return place.replaceChildren();
        const buttons = buttonsOf(notice, laboratory, texts, isKiosk, actions);
        place.replaceChildren(noticeText(notice, laboratory, texts, isKiosk), ...waysOut(...buttons));
    };
}

function makeOpenSource(laboratory, { text }) {
    const place = document.getElementById("open-source");
    const told = h("span");
    const end = passing(
        text("endSource"), () => laboratory.say("."), () => document.querySelector(".lines input") ?? document.getElementById("kiosk-1")
    );
    place.replaceChildren(told, ...waysOut(end));
    return () => {
        const { openSource } = laboratory;
        place.hidden = openSource === null;
        told.textContent = openSource === null ? "" : text("openSource", { count: openSource.length });
    };
}

function makeLost(laboratory, { text }, linkTo) {
    const place = document.getElementById("lost");
    let shown;
    return () => {
        const { lost } = laboratory;
        if (lost === shown) return;
        shown = lost;
        place.hidden = lost.length === 0;
        if (place.hidden) return place.replaceChildren();
        const away = passing(text("putAway"), () => laboratory.putAway(), () => document.querySelector(".menu, #kiosk-1"));
        return place.replaceChildren(text("lost"), ...lost.flatMap((lines) => [" ", linkTo(lines)]), ...waysOut(away));
    };
}

/** What the reader should know, which has to be found also while its place is out of the document. */
const node = document.getElementById("notices");

/** Where what the reader should know stands: in a place that is kept for it, or, where that is null, above the page. */
export function placeNotices(slot) {
    const where = slot ?? document.body;
    if (node.parentElement === where) return;
    const { activeElement } = document;
    const isWithin = node.contains(activeElement);
    if (slot === null) where.prepend(node);
    else where.append(node);
    if (isWithin) activeElement.focus();
}

/** What is above the page. `actions` has `run`, `save`, `anew`, `goBack` and `linkTo`, which makes a link under which lines are saved. */
export function makeNotices(laboratory, texts, isKiosk, actions) {
    const parts = [
        makeNotice(laboratory, texts, isKiosk, actions), makeOpenSource(laboratory, texts), makeLost(laboratory, texts, actions.linkTo),
    ];
    return { show: () => parts.forEach((part) => part()) };
}
