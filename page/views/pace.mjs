// The row below the time line: the program, one order back, Go on or Stop, one order forward, and the pace in which the machine goes on.
import { counted } from "../words.mjs";
import { button, guarded, h, showLive, tell } from "./dom.mjs";
import { wayText } from "./notice.mjs";

/** The paces, the slowest first. */
const PACES = ["order", "slow", "own", "fast"];

/** Gives a button a sign and a word; where there is little room the sign alone is seen. */
function signed(control, sign, word) {
    control.replaceChildren(h("span", { "aria-hidden": "true" }, sign), h("span", { class: "word" }, word));
    return control;
}

/** The paces as a group of which one is chosen. Another one takes effect at once while the machine goes on. */
function makePaces({ text, table }, drive) {
    const inputs = PACES.map((pace) => (
        h("input", { type: "radio", name: "pace", id: `pace-${pace}`, value: pace, onchange: () => drive.choose(pace) })
    ));
    const labels = inputs.map((input) => {
        const [name, told, hint] = table.pace[input.value];
        return h("label", { title: hint }, input, h("b", {}, name), h("small", {}, told));
    });
    const show = () => { for (const input of inputs) input.checked = input.value === drive.chosen; };
    return { node: h("div", { class: "paces", role: "radiogroup", "aria-label": text("paces") }, ...labels), show };
}

/** What the source has to do with how the machine goes on: its faults, or that it has just been loaded. Null where it has nothing. */
function sourceText({ loaded, loading }, { text, code }, faults, way) {
    if (faults > 0) {
        return [
            text(faults === 1 ? "oneFaultFirst" : "faultsFirst", { count: counted(faults, code) }),
            loaded === null ? "" : text("holdsLoaded"),
        ].join(" ").trim();
    }
    return loading === null
        ? null
        : `${text("justLoaded", { words: counted(loading.words, code), orders: counted(loading.orders, code) })} ${way}`;
}

/**
 * The row, and beside it the place for what the reader should know, and where the machine is. `run` is the button that runs the reader's
 * program, `when` tells where the machine is, and `faults` gives how many faults the source has that is written in Work, or null elsewhere.
 */
export function makePace(laboratory, texts, drive, { run, when, faults }) {
    const { text, table } = texts;
    const way = h("p", { class: "way" });
    const back = signed(
        guarded(
            "",
            { id: "back", class: "drive", title: text("backOne") },
            () => laboratory.back(1),
            () => laboratory.tell({ kind: "noneBehind" })
        ),
        "◂",
        text("back")
    );
    const goOn = button("", () => drive.goOn(), { id: "go-on", class: "drive" });
    const step = signed(button("", () => drive.step(), { id: "step", class: "drive", title: text("stepHint") }), "▸", text("step"));
    const paces = makePaces(texts, drive);
    const wayNow = () => {
        if (drive.pace !== null) return table.wayOn[drive.pace];
        const [way, count] = [wayText(laboratory, texts, false), faults()];
        return (count === null ? null : sourceText(laboratory, texts, count, way)) ?? way;
    };
    const show = () => {
        const isOn = drive.pace !== null;
        if (goOn.dataset.on !== String(isOn)) {
            signed(goOn, isOn ? "■" : "▶", text(isOn ? "halt" : "goOn")).title = text(isOn ? "haltHint" : "goOnHint");
        }
        goOn.dataset.on = String(isOn);
        showLive(back, laboratory.history.behind > 0);
        paces.show();
        tell(way, laboratory.openSource === null ? wayNow() : "");
    };
    const toolbar = h("div", { class: "line", role: "toolbar", "aria-label": text("drives") }, run, back, goOn, step, paces.node);
    return { node: h("div", { class: "drives" }, toolbar, h("div", { class: "tells" }, way), when), show };
}
