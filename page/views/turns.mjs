// The last turns of the drum, a sign for each word time, as the monitor draws them.
import { SECTORS } from "../addresses.mjs";
import { h } from "./dom.mjs";

const ROWS_SHOWN = 12;
const KINDS = { ".": "wait", F: "find", i: "take", R: "seek", W: "seek", x: "act", "-": "none", " ": "" };

/** Signs of a row: each run of one kind in its colour. */
const runsOf = (signs) => [...signs.matchAll(/(.)\1*/g)].map(([run, sign]) => h("span", { class: KINDS[sign] ?? "" }, run));

/** A row of the drum, in two halves, which stand below one another where there is no room for both. */
function rowOf({ clock, signs }) {
    const halves = [signs.slice(0, SECTORS / 2), signs.slice(SECTORS / 2)];
    return h(
        "div",
        { class: "drum-row" },
        h("span", { class: "row-clock" }, `${String(clock).padStart(8)}  `),
        ...halves.map((half) => h("span", { class: "half" }, ...runsOf(half)))
    );
}

/**
 * The part of the page with the rows of the last turns. They are drawn only while they are open; `toggled` is told whether they are open.
 */
export function makeTurns(laboratory, { text }, isOpen, toggled) {
    const rows = h("div", { class: "rows", tabindex: "0", role: "group", "aria-label": text("rows") });
    const node = h(
        "details",
        { class: "part turns", open: isOpen },
        h("summary", {}, text("rows")),
        h("p", { class: "key" }, h("code", {}, text("rowsKey"))),
        rows
    );
    const show = () => rows.replaceChildren(...(node.open ? laboratory.rows : []).slice(-ROWS_SHOWN).map(rowOf));
    node.addEventListener("toggle", () => {
        toggled(node.open);
        show();
    });
    return { node, show };
}
