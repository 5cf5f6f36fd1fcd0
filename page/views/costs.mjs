// What the last orders would have taken with one word at each sector: a sentence, the marks of the ring that the drum shows of it, and a
// table.
import { counted } from "../words.mjs";
import { h, part, tell } from "./dom.mjs";

/** The sector with a mark, or null. */
export const markedIn = ({ sectors }, mark) => sectors.find((it) => it[mark]) ?? null;

/**
 * The name of the sentence for a word: one that may be moved may lie best where it is, and an order may have been waited for as an order
 * alone.
 */
function sentenceOf({ kind, saved, sectors }) {
    if (kind === "free" && saved === 0) return "best";
    return kind === "performed" && sectors.length === 0 ? "order" : kind;
}

/** The sentence for what was told of a word, and below it what the monitor says where the word gains nothing or the run was refused. */
export function costsText(costs, { text, table, code }) {
    const least = markedIn(costs, "isBest")?.times ?? costs.times;
    const number = (value) => counted(value ?? 0, code);
    const values = {
        word: [costs.address, costs.label].filter(Boolean).join(" "), own: costs.own, best: costs.best, least: number(least),
        orders: number(costs.orders), times: number(costs.times), saved: number(costs.saved),
    };
    const said = [costs.reason, costs.refusal].filter((it) => it !== null).map((reason) => text("monitorSays", { reason }));
    const sentence = table.costsOf[sentenceOf(costs)].replace(/\{(\w+)\}/g, (whole, name) => values[name] ?? whole);
    return [sentence, ...said];
}

const MARKS = [["isOwn", "own", "costOwn"], ["isBest", "best", "costBest"]];

function rowOf(shown, { text, code }) {
    const marks = MARKS.filter(([mark]) => shown[mark]).map(([, , name]) => text(name)).join(", ");
    return h(
        "tr",
        { class: shown.isBest ? "best" : shown.isOwn ? "own" : null },
        h("th", { scope: "row" }, String(shown.sector).padStart(2, "0")),
        h("td", { class: "number" }, counted(shown.times, code)),
        h("td", {}, marks)
    );
}

/** The part of the page with what is told of a word. */
export function makeCosts(laboratory, texts) {
    const { text } = texts;
    const told = h("p", { role: "status", class: "costs-told" });
    const legend = h(
        "p",
        { class: "key" },
        ...MARKS.flatMap(([, kind, name]) => [h("span", { class: `cost-mark ${kind}`, "aria-hidden": "true" }), text(name), " "])
    );
    const body = h("tbody");
    const heads = ["sector", "wordTimes", "costMark"].map((name) => h("th", { scope: "col" }, text(name)));
    const table = h(
        "div",
        { class: "scroll", tabindex: "0", role: "group", "aria-label": text("costsTable") },
        h("table", {}, h("thead", {}, h("tr", {}, ...heads)), body)
    );
    const all = h("details", {}, h("summary", {}, text("costsTable")), table);
    let shown;
    const show = () => {
        const { costs } = laboratory;
        if (costs === shown) return;
        shown = costs;
        tell(told, costs === null ? text("costsHint") : costsText(costs, texts).join("\n"));
        const rows = costs?.sectors ?? [];
        body.replaceChildren(...rows.map((row) => rowOf(row, texts)));
        for (const it of [legend, all]) it.hidden = rows.length === 0;
        node.classList.toggle("idle", costs === null);
    };
    const node = part("costs", text("costs"), told, legend, all);
    return { node, show };
}
