// The card: the sixteen orders and which of them wait for a word, what else a source may have, and the keys. It lies beside what is
// written, and goes away by the key that has brought it.
import { OTHERS } from "../language.mjs";
import { button, h } from "./dom.mjs";

/** How the console's card lists the orders. */
const ORDERS = [..."bhcasmndeyrutpiz"];

const rowsOf = (rows) => h(
    "tbody",
    {},
    ...rows.map(([name, meaning, more]) => (
        h("tr", { "data-operation": name }, h("th", { scope: "row" }, h("code", {}, name)), h("td", {}, meaning), h("td", {}, more))
    ))
);
const tableOf = (caption, heads, rows) => h(
    "table",
    {},
    h("caption", {}, caption),
    h("thead", {}, h("tr", {}, ...heads.map((head) => h("th", { scope: "col" }, head)))),
    rowsOf(rows)
);

/** The card. `operation` tells which operation is in the line that is written. */
export function makeCard(laboratory, { text, table }, operation) {
    const orders = ORDERS.map((letter) => [letter, table.orders[letter], text(laboratory.usesWord(letter) ? "cardWord" : "cardNoWord")]);
    const others = OTHERS.map((name) => [name, table.otherOperations[name], table.rightOperand[name] ?? table.rightOperand.order]);
    const away = button(text("close"), () => show(false), { id: "card-close" });
    const node = h(
        "aside",
        { class: "card", id: "card", "aria-label": text("card"), tabindex: "-1", hidden: true },
        h("div", { class: "line" }, h("h2", {}, text("card")), away),
        tableOf(text("cardOrders"), [text("order"), text("cardMeaning"), text("cardSeeks")], orders),
        tableOf(text("cardLanguage"), [text("cardOperation"), text("cardMeaning"), text("cardAs")], others),
        h(
            "table",
            {},
            h("caption", {}, text("cardKeys")),
            h(
                "tbody",
                {},
                ...Object.entries(table.cardKey).map(([key, does]) => h(
                    "tr",
                    {},
                    h("th", { scope: "row" }, key.replace(/[A-Z][a-z]+/g, (name) => table.keyNames[name] ?? name)),
                    h("td", { colspan: 2 }, does)
                ))
            )
        )
    );
    let before = null;
    const light = () => {
        for (const row of node.querySelectorAll("[data-operation]")) row.classList.toggle("lit", row.dataset.operation === operation());
    };
    const show = (isOpen) => {
        if (isOpen) before = document.activeElement;
        node.hidden = !isOpen;
        light();
        if (!isOpen && node.contains(document.activeElement) || !isOpen && document.activeElement === document.body) before?.focus();
    };
    return { node, light, toggle: () => show(node.hidden), close: () => show(false), isOpen: () => !node.hidden };
}
