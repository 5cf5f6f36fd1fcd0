// The sheets of the lessons, to fill in: a link opens one, and it is what a printer gets while its lesson is open.
import { h } from "./dom.mjs";

/** A sheet with its drawings, of which each is kept once. */
export const withDrawings = (sheet, drawings) => sheet?.replace(/(<svg[^>]*>)@(\d+)/g, (whole, begin, number) => begin + drawings[number]);

/** A link to a sheet, which opens it beside the page. */
export function linksToSheet(sheet, { text }) {
    const open = (event) => { event.target.href = URL.createObjectURL(new Blob([sheet], { type: "text/html" })); };
    return sheet === undefined ? [] : [h("a", { href: "#sheet", target: "_blank", class: "sheet-link", onclick: open }, text("sheet"))];
}

/** Has a sheet in the place that is printed alone; null is none. */
export function showSheet(sheet) {
    const place = document.getElementById("printed-sheet");
    document.body.classList.toggle("with-sheet", sheet != null);
    const root = place.shadowRoot ?? place.attachShadow({ mode: "open" });
    root.replaceChildren();
    if (sheet == null) return;
    const read = new DOMParser().parseFromString(sheet, "text/html");
    // within the page the sheet is no document of its own
    const style = h("style", {}, read.querySelector("style").textContent.replace(/\bbody \{/g, ".body {"));
    root.append(style, h("div", { class: "body" }, ...read.body.children));
}
