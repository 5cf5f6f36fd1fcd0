// The menu at the head of the page: what begins, opens and keeps a work, the examples, and what is set for the whole page. It is seen when
// it is wanted.
import { button, h } from "./dom.mjs";

/** Whether it is open: it stays so when the page is laid anew, in another language. */
let isOpen = false;

/** The controls of a menu that can be reached now. */
const controlsIn = (list) => [...list.querySelectorAll("button, select")].filter((it) => it.checkVisibility());

/** The menu of these groups of controls: its button, and its list. One of the controls shuts it, but for those whose names stay open. */
export function makeMenu({ text }, groups, staysOpen) {
    const list = h(
        "div",
        { class: "choices", id: "choices", role: "group", "aria-label": text("menu") },
        ...groups.map((group) => h("div", { class: "menu-group" }, ...group))
    );
    const control = button("", () => show(!isOpen), { class: "menu", "aria-controls": "choices" });
    control.append(text("menu"), h("span", { "aria-hidden": "true" }, " ▾"));
    const show = (wanted) => {
        isOpen = wanted;
        list.hidden = !isOpen;
        control.setAttribute("aria-expanded", String(isOpen));
    };
    const shut = () => {
        // what had the focus in it is not seen any more: its button has it then, also when a dialog that it has opened is closed
        if (list.contains(document.activeElement)) control.focus();
        show(false);
    };
    const isWithin = (node) => node === control || control.contains(node) || list.contains(node);
    const onKey = (event) => {
        const all = controlsIn(list);
        const at = all.indexOf(event.target);
        const to = { ArrowDown: at + 1, ArrowUp: Math.max(0, at - 1), Home: 0, End: all.length - 1 }[event.key];
        if (event.key === "Escape" && isOpen) { event.preventDefault(); shut(); control.focus(); }
        else if (to !== undefined && isOpen && event.target.tagName !== "SELECT") {
            event.preventDefault();
            all[Math.min(to, all.length - 1)]?.focus();
        }
    };
    for (const node of [control, list]) {
        node.addEventListener("focusout", ({ relatedTarget }) => { if (relatedTarget !== null && !isWithin(relatedTarget)) show(false); });
        node.addEventListener("keydown", onKey);
    }
    // before the control does what it does
    list.addEventListener(
        "click",
        ({ target }) => { const chosen = target.closest("button"); if (chosen !== null && !staysOpen.includes(chosen.id)) shut(); },
        { capture: true }
    );
    list.addEventListener("change", ({ target }) => { if (!staysOpen.includes(target.id)) shut(); });
    show(isOpen);
    return { control, list, shut };
}

/** Shuts the menu where a press is elsewhere. */
export function shutBeside() {
    addEventListener("pointerdown", ({ target }) => {
        const control = document.querySelector(".menu[aria-expanded='true']");
        if (control !== null && !control.contains(target) && target.closest("#choices, dialog") === null) control.click();
    });
}
