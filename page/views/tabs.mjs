// Tabs: several parts of the page in one place, of which one is seen. Which one that is stays when the page is laid anew.
import { h } from "./dom.mjs";

/** The tab that is chosen, by the names of the tabs. */
const chosen = new Map();

/** Tabs of a name. `set` gives them their entries, each with its name, its title and what is seen under it. */
export function makeTabs(name, label) {
    const [list, panels] = [h("div", { class: "tablist", role: "tablist", "aria-label": label }), h("div", { class: "tab-panels" })];
    const node = h("div", { class: `tabbed ${name}-tabs` }, list, panels);
    const all = new Map();
    const show = (wanted) => {
        for (const tab of list.children) tab.setAttribute("aria-selected", String(tab.dataset.tab === wanted));
        for (const panel of panels.children) panel.hidden = panel.dataset.panel !== wanted;
        node.dispatchEvent(new Event("chosen", { bubbles: true }));
    };
    const choose = (wanted) => {
        chosen.set(name, wanted);
        show(wanted);
    };
    const make = (entry, title) => {
        const tab = h(
            "button",
            {
                type: "button", role: "tab", id: `tab-${name}-${entry}`, "data-tab": entry, "data-name": `tab-${entry}`,
                onclick: () => choose(entry),
            },
            title
        );
        const panel = h("div", { class: "tab-panel", role: "tabpanel", "aria-labelledby": tab.id, "data-panel": entry });
        panel.addEventListener("reveal", () => choose(entry));
        return { tab, panel };
    };
    const set = (entries) => {
        for (const { name: entry, title } of entries) if (!all.has(entry)) all.set(entry, make(entry, title));
        fill(list, entries.map((entry) => all.get(entry.name).tab));
        fill(panels, entries.map((entry) => all.get(entry.name).panel));
        for (const { name: entry, nodes } of entries) fill(all.get(entry).panel, nodes);
        // the first tab is seen as long as none was chosen
        show(entries.some((entry) => entry.name === chosen.get(name)) ? chosen.get(name) : entries[0]?.name);
    };
    list.addEventListener("keydown", ({ key, target }) => {
        const tabs = [...list.children];
        const step = { ArrowLeft: -1, ArrowRight: 1 }[key];
        if (step === undefined || !tabs.includes(target)) return;
        const next = tabs[(tabs.indexOf(target) + step + tabs.length) % tabs.length];
        next.click();
        next.focus();
    });
    return { node, set };
}

/** Has these children in a node, in this order. What stands there already stays, and so does the focus. */
export function fill(node, children) {
    if (children.length === node.children.length && children.every((child, place) => node.children[place] === child)) return;
    const focused = document.activeElement;
    node.replaceChildren(...children);
    if (node.contains(focused) && document.activeElement !== focused) focused.focus();
}

/** Chooses the tabs under which a node is seen. */
export function reveal(node) {
    for (let panel = node?.closest(".tab-panel"); panel != null; panel = panel.parentElement.closest(".tab-panel")) {
        panel.dispatchEvent(new Event("reveal"));
    }
    return node;
}
