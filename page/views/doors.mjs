// The doors of the laboratory: the hall, from which three lead on, and what of the page is seen behind each. A part that is seen behind
// some alone names them
// in `data-doors`.
import { addressOf } from "../opening.mjs";
import { button, h, s, tell } from "./dom.mjs";

/** The doors that lead on from the hall. */
export const DOORS = ["look", "learn", "work"];

/** Marks a node as seen behind these doors alone. */
export function behind(doors, node) {
    node.dataset.doors = doors;
    return node;
}

/** Hides what other doors have, of all that is in the page now. */
export function hideOthers() {
    for (const node of document.querySelectorAll("[data-doors]")) {
        node.hidden = !node.dataset.doors.split(" ").includes(document.body.dataset.door);
    }
}

/** Marks which door is open. */
export function showDoor(door) {
    document.body.dataset.door = door;
    if (door === "hall") delete document.body.dataset.window;
    else document.body.dataset.window = door === "work" ? "work" : "beside";
    for (const link of document.querySelectorAll("[data-door-to]")) {
        if (link.dataset.doorTo === door) link.setAttribute("aria-current", "page");
        else link.removeAttribute("aria-current");
    }
}

const link = (door, goTo, ...children) => h(
    "a",
    { href: addressOf({ door }, location), "data-door-to": door, onclick: (event) => { event.preventDefault(); goTo(door); } },
    ...children
);

/** The links in the header. */
export const makeDoors = ({ text }, goTo) => (
    h("nav", { class: "doors", "aria-label": text("doors") }, ...DOORS.map((door) => link(door, goTo, text(door))))
);

/** The first link of the page, which goes to the story. */
export const makeSkip = ({ text }) => h(
    "a",
    { class: "skip unseen", href: "#story", onclick: (event) => { event.preventDefault(); document.getElementById("story")?.focus(); } },
    text("skip")
);

/**
 * What each door leads to, as a small drawing: a turning drum with its head; steps that are ticked off; lines that are written, with the
 * bars of their orders.
 */
const PICTURES = {
    look: () => [
        s("circle", { class: "rim", cx: 32, cy: 32, r: 20 }),
        s("circle", { class: "hub", cx: 32, cy: 32, r: 7 }),
        s("path", { class: "find", d: "M32 20a12 12 0 0 1 10.4 18" }),
        s("path", { class: "head", d: "M26 2h12v8l-6 6-6-6z" }),
    ],
    learn: () => [10, 29, 48].flatMap((y, place) => [
        s("circle", { class: place < 2 ? "done" : "open", cx: 12, cy: y, r: 7 }),
        s("path", { class: "line", d: `M26 ${y}H${58 - 8 * (place % 2)}` }),
        ...(place < 2 ? [s("path", { class: "tick", d: `M8.5 ${y}l2.5 3 4.5-6` })] : []),
    ]),
    work: () => [
        s("rect", { class: "sheet", x: 3, y: 3, width: 58, height: 52, rx: 4 }),
        ...[14, 24, 34].map((y, place) => s("path", { class: "line", d: `M10 ${y}h${[20, 26, 16][place]}` })),
        s("path", { class: "find", d: "M10 46h22" }),
        s("path", { class: "seek", d: "M33 46h14" }),
        s("path", { class: "act", d: "M48 46h6" }),
    ],
};
const pictureOf = (door) => s("svg", { class: "door-picture", viewBox: "0 0 64 58", "aria-hidden": "true" }, ...PICTURES[door]());

/** The hall: what is seen here, three doors, a button that stops the drum, and what is told of a hand that turns it. */
export function makeHall({ text }, goTo, drive) {
    const stop = button("", () => (drive.pace === null ? drive.go("slow") : drive.halt()), { id: "hall-stop" });
    const doors = DOORS.map((door) => link(door, goTo, pictureOf(door), h("b", {}, text(door)), h("span", {}, text(`${door}Text`))));
    const byHand = h("p", { class: "by-hand" });
    const show = () => tell(stop, text(drive.pace === null ? "hallGo" : "halt"));
    return {
        node: h(
            "section",
            { class: "hall", "aria-labelledby": "hall-title" },
            h("h2", { id: "hall-title" }, text("hallTitle")),
            h("p", {}, text("hallText")),
            ...doors,
            h("div", { class: "line" }, stop, byHand)
        ),
        show,
        byHand,
    };
}
