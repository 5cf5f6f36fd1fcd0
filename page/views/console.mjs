// The console: buttons and switches, those that are dead shown dead, and the keys of the Flexowriter.
import { KEY_ROWS, SPACE, STOP } from "../flexowriter.mjs";
import { LETTERS as OF_ORDERS } from "../machine.mjs";
import { SWITCHES } from "../../libraries/javascript/replies.mjs";
import { button, guarded, h, oneStop, part, showLive } from "./dom.mjs";
import { makeBody } from "./flexowriter.mjs";

/** The buttons, in the order of the console. */
const BUTTONS = ["manual", "oneop", "normal", "start", "clear", "fill", "execute", "compute", "read"];

/** What the monitor calls the keys that have a sign, and the key of the conditional stop. */
const KEYS = { sign: "keys", stop: "stop" };

/** What a press of a dead control does: it says that, and what to press. */
const tellDead = (laboratory, detail) => () => laboratory.tell({ kind: "dead", detail });

/** How many of the square buttons stand in the first row; the others stand beside the switches. */
const FIRST_ROW = 7;
/** Whether the lamp of a button is lit: a mode's while it is the machine's, Start's while the machine does not stand still. */
const isLit = ({ mode, status }, name) => mode === name || (name === "start" && !status.startsWith("halted"));

/** The name of a lever: what four of them share is said beside the first, where they stand in one row. */
function nameOf(label) {
    const [, shared, own] = /^(Break Point) (\d+)$/.exec(label) ?? [];
    return shared === undefined ? [label] : [h("span", { class: "shared" }, `${shared} `), own];
}

/** The part of the page with buttons and switches. */
export function makeConsole(laboratory, { text, table }) {
    const buttons = BUTTONS.map((name) => {
        const [label, hint] = table.button[name];
        const control = guarded(
            "", { title: hint, class: "square", "data-name": name }, () => laboratory.command(`press ${name}`), tellDead(laboratory, label)
        );
        control.append(h("i", { class: "strip", "aria-hidden": "true" }), label);
        return control;
    });
    const switches = SWITCHES.map((name) => {
        const [label, hint] = table.switch[name];
        const control = button(
            "",
            () => laboratory.command(`press ${name} ${laboratory.panel.down[name] ? "up" : "down"}`),
            { title: hint, class: "lever", role: "switch", "data-name": name }
        );
        control.append(h("i", { "aria-hidden": "true" }), h("span", {}, ...nameOf(label)));
        return control;
    });
    const show = () => {
        const { live, panel } = laboratory;
        for (const control of buttons) {
            const { name } = control.dataset;
            showLive(control, live.has(name));
            control.classList.toggle("lit", isLit(panel, name));
            if (name in table.modes) control.setAttribute("aria-pressed", String(panel.mode === name));
        }
        for (const control of switches) control.setAttribute("aria-checked", String(panel.down[control.dataset.name]));
        const awaited = new Set(laboratory.awaited.map((line) => line.split(" ")[1]));
        for (const control of [...buttons, ...switches]) control.setAttribute("aria-busy", String(awaited.has(control.dataset.name)));
    };
    const group = (name, controls) => h("div", { class: `controls ${name}`, role: "group", "aria-label": text(name) }, ...controls);
    return {
        node: part(
            "console",
            text("console"),
            group("buttons", buttons.slice(0, FIRST_ROW)),
            h("div", { class: "second-row" }, group("switches", switches), group("inputs", buttons.slice(FIRST_ROW)))
        ),
        show,
    };
}

/** What a key is called. */
const nameOfKey = (sign, { text }) => ({ [SPACE]: text("space"), [STOP]: text("conditionalStop") })[sign] ?? sign;

/** The keys of the Flexowriter in their rows, each made by its sign. */
const keysOf = (make) => [
    ...KEY_ROWS.map(([row, setIn]) => h("div", { class: "keys", style: `--set-in: ${setIn}` }, ...[...row].map(make))),
    h("div", { class: "keys last-row" }, make(SPACE), make(STOP)),
];

const kindOfKey = (sign) => ({ [SPACE]: "space", [STOP]: "stop" })[sign] ?? (OF_ORDERS.includes(sign) ? "of-order" : "");
const signOn = (sign, stop) => ({ [SPACE]: "", [STOP]: stop })[sign] ?? sign;

/** The part of the page with the Flexowriter's body. One of its keys is a stop of Tab, and arrows go among them; a dead one says why. */
export function makeKeyboard(laboratory, texts, showing) {
    const { text } = texts;
    const key = (sign) => guarded(
        signOn(sign, text("condStop")),
        {
            class: `key ${kindOfKey(sign)}`,
            "data-key": sign,
            "data-name": sign === STOP ? KEYS.stop : KEYS.sign,
            "aria-label": nameOfKey(sign, texts),
        },
        () => laboratory.command(`type ${sign}`),
        tellDead(laboratory, nameOfKey(sign, texts))
    );
    const body = makeBody(laboratory, texts, showing, keysOf(key));
    const node = part("keyboard", text("keyboard"), body.node);
    const refresh = oneStop(body.node, ".keys", "key");
    let waited = false;
    const show = () => {
        body.show();
        for (const control of node.querySelectorAll("button")) showLive(control, laboratory.live.has(control.dataset.name));
        const waits = laboratory.way.kind === "keys";
        if (waits && !waited) node.closest(".tab-panel")?.dispatchEvent(new Event("reveal"));
        waited = waits;
        refresh();
    };
    return { node, show, frame: body.frame };
}

/** The Flexowriter's body where nobody types at it: a picture, whose keys go down by what the machine prints. */
export function makeShownBody(laboratory, texts, showing) {
    const key = (sign) => h("span", { class: `key ${kindOfKey(sign)}`, "data-key": sign }, signOn(sign, texts.text("stopKey")));
    const { node, ...body } = makeBody(laboratory, texts, showing, keysOf(key));
    for (const [name, value] of [["role", "img"], ["aria-label", texts.text("keyboard")]]) node.setAttribute(name, value);
    return { node, ...body };
}
