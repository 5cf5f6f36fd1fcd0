// The oscilloscope: counter, instruction register and accumulator as traces over one mask of 32 columns, the most significant bit at the
// left. What the
// registers hold comes from replies; how a trace rises, rounds and glows on is the page's own picture of the machine.
import { numberOf } from "../addresses.mjs";
import { accumulatorKinds, valueOf } from "../kinds.mjs";
import { FIELDS } from "../machine.mjs";
import { bitsOf, wholeOf } from "../../libraries/javascript/replies.mjs";
import { h, tell } from "./dom.mjs";

const COLUMNS = 32;
const SWING = 0.27;
const PIECES = 10;
const STROKES = [[9, 0.1], [4.5, 0.25], [1.7, 1]];
/**
 * How an old trace fades, for how long it is seen that bits have changed, and the least time between two pictures where orders pass too
 * fast to be read.
 */
const GLOW = { fades: 420, ends: 1500, apart: 125 };
const still = matchMedia("(prefers-reduced-motion: reduce)");

/** The twelve bits of an address, which lie above the address of an order. */
const bitsOfAddress = (address) => Array.from({ length: 12 }, (unused, place) => (numberOf(address) >> (11 - place)) & 1);

/** A trace: its bits and the column of the first one. */
const TRACES = {
    counter: (address) => ({ from: FIELDS.track[0], bits: bitsOfAddress(address) }),
    register: (digits) => ({ from: 0, bits: bitsOf(digits) }),
    accumulator: (digits) => ({ from: 0, bits: bitsOf(digits) }),
};

/** The way of the beam over the bits: each edge swings out. */
function path(pen, { from, bits }, width, height) {
    const level = (bit) => height * (0.5 - SWING * (bit === 1 ? 1 : -1));
    let before = level(bits[0]);
    pen.beginPath();
    for (const [place, bit] of bits.entries()) {
        for (let piece = 0; piece <= PIECES; piece += 1) {
            const u = piece / PIECES;
            pen.lineTo(((from + place + u) * width) / COLUMNS, level(bit) + (before - level(bit)) * Math.exp(-9 * u) * Math.cos(7 * u));
        }
        before = level(bit);
    }
}

function drawMask(pen, width, height, colours) {
    for (let column = 0; column <= COLUMNS; column += 1) {
        Object.assign(pen, { globalAlpha: 1, lineWidth: 1, strokeStyle: column % 4 === 0 ? colours.fourth : colours.mask });
        pen.beginPath();
        pen.moveTo((column * width) / COLUMNS, 0);
        pen.lineTo((column * width) / COLUMNS, height);
        pen.stroke();
    }
}

function drawTrace(pen, trace, width, height, strength) {
    for (const [lineWidth, alpha] of STROKES) {
        Object.assign(pen, { lineWidth, globalAlpha: alpha * strength, lineJoin: "round" });
        path(pen, trace, width, height);
        pen.stroke();
    }
}

/** A short line below each bit that has changed. */
function drawChanges(pen, { from, bits }, old, width, height) {
    pen.globalAlpha = 0.5;
    for (const [place, bit] of bits.entries()) {
        if (bit !== old.bits[place]) pen.fillRect(((from + place + 0.2) * width) / COLUMNS, height - 4, (0.6 * width) / COLUMNS, 3);
    }
}

/** A trace on its canvas. `set` gives it what it shows, and `draw` draws it, as long as something glows: whether it does. */
function makeTrace(name, redraw) {
    const node = h("canvas", { "aria-hidden": "true" });
    let [value, trace, old, since, colours] = [undefined, null, null, -Infinity, {}];
    new ResizeObserver(([{ contentRect: { width, height } }]) => {
        const ratio = Math.min(2, devicePixelRatio || 1);
        Object.assign(node, { width: Math.round(width * ratio), height: Math.round(height * ratio) });
        const colour = (key) => getComputedStyle(node).getPropertyValue(key);
        colours = { trace: colour("--trace"), mask: colour("--mask"), fourth: colour("--mask-fourth") };
        redraw();
    }).observe(node);
    const set = (young, glows) => {
        if (young === value) return false;
        old = glows ? trace : null;
        since = performance.now();
        value = young;
        trace = young === null ? null : TRACES[name](young);
        return true;
    };
    const draw = () => {
        const ratio = Math.min(2, devicePixelRatio || 1);
        const [pen, width, height, passed] = [node.getContext("2d"), node.width / ratio, node.height / ratio, performance.now() - since];
        const isGlowing = old !== null && passed < GLOW.ends;
        pen.setTransform(ratio, 0, 0, ratio, 0, 0);
        pen.clearRect(0, 0, width, height);
        drawMask(pen, width, height, colours);
        Object.assign(pen, { strokeStyle: colours.trace, fillStyle: colours.trace });
        if (isGlowing) drawTrace(pen, old, width, height, 0.55 * Math.exp(-passed / GLOW.fades));
        if (isGlowing && trace !== null) drawChanges(pen, trace, old, width, height);
        if (trace !== null) drawTrace(pen, trace, width, height, 1);
        node.dataset.bits = trace === null ? "" : trace.bits.join("");
        return isGlowing;
    };
    return { node, set, draw };
}

/** Above the mask: the names of an order's fields over their columns. */
const brackets = ({ text }) => h("div", { class: "fields", "aria-hidden": "true" }, ...Object.entries(FIELDS).map(([name, [from, to]]) => {
    return h("span", { style: `left: ${(100 * from) / COLUMNS}%; width: ${(100 * (to - from)) / COLUMNS}%` }, text(name));
}));

/** The part of the page with the three traces. While an order is played they show what the registers hold by then. */
export function makeScope(laboratory, texts, { playing, isFast }) {
    const { text } = texts;
    let [frames, drawn, isStale] = [null, -Infinity, false];
    const draw = () => {
        [frames, drawn, isStale] = [null, performance.now(), false];
        const isGlowing = Object.values(traces).map((trace) => trace.draw()).includes(true);
        if (isGlowing) ask();
    };
    const ask = () => { frames ??= requestAnimationFrame(draw); };
    const traces = Object.fromEntries(Object.keys(TRACES).map((name) => [name, makeTrace(name, ask)]));
    const values = Object.fromEntries(Object.keys(TRACES).map((name) => [name, { digits: h("code"), reading: h("small") }]));
    const rows = Object.keys(TRACES).map((name) => h(
        "div",
        { class: "trace" },
        h("span", { class: "trace-name" }, text(`${name}Trace`)),
        h("span", { class: "trace-value" }, values[name].digits, values[name].reading),
        traces[name].node
    ));
    const node = h("div", { class: "scope", role: "img" }, h("div", { class: "trace" }, brackets(texts)), ...rows);
    const readings = ({ register, accumulator }) => ({
        counter: "",
        register: laboratory.accounts.findLast((account) => account.register === register)?.order ?? "",
        accumulator: accumulator === null ? "" : valueNow(accumulator) ?? `= ${wholeOf(accumulator)}`,
    });
    /** What the accumulator holds as what was brought there, as far as that was told. */
    const valueNow = (digits) => {
        const [account, held] = [laboratory.accounts.at(-1), accumulatorKinds(laboratory.accounts, laboratory.kinds).at(-1)];
        const at = playing();
        const isDone = at === null || at.account !== account || at.done;
        return isFast() || laboratory.lastTold === null ? null : valueOf(digits, isDone ? held.after : held.before, texts);
    };
    const frame = () => {
        const held = (isFast() ? null : playing()) ?? laboratory.panel;
        const glows = !isFast() && !still.matches;
        const isNew = Object.entries(traces).map(([name, trace]) => trace.set(held[name], glows)).includes(true);
        isStale ||= isNew;
        if (isStale && (!isFast() || performance.now() - drawn >= GLOW.apart)) ask();
        if (!isNew) return;
        const told = readings(held);
        for (const [name, { digits, reading }] of Object.entries(values)) {
            tell(digits, held[name] ?? "–");
            tell(reading, told[name]);
        }
    };
    const show = () => {
        const { counter, register, accumulator } = laboratory.panel;
        frame();
        node.setAttribute("aria-label", isFast() ? text("scopeRuns") : text("scopeSays", { counter, register, accumulator }));
    };
    return { node: h("div", { class: "scope-box" }, node), show, frame };
}

/** The name plate, and a lamp that is lit while the machine does not stand still. */
export function makePlate(laboratory, { table }) {
    const [lamp, told] = [h("span", { class: "status-lamp" }), h("span")];
    const show = () => {
        const { status } = laboratory.panel;
        lamp.classList.toggle("lit", !status.startsWith("halted"));
        tell(told, table.statuses[status] ?? status);
    };
    return { node: h("p", { class: "plate" }, h("b", {}, "ROYAL McBEE LGP-30"), h("span", { class: "status-of" }, lamp, told)), show };
}
