// The time line: the told orders one after another, as wide as their word times; what was not told is one bar between them, which leaves
// them most of the line. After them, paler, what was gone back over; and above them marks, each where the slider is at its place.
import { PHASES } from "../player.mjs";
import { h } from "./dom.mjs";
import { rewrittenBy } from "./says.mjs";

/** Heights in a picture of 26: waits are lower than what reads and acts; above them the marks of orders that were rewritten. */
const HEIGHT = 26;
const BARS = { wait: 8, work: 16, mark: 6, middle: 17 };

/** The bars up to a clock: what was told, phase by phase, and what was not. */
export function barsOf(accounts, clock) {
    const bars = [];
    let at = 0n;
    const add = (kind, times) => { if (times > 0) bars.push({ kind, from: Number(at), times }); at += BigInt(times); };
    for (const account of accounts) {
        add("untold", Number(account.clock - at));
        for (const phase of PHASES) add(phase, account[phase]);
        if (rewrittenBy(account) !== null) bars.push({ kind: "rewritten", from: Number(at), times: 0 });
    }
    add("untold", Number(clock - at));
    return bars;
}

/**
 * The share of the line that what was not told has at most, where something was; and how wide it is where its orders cannot be counted, as
 * those of the loader.
 */
const UNTOLD = 0.3;
const STUB = 24;

/** Where the bars begin on a line of this width, and how wide they are. */
export function placed(bars, width, isCounted = true) {
    const sumOf = (some) => some.reduce((sum, { times }) => sum + times, 0);
    const untold = sumOf(bars.filter(({ kind }) => kind === "untold"));
    const told = sumOf(bars) - untold;
    const most = isCounted ? UNTOLD : Math.min(UNTOLD, STUB / width);
    const share = told === 0 ? 1 : Math.min(most, untold / (told + untold));
    const scaleOf = (kind) => (kind === "untold" ? (share * width) / Math.max(1, untold) : ((1 - share) * width) / Math.max(1, told));
    let at = 0;
    return bars.map(({ kind, times }) => {
        const bar = { kind, from: at, width: times * scaleOf(kind) };
        at += bar.width;
        return bar;
    });
}

/** How wide the slider's thumb is, and how pale what was gone back over. */
const [THUMB, LATER] = [10, 0.5];

/** Where a place among these orders is on a line of this width: in the middle of the slider's thumb. */
export const xOf = (place, orders, width) => THUMB / 2 + (orders === 0 ? 1 : place / orders) * (width - THUMB);

/** How many of the orders that can be counted were not told: those before the told ones. */
export const untoldOf = ({ history: { behind } }, told) => Math.max(0, behind - told);

/** Draws a bar as dashes. */
function dashes(pen, { from, width }) {
    for (let x = from; x < from + width; x += 6) pen.fillRect(x, BARS.middle - BARS.wait / 2, Math.min(4, from + width - x), BARS.wait);
}

/** Writes a text in the middle of a bar that has room for it. */
function name(pen, { from, width }, text, colour) {
    const room = pen.measureText(text).width + 8;
    if (room > width) return;
    pen.clearRect(from + (width - room) / 2, 0, room, HEIGHT);
    pen.fillStyle = colour;
    pen.fillText(text, from + width / 2, BARS.middle);
}

/** Draws what was gone back over, and the marks. */
function drawWay(pen, { behind, ahead, marks }, width, colours) {
    const at = (place) => xOf(place, behind + ahead, width);
    Object.assign(pen, { fillStyle: colours.untold, globalAlpha: LATER });
    if (ahead > 0) pen.fillRect(at(behind), BARS.middle - BARS.wait / 2, width - at(behind), BARS.wait);
    pen.globalAlpha = 1;
    for (const { place, kind } of marks) {
        pen.fillStyle = colours[kind];
        pen.fillRect(Math.round(at(place)) - 1, 0, 2, BARS.mark);
    }
}

/** The colours and the font of the picture, by what they are of. */
function coloursAt(node) {
    const named = (name) => getComputedStyle(node).getPropertyValue(name);
    return {
        ink: named("--ink"), font: `11px ${named("--labels")}`, find: named("--find"), take: named("--take"), seek: named("--seek"),
        act: named("--act"), rewritten: named("--write"), untold: named("--hair"),
        row: named("--ink"), watch: named("--write"), stop: named("--seek"), hand: named("--soft"),
    };
}

/** The picture of the time line on a canvas; `nameOf` gives the text for a number of orders that were not told. */
export function makeTimeline(laboratory, { isFast }, nameOf) {
    const node = h("canvas", { class: "timeline", "aria-hidden": "true", height: HEIGHT });
    let [colours, shown] = [{}, null];
    const draw = () => {
        const [pen, { panel }] = [node.getContext("2d"), laboratory];
        const accounts = isFast() ? [] : laboratory.accounts;
        const [bars, untold] = [barsOf(accounts, panel.clock), untoldOf(laboratory, accounts.length)];
        const { behind, ahead, marks } = laboratory.history;
        const drawn = placed(bars, ahead === 0 ? node.width : xOf(behind, behind + ahead, node.width), untold > 0);
        pen.clearRect(0, 0, node.width, HEIGHT);
        for (const bar of drawn) {
            const { kind, from, width } = bar;
            pen.fillStyle = colours[kind] ?? "gray";
            if (kind === "rewritten") mark(pen, from);
            else if (kind === "untold" && untold === 0) dashes(pen, bar);
            else pen.fillRect(from, BARS.middle - heightOf(kind) / 2, Math.max(0.5, width), heightOf(kind));
        }
        Object.assign(pen, { font: colours.font, textAlign: "center", textBaseline: "middle" });
        if (untold > 0 && drawn[0]?.kind === "untold") name(pen, drawn[0], nameOf(untold), colours.ink);
        drawWay(pen, laboratory.history, node.width, colours);
        const namesOf = (some) => some.map(({ kind }) => kind[0]).join("");
        Object.assign(node.dataset, { marks: namesOf(marks), later: ahead, bars: namesOf(bars), untold });
    };
    new ResizeObserver(([{ contentRect: { width } }]) => {
        node.width = Math.round(width);
        colours = coloursAt(node);
        draw();
    }).observe(node);
    const show = () => {
        const { history: { ahead, marks }, panel, accounts } = laboratory;
        const key = `${panel.clock} ${accounts.length} ${ahead} ${marks.length} ${isFast()}`;
        if (key !== shown) draw();
        shown = key;
    };
    return { node, show };
}

const heightOf = (kind) => (kind === "take" || kind === "act" ? BARS.work : BARS.wait);

function mark(pen, x) {
    pen.beginPath();
    for (const [aside, y] of [[-BARS.mark, 0], [BARS.mark, 0], [0, BARS.mark + 2]]) pen.lineTo(x + aside, y);
    pen.fill();
}
