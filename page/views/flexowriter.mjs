// The Flexowriter as a drawing: its carriage, which stands above the next column; the reader, through whose gate the tape passes; lamps,
// the plate with the code struck last; and its keys.
import { carriageAt, columnOf, columnsIn, holesOf, piecesOf, shownKeys, stateOf, textOnPaper } from "../flexowriter.mjs";
import { ReplyError, codesOf } from "../../libraries/javascript/replies.mjs";
import { counted } from "../words.mjs";
import { h, s, tell } from "./dom.mjs";

/** For how long a key stays down; and how long a new line takes. */
const [DOWN_MILLISECONDS, RETURN_MILLISECONDS] = [90, 280];
/** The carriage: its height, how far it reaches beyond the sheet, and how far apart the ticks of its rule are. */
const [CARRIAGE, BEYOND] = [{ height: 34, knob: 15 }, 14];

const rect = (name, x, y, width, height, rx = 0) => s("rect", { class: name, x, y, width: Math.max(0, width), height, rx });

/** What moves: knobs, platen, the rule with a tick for each column, the bail, and its rollers. */
function movingParts(sheet, columns, column, margin) {
    const [left, width, { height, knob }] = [-sheet / 2 - BEYOND, sheet + 2 * BEYOND, CARRIAGE];
    const tick = (at) => s("path", { d: `M${at * column + margin - sheet / 2} ${at % 10 === 0 ? height - 10 : height - 7}V${height - 4}` });
    return [
        rect("bail", left + 10, 3, width - 20, 3, 1.5),
        rect("roller", left + width * 0.2, 0, 26, 9, 4),
        rect("roller", left + width * 0.8 - 26, 0, 26, 9, 4),
        rect("knob", left - knob, 10, knob, height - 12, 3),
        rect("knob", left + width, 10, knob, height - 12, 3),
        rect("roll", left, 11, width, height - 22),
        rect("rule", left, height - 12, width, 9),
        s("g", { class: "ticks" }, ...Array.from({ length: columns + 1 }, (unused, at) => tick(at))),
    ];
}

/**
 * What stands still below the carriage: the basket of the types, and the ribbon, black over red. The struck bar is seen for as long as a
 * key is down.
 */
function basket() {
    const bars = Array.from({ length: 17 }, (unused, at) => s("path", { d: `M0 2L${(at - 8) * 4.6} ${16 - Math.abs(at - 8) * 0.5}` }));
    return s("g", { class: "basket" }, s("path", { class: "hollow", d: "M-48 0H48Q40 18 0 18T-48 0Z" }), ...bars);
}

/**
 * The carriage over its place. `place` is given the text of the paper, its columns and their width, and the margin; how wide the place is,
 * and whether all moves at once.
 */
export function makeCarriage() {
    const moving = s("g", { class: "moves" });
    const guide = s(
        "g",
        { class: "guide" },
        rect("ribbon", -26, 25, 52, 2.5),
        rect("ribbon red", -26, 27.5, 52, 2),
        s("path", { class: "type-bar", d: "M-1.5 44L-1 25H1L1.5 44Z" }),
        s("path", { class: "fork", d: "M-6 20L-3 29H3L6 20L2 24H-2Z" }),
        s("path", { class: "point", d: "M-5 1H5L0 8Z" })
    );
    const still = s("g", {}, basket());
    still.setAttribute("transform", `translate(0 ${CARRIAGE.height - 4})`);
    const node = s("svg", { class: "carriage", "aria-hidden": "true" }, s("g", { class: "middle" }, still, moving, guide));
    let drawn = "";
    const place = ({ text, columns, column, margin, width }) => {
        const sheet = columns * column + 2 * margin;
        const wanted = `${sheet} ${columns} ${width}`;
        if (wanted !== drawn) {
            drawn = wanted;
            node.firstChild.setAttribute("transform", `translate(${width / 2} 0)`);
            moving.replaceChildren(...movingParts(sheet, columns, column, margin));
        }
        const at = carriageAt({
            column: columnOf(text, columns), columns, width: column, room: Math.max(0, (width - sheet) / 2 - BEYOND - CARRIAGE.knob),
        });
        [[moving, at.shift], [guide, at.guide]].forEach(([part, x]) => { part.style.transform = `translateX(${x}px)`; });
        return at;
    };
    return { node, place, strike: () => flash(node, "struck") };
}

const timers = new WeakMap();

/** Has a class on a node for as long as a key stays down. */
function flash(node, name) {
    clearTimeout(timers.get(node));
    node.classList.add(name);
    timers.set(node, setTimeout(() => node.classList.remove(name), DOWN_MILLISECONDS));
}

/** What was typed, by its keys, as it stands on the paper: it is no part of the paper's text, so that a copy has what was printed alone. */
const typedNode = ({ typed, isLine }, { text }) => {
    const keys = shownKeys(typed);
    return h("span", {
        class: isLine ? "typed line-of-its-own" : "typed", role: "note", "data-typed": keys, "aria-label": text("typedOnPaper", { keys }),
    });
};

/**
 * Fills the paper with what was printed, and between it what was typed. Where only more was printed, that is added. Gives the text as it
 * stands there.
 */
export function fillPaper(paper, text, typed, texts) {
    const pieces = piecesOf(text, typed);
    const shown = paper.shown ?? { text: "", typed: 0 };
    const isMore = text.startsWith(shown.text) && typed.length === shown.typed && paper.shown !== undefined;
    paper.shown = { text, typed: typed.length };
    if (isMore) paper.append(text.slice(shown.text.length));
    else paper.replaceChildren(...pieces.map((piece) => piece.printed ?? typedNode(piece, texts)));
    return textOnPaper(pieces);
}

/** How wide a column of a paper is. */
function columnWidthOf(paper) {
    const probe = h("i", { class: "column-probe", "aria-hidden": "true" });
    paper.parentElement.append(probe);
    const { width } = probe.getBoundingClientRect();
    probe.remove();
    return width / 20;
}

/** Lays a paper out in its place: as many columns as leave the carriage room. Gives what the carriage is placed by. */
export function layPaper(paper) {
    const { clientWidth } = paper.parentElement;
    const column = columnWidthOf(paper);
    const margin = parseFloat(getComputedStyle(paper).paddingLeft);
    if (clientWidth === 0 || column === 0) return null;
    const columns = columnsIn(clientWidth, column, 2 * margin);
    paper.style.width = `${columns * column + 2 * margin + 0.5}px`;
    return { columns, column, margin, width: clientWidth };
}

/** Lifts the paper by a line, as a return does. */
export const lift = (paper) => paper.animate(
    [{ translate: `0 ${getComputedStyle(paper).lineHeight}` }, { translate: "0 0" }], { duration: RETURN_MILLISECONDS, easing: "ease-out" }
);

/** A code as holes in a piece of tape that lies across: with what is not punched as an edge. */
function codePlate() {
    const holes = Array.from(
        { length: 7 }, (unused, at) => s("circle", { cx: 9 + at * 9.5, cy: 8, r: at === 3 ? 1.6 : 3.6, class: at === 3 ? "hole" : "blank" })
    );
    const sign = h("b", {});
    const node = h(
        "span",
        { class: "code-plate", "aria-hidden": "true" },
        sign,
        s("svg", { viewBox: "0 0 75 16", width: 75, height: 16, "aria-hidden": "true" }, rect("tape-paper", 0, 0, 75, 16, 2), ...holes)
    );
    const show = (struck) => {
        tell(sign, struck?.sign ?? "");
        const punched = struck === null ? [] : holesOf(struck.code);
        punched.splice(3, 0, true);
        holes.forEach((hole, at) => { hole.setAttribute("class", punched[at] && (at === 3 || struck !== null) ? "hole" : "blank"); });
    };
    return { node, show };
}

/** The tape in the reader: how far its codes are apart and its levels, where its gate is, and its size. */
const TAPE = { pitch: 7.6, level: 5.3, gate: 46, width: 40, height: 150, past: 6 };

/** A code across the tape, at its place from the gate. */
const acrossTape = ({ code }, at) => s(
    "g",
    { transform: `translate(0 ${at * TAPE.pitch})` },
    ...holesOf(code)
        .map((isHole, bit) => (isHole ? s("circle", { cx: (bit < 3 ? bit - 3 : bit - 2) * TAPE.level, r: 2.1 }) : ""))
        .filter((it) => it !== ""),
    s("circle", { r: 1 })
);

/** The reader, at the left: the tape passes its gate upwards, and the frame is over the code that is read next. */
function makeReader() {
    const codes = s("g", {});
    const paper = rect("tape-paper", -19, 0, 38, TAPE.height);
    const node = s(
        "svg",
        { class: "reader", viewBox: `0 0 ${TAPE.width + 6} ${TAPE.height}`, preserveAspectRatio: "xMidYMin slice", "aria-hidden": "true" },
        rect("tape-bed", 0, 0, TAPE.width + 6, TAPE.height, 4),
        s(
            "g",
            { transform: `translate(${TAPE.width / 2 + 3} 0)` },
            paper,
            s("g", { transform: `translate(0 ${TAPE.gate})` }, codes),
            rect("gate", -21, TAPE.gate - 5, 42, 10, 2)
        )
    );
    let shown = null;
    const show = (all, passed) => {
        const key = all.length === 0 ? "none" : `${passed} ${all.length}`;
        if (key === shown) return;
        shown = key;
        const first = Math.max(0, passed - TAPE.past);
        codes.replaceChildren(...all.slice(first, passed + 15).map((code, place) => acrossTape(code, first + place - passed)));
        const end = TAPE.gate + (all.length - passed + 1) * TAPE.pitch;
        const begin = Math.max(0, TAPE.gate - (passed + 1) * TAPE.pitch);
        paper.setAttribute("y", begin);
        paper.setAttribute("height", all.length === 0 ? 0 : Math.max(0, Math.min(TAPE.height, end) - begin));
    };
    return { node, show };
}

/** The codes of a tape text, none where it cannot be read. */
export function readable(tape) {
    try {
        return codesOf(tape);
    } catch (failure) {
        if (failure instanceof ReplyError) return [];
        throw failure;
    }
}

/**
 * The typewriter's body: lamps, the code struck last, the reader, and keys, each with its sign in `data-key`. A key goes down when its code
 * was printed.
 */
export function makeBody(laboratory, { text, code }, { playing, held }, keys) {
    const lamp = (name) => h("span", { class: `lamp-of ${name}` }, h("i", {}), text(name));
    const [plate, reader] = [codePlate(), makeReader()];
    const left = h("small", { class: "tape-left" });
    const node = h(
        "div",
        { class: "deck" },
        h("div", { class: "strip-of-lamps", "aria-hidden": "true" }, lamp("lampTape"), left, lamp("lampKeys"), plate.node),
        reader.node,
        h("div", { class: "key-rows" }, ...keys)
    );
    let countOfLast = null;
    const showTape = () => {
        const { panel, history } = laboratory;
        const coming = playing()?.codes ?? 0;
        const all = readable(history.tape ?? "");
        const rest = panel.tape + coming;
        reader.show(rest <= all.length ? all : [], all.length - rest);
        node.dataset.state = stateOf({
            coming,
            isReading: panel.readerOn,
            isLive: laboratory.way.kind === "keys",
            isTyped: history.typed.some(({ at }) => at >= laboratory.printed.text.length),
        });
        tell(left, node.dataset.state === "reading" ? text("codesLeft", { count: counted(rest, code) }) : "");
    };
    const show = () => {
        showTape();
        if (held()?.printed != null) return;
        const { struck, printed: { count } } = laboratory;
        plate.show(struck);
        if (countOfLast !== null && count > countOfLast && struck?.sign != null) strike(struck);
        countOfLast = count;
    };
    const strike = ({ sign, code: struck }) => {
        const key = node.querySelector(`[data-key="${CSS.escape(sign)}"]`);
        if (key === null) return;
        key.dataset.holes = holesOf(struck).map((isHole) => (isHole ? "●" : "○")).join("").replace(/^.../, "$& ");
        flash(key, "down");
    };
    return { node, show, frame: showTape };
}
