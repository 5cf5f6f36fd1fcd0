// Paper: the tape in the reader as punched holes, and what the typewriter has printed.
import { holesOf } from "../flexowriter.mjs";
import { groupOf } from "../../libraries/javascript/replies.mjs";
import { counted } from "../words.mjs";
import { button, h, part, s, tell } from "./dom.mjs";
import { fillPaper, layPaper, lift, makeCarriage, readable } from "./flexowriter.mjs";

/**
 * The drawing of the tape is 100 high. How far the codes are apart, and the levels; how far the tape goes on at its ends; and the gate over
 * the code that is read next.
 */
const [HEIGHT, PITCH, LEVEL, ENDS] = [100, 15, 11, 2];
const GATE = { width: 18, height: 82 };
const WIDEST = 400;

/** A code across the tape: its holes, the feed hole between the third and the fourth, and below them its sign. */
function holes({ code, sign }, x, isPast) {
    const across = holesOf(code).map((isHole, bit) => (
        s("circle", { class: isHole ? "hole" : "blank", cx: x, cy: LEVEL * (bit < 3 ? bit + 1 : bit + 2), r: 4.3 })
    ));
    return s(
        "g",
        { class: isPast ? "past" : "" },
        ...across,
        s("circle", { class: "hole", cx: x, cy: LEVEL * 4, r: 2 }),
        s("text", { x, y: HEIGHT - 3 }, sign ?? ""),
        s("title", {}, sign ?? groupOf(code))
    );
}

/** The tape around the gate, which is in the middle, as a drawing of this width. */
function strip(codes, passed, label, width) {
    const middle = width / 2;
    const xOf = (place) => middle + PITCH * (place - passed);
    const [first, end] = [Math.max(0, passed - Math.ceil(middle / PITCH)), Math.min(codes.length, passed + Math.ceil(middle / PITCH) + 1)];
    const [from, to] = [Math.max(0, xOf(-ENDS)), Math.min(width, xOf(codes.length - 1 + ENDS))];
    return s("svg", { class: "tape-strip", viewBox: `0 0 ${width} ${HEIGHT}`, role: "img", "aria-label": label },
        s("rect", { class: "tape-bed", width, height: HEIGHT }),
        s("rect", { class: "tape-paper", x: from, width: Math.max(0, to - from), height: GATE.height + 4 }),
        ...codes.slice(first, end).map((code, place) => holes(code, xOf(first + place), first + place < passed)),
        s("rect", { class: "gate", x: middle - GATE.width / 2, y: 2, width: GATE.width, height: GATE.height, rx: 3 }));
}

/** The part of the page with the tape. While an order is played that reads it, its codes pass one after another. */
export function makeTape(laboratory, { text, code }, drafts, { playing }) {
    const place = h("div", { class: "tape-place" });
    const told = h("p");
    const input = drafts.held(h("input", { class: "wide", "aria-label": text("tapeText"), value: "1'2'3'" }), "tape");
    const mount = button(text("mount"), () => laboratory.command(`mount ${input.value}`));
    let width = WIDEST;
    new ResizeObserver(([{ contentRect }]) => {
        const wanted = contentRect.width === 0 ? width : Math.round(Math.min(2 * WIDEST, contentRect.width));
        if (wanted === width) return;
        width = wanted;
        if (laboratory.panel !== null) show();
    }).observe(place);
    let coming = 0;
    const show = () => {
        const { panel, history } = laboratory;
        coming = playing()?.codes ?? 0;
        const codes = readable(history.tape ?? "");
        const rest = panel.tape + coming;
        const isKnown = codes.length > 0 && rest <= codes.length;
        const left = counted(rest, code);
        place.replaceChildren(...(isKnown ? [strip(codes, codes.length - rest, text("tapeLeft", { count: left }), width)] : []));
        const count = isKnown ? text("tapeLeft", { count: left }) : rest === 0 ? text("noTape") : text("loaderTape", { count: left });
        tell(told, `${count} ${panel.readerOn || coming > 0 ? text("readerOn") : text("readerOff")}`);
    };
    const frame = () => { if ((playing()?.codes ?? 0) !== coming) show(); };
    return {
        node: part(
            "tape",
            text("tape"),
            place,
            told,
            h("form", { class: "line", onsubmit: (event) => { event.preventDefault(); mount.click(); } }, input, mount)
        ),
        show,
        frame,
    };
}

/** How much of the paper is kept as text of the page. */
const KEPT = 40_000;

/**
 * The part of the page with the typewriter's paper, above its carriage. What an order prints that is played stands there when it has been
 * printed. `restOf` gives what of it has not been torn off.
 */
export function makePaper(laboratory, texts, { held, isStill }, restOf = (printed, typed) => ({ text: printed, typed })) {
    const { text, code } = texts;
    const paper = h("pre", { class: "paper", tabindex: "0", role: "log", "aria-label": text("paper"), "data-hint": text("typeThenStop") });
    const [carriage, told] = [makeCarriage(), h("p")];
    let [shown, laid, onPaper] = [null, null, ""];
    const place = () => {
        laid ??= layPaper(paper);
        if (laid === null || shown === null) return;
        const { shift } = carriage.place({ text: onPaper, ...laid });
        paper.style.transform = `translateX(${shift}px)`;
    };
    const sheet = h("div", { class: "sheet" }, paper);
    new ResizeObserver(() => {
        laid = null;
        place();
        paper.scrollTop = paper.scrollHeight;
    }).observe(sheet);
    const show = () => {
        const { printed, history } = laboratory;
        paper.classList.toggle("waits", laboratory.way.kind === "keys");
        const isHeld = held()?.printed != null && shown !== null;
        const rest = restOf(printed.text, history.typed);
        const key = `${printed.count} ${rest.typed.length} ${rest.text.length}`;
        if (isHeld || (key === shown?.key && rest.text === shown.text)) return;
        const before = shown;
        const cut = Math.max(0, rest.text.length - KEPT);
        shown = { count: printed.count, text: rest.text, key };
        const isAtEnd = paper.scrollTop + paper.clientHeight >= paper.scrollHeight - 4;
        onPaper = fillPaper(
            paper, rest.text.slice(cut), rest.typed.filter(({ at }) => at >= cut).map(({ at, keys }) => ({ at: at - cut, keys })), texts
        );
        place();
        if (isAtEnd) paper.scrollTop = paper.scrollHeight;
        if (before !== null && printed.count > before.count) moved(before.text, rest.text);
        told.textContent = printed.count === 0
            ? text("nothingPrinted")
            : text(printed.count === 1 ? "printedOne" : "printedCount", { count: counted(printed.count, code) });
    };
    const moved = (before, now) => {
        carriage.strike();
        if (!isStill() && now.length > before.length && now.slice(before.length).includes("\n")) lift(paper);
    };
    return { node: part("typewriter", text("paper"), sheet, carriage.node, told), show };
}
