// The kiosk with an exhibit that runs a program: what is told, the drum, the typewriter, at which pace all goes and what the machine would
// have taken, and what the scene has beside the paper: what was torn off, the bits of
// a word, or the orders at a place.
import { SECTORS, addressOf } from "../addresses.mjs";
import { PACES, WORD_TIME } from "../drive.mjs";
import { FIELDS, LETTERS } from "../machine.mjs";
import { bitsOf, linesOf } from "../../libraries/javascript/replies.mjs";
import { differing, rowsOf, sideBySide } from "../pieces.mjs";
import { h, refill, tell } from "./dom.mjs";
import { makeButtons } from "./kiosk.mjs";
import { markRows } from "./listing.mjs";
import { inSigns } from "../words.mjs";

/** How many rows of a torn piece are laid out before the last one that both have, and after it. */
const [BEFORE, AFTER] = [30, 12];
/** How far down of its place the last row is that both have. */
const SHARE = 0.65;

/** A time in words: seconds, minutes, or hours and minutes. */
export function timeOf(seconds, { text }) {
    if (seconds < 60) return text("timeSeconds", { count: Math.floor(seconds) });
    const minutes = Math.floor(seconds / 60);
    return minutes < 60
        ? text("timeMinutes", { count: minutes })
        : text("timeHours", { hours: Math.floor(minutes / 60), count: minutes % 60 });
}

/** A pace as a ratio, and a sentence for it. `slow` is that of the page's drive. */
export function ratioOf(pace, { text, code }) {
    if (pace === null) return [text("paceRests"), ""];
    if (pace === "fast") return [text("paceAtOnce"), ""];
    const times = pace === "slow" ? PACES.slow.speed / PACES.own.speed : pace;
    const counted = (count) => inSigns(count, code, { maximumFractionDigits: 0 });
    if (times === 1) return ["1 : 1", text("paceOwn")];
    return times > 1
        ? [`${counted(times)} : 1`, text("paceFaster", { count: counted(times) })]
        : [`1 : ${counted(1 / times)}`, text("paceSlower", { count: counted(1 / times) })];
}

/** The pace, and the two clocks: that here, and the machine's, which are word times since the first order. */
function makePaceBox(exhibit, texts) {
    const { text } = texts;
    const [ratio, said, here, machine, passed] = [h("b", {}), h("span", {}), h("b", {}), h("b", {}), h("p", { class: "passed-over" })];
    const node = h(
        "section",
        { class: "pace-told", "aria-label": text("paceTold") },
        h("p", { class: "ratio" }, ratio, " ", said),
        h(
            "p",
            { class: "two-clocks" },
            h("span", {}, `${text("clockHere")} `, here),
            " ",
            h("span", {}, `${text("clockMachine")} `, machine)
        ),
        passed
    );
    const seconds = (wordTimes) => (wordTimes * WORD_TIME) / 1000;
    const show = () => {
        const { clocks, pace, passedOver } = exhibit;
        const [first, second] = ratioOf(pace, texts);
        tell(ratio, first);
        tell(said, second);
        tell(here, timeOf(Math.max(0, clocks.here / 1000), texts));
        tell(machine, timeOf(Math.max(0, seconds(clocks.machine)), texts));
        tell(passed, seconds(passedOver) < 1 ? "" : text("passedOver", { time: timeOf(seconds(passedOver), texts) }));
    };
    return { node, show };
}

/** What is told: the number of a row that it speaks of has the colour that the row has on the paper. */
function makeTold(exhibit, { code }) {
    const told = h("p", { class: "kiosk-told", role: "status" });
    let shown;
    const show = () => {
        const { told: caption, isAttract } = exhibit;
        told.setAttribute("aria-live", isAttract ? "off" : "polite");
        if (caption === shown) return;
        shown = caption;
        const said = caption?.text[code] ?? "";
        const at = caption?.row === undefined ? -1 : said.indexOf(caption.row);
        told.replaceChildren(
            ...(at < 0 ? [said] : [said.slice(0, at), h("b", { class: "row-told" }, caption.row), said.slice(at + caption.row.length)])
        );
    };
    return { node: told, show };
}

/** Where on the paper the last row is that begins with a text: the node in which that begins, and at which sign; or null. */
export function rowOn(paper, row) {
    const nodes = [];
    let text = "\n";
    for (const node of paper.childNodes) {
        if (node.nodeType !== Node.TEXT_NODE) text += node.classList.contains("line-of-its-own") ? "\n" : "";
        else {
            nodes.push({ node, from: text.length });
            text += node.data;
        }
    }
    // what is printed comes in pieces, so the text may go on in the next node
    const at = text.lastIndexOf(`\n${row}`) + 1;
    const begun = at === 0 ? undefined : nodes.findLast(({ from }) => from <= at);
    return begun === undefined ? null : { node: begun.node, at: at - begun.from };
}

/** How far below the upper edge of the paper the last row is that begins with a text, or null. */
function topOf(paper, row) {
    const found = rowOn(paper, row);
    if (found === null) return null;
    const range = document.createRange();
    range.setStart(found.node, found.at);
    range.setEnd(found.node, found.at + 1);
    const { top, height } = range.getBoundingClientRect();
    return top + height / 2 - paper.getBoundingClientRect().top - paper.clientTop + paper.scrollTop;
}

/** Has the row of the paper in the colour of its caption. */
function makeWash(exhibit, paper) {
    let shown = "";
    return { show: () => {
        const { row } = exhibit.told ?? {};
        const key = `${row} ${exhibit.paper.text.length} ${paper.clientWidth}`;
        if (key === shown) return;
        shown = key;
        const top = row === undefined ? null : topOf(paper, row);
        paper.classList.toggle("washed", top !== null);
        paper.style.setProperty("--washed", `${top ?? 0}px`);
    } };
}

/** The text of a row, marked where it differs from the other one. */
const marked = (row, other) => (
    differing(row.text, other?.text ?? row.text).map((part) => (part.isOther ? h("b", {}, part.text) : part.text))
);

/** The class of a row: what is told speaks of it, or it is still to come. */
const classOf = (row, told, isToCome) => (
    told !== undefined && row?.text.startsWith(told) ? "row-now" : isToCome ? "to-come" : null
);

/**
 * What was torn off beside what is in the machine: rows that begin with the same number side by side, their other digits marked, and those
 * to come in grey.
 */
function makeTorn(exhibit, { text }) {
    const body = h("tbody");
    const node = h(
        "div",
        { class: "torn" },
        h(
            "table",
            { "aria-label": text("tornBeside") },
            h("thead", {}, h("tr", {}, h("th", { scope: "col" }, text("firstRun")), h("th", { scope: "col" }, text("typedAgain")))),
            body
        )
    );
    let shown = "";
    const show = () => {
        const [torn, { text: paper }, told] = [exhibit.pieces.all.pieces.at(-1), exhibit.paper, exhibit.told?.row];
        const key = `${torn?.number} ${paper.length} ${told}`;
        if (exhibit.beside?.torn !== true || key === shown) return;
        shown = key;
        const { pairs } = torn === undefined ? { pairs: [] } : sideBySide(rowsOf(torn.text, []), rowsOf(paper, []));
        // as long as nothing is typed again, the end of the piece is seen
        const both = pairs.findLastIndex(([left, right]) => left !== null && right !== null);
        const last = both < 0 ? Math.max(0, pairs.length - 1) : both;
        const first = Math.max(0, last - BEFORE);
        const rows = pairs.slice(first, last + AFTER).map(([left, right], place) => h(
            "tr",
            { class: classOf(right, told, first + place > last && paper !== "") },
            h("td", {}, left?.text ?? ""),
            h("td", {}, ...(right === null ? [] : marked(right, left)))
        ));
        body.replaceChildren(...rows);
        const now = rows[last - first];
        if (now !== undefined) {
            node.scrollTop = now.offsetHeight * Math.max(0, last - first + 1 - Math.floor((SHARE * node.clientHeight) / now.offsetHeight));
        }
    };
    return { node, show };
}

/** The fields of an order's word that are shown, from the first bit on; between them lie two bits that no order uses. */
const SHOWN = [
    ["order", ...FIELDS.order], ["spare", FIELDS.order[1], FIELDS.track[0]], ["track", ...FIELDS.track], ["sector", ...FIELDS.sector],
];

/** What a field says by now. While a sum runs through the order's number it is none. */
function saidOf(name, bits, isWhole, { text }) {
    const value = Number.parseInt(bits.join(""), 2);
    if (name === "spare") return [bits.join(" "), text("bitsUnused")];
    if (name !== "order") return [String(value).padStart(2, "0"), ""];
    return isWhole ? [LETTERS[value], text("bitsNumber", { number: value })] : ["…", String(value)];
}

/** The place to which the 1 of an address is added, and what is below a place while the carry is at another one, or has not begun. */
const LAST = FIELDS.sector[1] - 1;
const markBelow = (place, at) => (place === (at < 0 ? LAST : at) ? "1" : at >= 0 && place > at && place <= LAST ? "‹" : "");

/** A word bit by bit, and while one is added to it, how far the sum has come. */
function makeBits(laboratory, exhibit, texts) {
    const node = h("div", { class: "word-bits", role: "img" });
    const fieldNode = ([name, from, to], bits, at, isWhole) => {
        const [value, below] = saidOf(name, bits.slice(from, to), isWhole, texts);
        const marks = bits.slice(from, to).map((bit, place) => markBelow(from + place, at)).map(
            (mark) => h("i", { class: mark === "1" ? "ring" : null }, mark)
        );
        const cells = bits.slice(from, to).map((bit, place) => (
            h("i", { class: `bit ${bit === 1 ? "one" : ""} ${from + place === at ? "now" : ""}` }, String(bit))
        ));
        return h(
            "div",
            { class: `bit-field ${name}` },
            h("span", {}, texts.text(`bits_${name}`)),
            h("span", { class: "bit-cells" }, ...cells),
            h("b", {}, value),
            h("small", {}, below),
            h("span", { class: "carry" }, ...marks)
        );
    };
    let shown = "";
    const show = () => {
        if (exhibit.beside?.bits === undefined) return;
        const { bits } = exhibit;
        const picture = bits === null ? null : bits.pictures[bits.seen - 1];
        const [answer] = laboratory.answers;
        if (answer === undefined && bits === null && shown !== "") return;
        const digits = answer?.trim().split(" ")[1] ?? "00000000";
        const now = picture === undefined ? bitsOf(bits.before)
            : picture === null ? bitsOf(digits)
            : Array.from({ length: 32 }, (unused, place) => (picture.value >>> (31 - place)) & 1);
        const at = picture == null ? -1 : 31 - picture.at;
        const isWhole = picture == null || bits.seen === bits.pictures.length || at >= FIELDS.order[1];
        const key = `${now.join("")} ${at}`;
        if (key === shown) return;
        shown = key;
        node.setAttribute("aria-label", texts.text("bitsOfWord", { bits: now.join("") }));
        node.replaceChildren(
            ...SHOWN.map((field) => fieldNode(field, now, at, isWhole)),
            h("small", { class: "carry-told" }, texts.text(at < 0 ? "carryBegins" : "carryGoes"))
        );
    };
    return { node, show };
}

/** The order in a word: its letter, and the label or address of its place. */
function orderIn(digits, labels) {
    const numberIn = (name) => Number.parseInt(bitsOf(digits).slice(...FIELDS[name]).join(""), 2);
    const [letter, track, sector] = ["order", "track", "sector"].map(numberIn);
    const address = addressOf(track * SECTORS + sector);
    return [LETTERS[letter], labels.get(address)?.[0] ?? address];
}

/** The orders from a place on in place of the typewriter, with the marks of the order under way. */
function makeOrders(laboratory, exhibit, { table, text }, markNow) {
    const body = h("tbody");
    const node = h("table", { class: "words-table orders-beside", "aria-label": text("tab_program") }, body);
    let shown = "";
    const row = (line) => {
        const [at, digits] = line.split(" ");
        const [letter, place] = orderIn(digits, laboratory.labels);
        return h(
            "tr",
            { "data-address": at },
            ...[h("code", {}, at), h("code", {}, `${letter} ${place}`), table.orders[letter].split(":")[0]].map((it) => h("td", {}, it)),
            h("td", { class: "chip" }, h("span"))
        );
    };
    const frame = () => markRows(body, markNow(), table);
    const show = () => {
        if (exhibit.beside?.orders === undefined) return;
        const { bits } = exhibit;
        const isComing = bits !== null && bits.seen < bits.pictures.length;
        const lines = linesOf(laboratory.answers[1] ?? "").filter((line) => /^\d{4} /.test(line)).map(
            (line) => (isComing ? line.replace(bits.after, bits.before) : line)
        );
        if (lines.join() !== shown) body.replaceChildren(...lines.map(row));
        shown = lines.join();
        frame();
    };
    return { node, show, frame };
}

/** The orders from a place on, up to the last one that its exhibit names. */
function makeWords(laboratory, exhibit, { text }) {
    const list = h("ol", { class: "made-orders", "aria-label": text("madeOrders") });
    const show = () => {
        const { beside } = exhibit;
        if (beside?.words === undefined) return;
        const rows = linesOf(laboratory.answers[0] ?? "").map((line) => line.split(" ").slice(0, 3)).filter((row) => row.length === 3);
        const end = rows.findIndex(([, ...order]) => order.join(" ") === beside.last);
        const shown = (end < 0 ? rows : rows.slice(0, end)).filter(([, letter, address]) => `${letter} ${address}` !== "z 0000");
        refill(list, ...shown.map(([at, ...order]) => h("li", {}, h("code", {}, at), " ", h("b", {}, order.join(" ")))));
    };
    return { node: h("div", { class: "words-beside" }, h("p", {}, text("madeOrders")), list), show };
}

/**
 * The kiosk with such an exhibit: header, main and footer. `made` has the views of the page that it shows, `others` the small buttons at
 * the top, and `markNow` tells which order is under way.
 */
export function makeRunning(laboratory, texts, exhibit, made, others, markNow) {
    const { text, code } = texts;
    const own = {
        told: makeTold(exhibit, texts),
        buttons: makeButtons(texts, exhibit),
        pace: makePaceBox(exhibit, texts),
        torn: makeTorn(exhibit, texts),
        bits: makeBits(laboratory, exhibit, texts),
        words: makeWords(laboratory, exhibit, texts),
        orders: makeOrders(laboratory, exhibit, texts, markNow),
    };
    // it comes after the paper, whose row it colours
    const wash = makeWash(exhibit, made.paper.node.querySelector(".paper"));
    const [title, hint] = [h("h1", {}), h("p", { class: "kiosk-hint" })];
    const header = h("header", {}, title, h("div", { class: "others" }, ...others), own.told.node, hint);
    const cabinet = h("div", { class: "cabinet" }, h("p", { class: "plate" }, h("b", {}, "ROYAL McBEE LGP-30")), made.drum.node);
    const shown = { show: () => {
        Object.assign(document.body.dataset, {
            state: exhibit.state,
            exhibit: "running",
            beside: Object.keys(exhibit.beside ?? { none: true })[0],
            orders: String(exhibit.beside?.orders !== undefined),
            scene: exhibit.scene,
            busy: String(exhibit.isBusy),
        });
        tell(title, exhibit.exhibit.title[code]);
        tell(hint, exhibit.isAttract ? text(exhibit.hint) : "");
    } };
    const beside = h("div", { class: "beside" }, own.torn.node, own.bits.node, own.words.node);
    return {
        nodes: [
            header,
            h(
                "main",
                {},
                cabinet,
                own.pace.node,
                beside,
                own.orders.node,
                h("div", { class: "flexowriter" }, made.paper.node, made.deck.node)
            ),
            h("footer", {}, own.buttons.node),
        ],
        views: [shown, ...Object.values(own), ...Object.values(made), wash],
    };
}
