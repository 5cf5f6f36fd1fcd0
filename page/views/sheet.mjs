// The paper pulled up: a sheet over the right side of Work, in which a piece is read, laid beside another, copied, saved, printed, and of
// which a row is typed again.
import { STOP } from "../flexowriter.mjs";
import { copyOf, differing, inView, rowsOf, sideBySide, typedAgain } from "../pieces.mjs";
import { counted } from "../words.mjs";
import { button, guarded, h, showLive, tell } from "./dom.mjs";

const ROW = 22;
/** How far a press of Page Up or Down goes, and how many orders an input may take between two numbers of a row. */
const [PAGE, MOST_ORDERS] = [20, 5_000_000];
/** Rows shorter than this are printed in two columns. */
const TWO_COLUMNS = 34;

/** The rows of a piece, of which those in view are nodes; one of them is marked, and goes open. */
class RowsView {
    node;
    at = 0;
    rows = [];

    #list = h("div", { class: "piece-rows", role: "listbox", tabindex: "0" });
    #inner = h("div", { class: "piece-inner" });
    #others = [];
    #name;

    constructor(name, label, { open, close, scrolled }) {
        this.#name = name;
        this.#list.setAttribute("aria-label", label);
        this.#list.append(this.#inner);
        this.node = h("div", { class: "piece-box" }, this.#list);
        this.#list.addEventListener("scroll", () => { this.#draw(); scrolled(this.#list.scrollTop); });
        this.#list.addEventListener("click", ({ target }) => {
            const row = target.closest("[data-row]");
            if (row !== null) this.#choose(Number(row.dataset.row), open);
        });
        this.#list.addEventListener("keydown", (event) => this.#key(event, open, close));
        new ResizeObserver(() => this.#draw()).observe(this.#list);
    }

    /**
     * Shows rows, of which null ones are empty, and beside which those of another piece stand; it stays where it was, or, where it was at
     * its end, at the end.
     */
    set(rows, others = []) {
        const wasAtEnd = this.#list.scrollTop + this.#list.clientHeight >= this.#inner.clientHeight - 4;
        [this.rows, this.#others] = [rows, others];
        this.at = Math.min(this.at, Math.max(0, rows.length - 1));
        this.#inner.style.height = `${rows.length * ROW}px`;
        this.#draw();
        if (wasAtEnd) this.scrollTo(rows.length * ROW);
    }

    scrollTo(top) {
        if (Math.abs(this.#list.scrollTop - top) > 1) this.#list.scrollTop = top;
    }

    focus() {
        this.#list.focus({ preventScroll: true });
    }

    /** Lays a node over the rows below the marked one; null takes it away. */
    lay(node) {
        this.#inner.querySelector(".row-open")?.remove();
        if (node === null) return;
        node.style.top = `${(this.at + 1) * ROW}px`;
        this.#inner.append(node);
        node.scrollIntoView({ block: "nearest" });
    }

    #choose(at, open) {
        this.at = at;
        this.#draw();
        if (this.rows[at] !== null) open(this);
    }

    #key(event, open, close) {
        if (event.target !== this.#list) return;
        const { at, rows: { length } } = this;
        const to = { ArrowUp: at - 1, ArrowDown: at + 1, PageUp: at - PAGE, PageDown: at + PAGE, Home: 0, End: length - 1 }[event.key];
        if (to === undefined && event.key !== "Enter" || length === 0) return;
        event.preventDefault();
        if (to === undefined) return this.#choose(at, open);
        close();
        this.at = Math.max(0, Math.min(length - 1, to));
        const top = this.at * ROW;
        if (top < this.#list.scrollTop) this.scrollTo(top);
        else if (top + ROW > this.#list.scrollTop + this.#list.clientHeight) this.scrollTo(top + ROW - this.#list.clientHeight);
        this.#draw();
        return undefined;
    }

    #row(row, at) {
        const other = this.#others[at];
        const parts = row === null ? []
            : other == null || other.isTyped || row.isTyped ? [row.text]
            : differing(row.text, other.text).map((part) => (part.isOther ? h("b", {}, part.text) : part.text));
        return h(
            "div",
            {
                class: `piece-row ${row?.isTyped ? "was-typed" : ""} ${at === this.at ? "marked" : ""}`,
                id: `${this.#name}-${at}`,
                role: "option",
                "data-row": at,
                "aria-selected": String(at === this.at),
                "aria-setsize": this.rows.length,
                "aria-posinset": at + 1,
                style: `top: ${at * ROW}px`,
            },
            ...parts
        );
    }

    #draw() {
        const { scrollTop, clientHeight } = this.#list;
        const { first, end } = inView({ top: scrollTop, height: clientHeight, row: ROW, count: this.rows.length });
        const open = this.#inner.querySelector(".row-open");
        this.#inner.replaceChildren(
            ...this.rows.slice(first, end).map((row, place) => this.#row(row, first + place)), ...(open === null ? [] : [open])
        );
        this.#list.setAttribute("aria-activedescendant", this.rows.length === 0 ? "" : `${this.#name}-${this.at}`);
    }
}

/** What is shown as keys that are struck: a number, and the conditional stop after it. */
const struck = (keys, { text }) => (
    h("p", { class: "struck-keys" }, ...keys.flatMap((key) => [h("code", {}, key.replace(STOP, "")), h("i", {}, text("stopKey")), " "]))
);

/** A piece as it is printed. */
const printedPage = (rows, title, word) => `<style>body { font: 12pt/1.35 monospace; } pre { font: inherit; white-space: pre-wrap;${rows.every(
    ({ text }) => text.length < TWO_COLUMNS
)
    ? " columns: 2;"
    : ""} } h1 { font-size: 12pt; }</style><h1></h1><pre></pre>`.replace(
    "<h1></h1>", () => `<h1>${escaped(title)}</h1>`
).replace(
    "<pre></pre>", () => `<pre>${escaped(copyOf(rows, word))}</pre>`
);
const escaped = (text) => text.replaceAll("&", "&amp;").replaceAll("<", "&lt;");

/**
 * The paper pulled up. `pieces` are those torn off, `print` prints a page, `changed` is called when a piece was torn off, and `goToRow`
 * goes to the order that printed a row.
 */
class Sheet {
    node;
    control;

    #laboratory;
    #texts;
    #pieces;
    #actions;
    #foot = h("p", { class: "sheet-foot", role: "status" });
    #both = h("input", { type: "checkbox", checked: true, onchange: () => this.#draw() });
    #sides;
    #halves;
    #chosen = [null, null];
    #isUp = false;
    #isTwo = false;
    #drawn = null;
    #opened = null;

    constructor(laboratory, texts, pieces, actions) {
        [this.#laboratory, this.#texts, this.#pieces, this.#actions] = [laboratory, texts, pieces, actions];
        const { text } = texts;
        this.#sides = ["left", "right"].map((name, side) => this.#side(name, side));
        this.#halves = [["onePiece", false], ["twoPieces", true]].map(([name, two]) => (
            button(text(name), () => { this.#isTwo = two; this.#draw(); }, { "aria-pressed": String(!two), "data-name": name })
        ));
        this.node = h(
            "section",
            { class: "pulled-up", "aria-label": text("sheetOfPaper"), hidden: true },
            this.#bar(),
            h("div", { class: "sheet-pieces" }, ...this.#sides.map(({ node }) => node)),
            this.#foot
        );
        this.control = button(`⇧ ${text("pullUp")} F4`, () => this.toggle(), { class: "pull-up", id: "pull-up", "aria-expanded": "false" });
    }

    #side(name, side) {
        const { text } = this.#texts;
        const choice = h("select", {
            "aria-label": text("whichPiece"),
            onchange: () => { this.#chosen[side] = choice.value === "" ? null : Number(choice.value); this.#draw(); },
        });
        const scrolled = (top) => { if (this.#isTwo && this.#both.checked) this.#sides[1 - side].view.scrollTo(top); };
        const view = new RowsView(
            `row-${name}`, text("sheetOfPaper"), { open: (it) => this.#open(it), close: () => this.#shut(), scrolled }
        );
        return { choice, view, node: h("div", { class: `paper-piece piece-${name}` }, choice, view.node) };
    }

    #bar() {
        const { text } = this.#texts;
        const print = () => {
            const { piece, rows } = this.#shown;
            this.#actions.print(printedPage(rows, this.#nameOf(piece, rows), text("typedWord")));
        };
        return h(
            "div",
            { class: "sheet-bar" },
            h("h2", {}, text("sheetOfPaper")),
            button(text("tearOff"), () => this.#tear(), { id: "tear-off" }),
            button(text("printPaper"), print),
            button(text("copy"), () => this.#copy(this.#shown.rows), { id: "copy-paper" }),
            button(text("savePaper"), () => this.#save(this.#shown)),
            h("span", { class: "paces", role: "group" }, ...this.#halves),
            h("label", { class: "same-rows" }, this.#both, ` ${text("sameRows")}`),
            button(`${text("letDown")} Esc`, () => this.toggle(), { id: "let-down" })
        );
    }

    get isUp() {
        return this.#isUp;
    }

    get #isLive() {
        return this.#laboratory.way.kind === "keys";
    }

    /** What is shown by now. */
    get #key() {
        const { printed: { count, text }, history } = this.#laboratory;
        return `${count} ${history.typed.length} ${text.length}`;
    }

    /** The piece at the right, which is the one that is copied, saved and printed. */
    get #shown() {
        const piece = this.#pieceOf(1);
        return { piece, rows: this.#rowsOf(piece) };
    }

    #pieceOf(side) {
        return this.#pieces.all.pieces.find(({ number }) => number === this.#chosen[side]) ?? null;
    }

    #rowsOf(piece) {
        const { text, typed } = piece ?? this.#pieces.rest(this.#laboratory.printed.text, this.#laboratory.history.typed);
        return rowsOf(text, typed);
    }

    #nameOf(piece, rows) {
        const { text, code } = this.#texts;
        const lines = text(rows.length === 1 ? "oneLine" : "countedLines", { count: counted(rows.length, code) });
        return `${piece === null ? text("inTypewriter") : text("pieceNamed", piece)} · ${lines}`;
    }

    /** Shuts the row that is open. Whether one was. */
    #shut() {
        const was = this.#opened !== null;
        this.#opened?.view.lay(null);
        this.#opened = null;
        return was;
    }

    /** Opens the marked row: it can be typed again while the machine waits for keys, and copied. */
    #open(view) {
        this.#shut();
        const { text } = this.#texts;
        const [row, isLive] = [view.rows[view.at], this.#isLive];
        const keys = typedAgain(row);
        const again = guarded(
            text("typeAgain"), { class: "primary" }, () => this.#type(keys), () => this.#laboratory.tell({ kind: "notWaiting" })
        );
        showLive(again, isLive);
        const typing = keys.length === 0 ? [] : [struck(keys, this.#texts)];
        const isHere = view === this.#sides[1].view && this.#pieceOf(1) === null && !row.isTyped;
        const order = button(text("toItsOrder"), () => this.#goTo(row), { id: "to-its-order" });
        view.lay(
            h(
                "div",
                { class: "row-open" },
                h(
                    "div",
                    { class: "line" },
                    ...(keys.length === 0 ? [] : [again]), ...(isHere ? [order] : []), button(text("copy"), () => this.#copy([row]))
                ),
                ...typing,
                isLive ? null : h("p", {}, text("notWaiting"))
            )
        );
        this.#opened = { view, isLive };
    }

    /** Lets the paper down and goes to the order that printed a row. */
    #goTo({ returns }) {
        const torn = this.#laboratory.printed.text.slice(0, this.#pieces.all.torn);
        this.toggle(false);
        return this.#actions.goToRow(returns + torn.split("\n").length - 1);
    }

    /** Types numbers one after another: after each but the last the machine runs until it waits for the next. */
    async #type(keys) {
        const laboratory = this.#laboratory;
        this.#shut();
        for (const [at, key] of keys.entries()) {
            if (!this.#isLive) return laboratory.tell({ kind: "notWaiting" });
            await laboratory.command(`type ${key}`);
            if (at < keys.length - 1) await laboratory.run(MOST_ORDERS);
        }
        return undefined;
    }

    async #copy(rows) {
        const { text } = this.#texts;
        const isDone = await navigator.clipboard?.writeText(copyOf(rows, text("typedWord"))).then(() => true, () => false);
        tell(this.#foot, text(isDone === true ? "copied" : "notCopied"));
    }

    #save({ piece, rows }) {
        const href = URL.createObjectURL(new Blob([copyOf(rows, this.#texts.text("typedWord"))], { type: "text/plain" }));
        h("a", { href, download: piece === null ? "paper.txt" : `paper-${piece.number}.txt` }).click();
    }

    #tear() {
        const { text, code } = this.#texts;
        const { printed, history } = this.#laboratory;
        const oldest = this.#pieces.tear(
            printed.text, history.typed, new Date().toLocaleTimeString(code, { hour: "2-digit", minute: "2-digit", hour12: false })
        );
        if (oldest === undefined) return tell(this.#foot, text("nothingToTear"));
        const torn = this.#pieces.all.pieces.at(-1);
        this.#chosen[0] = torn.number;
        if (oldest !== null) this.#save({ piece: oldest, rows: this.#rowsOf(oldest) });
        this.#actions.changed();
        this.#draw();
        return tell(this.#foot, oldest === null ? text("tornOff", torn) : text("oldestSaved", oldest));
    }

    #fillChoices() {
        const { pieces } = this.#pieces.all;
        const key = `${this.#laboratory.printed.count} ${pieces.length}`;
        this.#sides.forEach(({ choice }, side) => {
            if (choice.dataset.key !== key) {
                choice.replaceChildren(
                    ...[null, ...pieces].map((piece) => (
                        h("option", { value: piece?.number ?? "" }, this.#nameOf(piece, this.#rowsOf(piece)))
                    ))
                );
            }
            choice.dataset.key = key;
            choice.value = this.#chosen[side] ?? "";
        });
    }

    #draw() {
        this.#shut();
        this.#drawn = this.#key;
        for (const [at, half] of this.#halves.entries()) half.setAttribute("aria-pressed", String(this.#isTwo === (at === 1)));
        [this.node.dataset.two, this.#both.disabled] = [String(this.#isTwo), !this.#isTwo];
        this.#fillChoices();
        const [left, right] = [0, 1].map((side) => this.#rowsOf(this.#pieceOf(side)));
        const beside = this.#isTwo && this.#both.checked ? sideBySide(left, right) : null;
        const pairs = beside !== null && beside.shared > 0 ? beside.pairs : null;
        this.#sides[1].view.set(pairs?.map(([, row]) => row) ?? right, pairs?.map(([row]) => row) ?? []);
        if (this.#isTwo) this.#sides[0].view.set(pairs?.map(([row]) => row) ?? left);
        tell(this.#foot, this.#sentence(beside, right));
    }

    /** What is told below the pieces. */
    #sentence(beside, right) {
        const { text, code } = this.#texts;
        if (beside === null) return text(right.length === 0 ? "nothingPrinted" : "tapARow");
        const differs = beside.differs === null ? text("noneDiffers") : text("firstDiffers", { row: beside.differs });
        return [text("sharedRows", { count: counted(beside.shared, code) }), ...(beside.shared === 0 ? [] : [differs])].join(" ");
    }

    /** Pulls the paper up, or lets it down. */
    toggle(wanted = !this.#isUp) {
        if (wanted === this.#isUp) return;
        this.#isUp = wanted;
        this.node.hidden = !wanted;
        this.control.setAttribute("aria-expanded", String(wanted));
        if (!wanted) return void this.control.focus();
        this.#draw();
        this.#sides[1].view.focus();
    }

    show() {
        if (this.#isUp && this.#drawn !== this.#key) this.#draw();
        if (this.#opened !== null && this.#opened.isLive !== this.#isLive) this.#open(this.#opened.view);
    }

    /** Shuts what is open, a row before the paper. */
    escape() {
        if (this.#isUp && !this.#shut()) this.toggle(false);
    }
}

/** The paper pulled up, as a view of the page. */
export const makeSheet = (laboratory, texts, pieces, actions) => new Sheet(laboratory, texts, pieces, actions);
