// The editor of a source: CodeMirror, with the colours, gutters, faults and completion of this language. It knows nothing of the machine;
// what it shows of a source it is given.
import "codemirror/addon/dialog/dialog.js";
import "codemirror/addon/hint/show-hint.js";
import "codemirror/addon/search/search.js";
import CodeMirror from "codemirror/lib/codemirror.js";
import { askedAt, columnOf, isLabelOnly, labelsIn, namedIn, operationsWith, tokensOf } from "../language.mjs";
import { h } from "./dom.mjs";

/**
 * How many signs go into the editor at once, so that the page can be used while a longer text is put in by pieces; and how many words are
 * offered.
 */
const [PIECE, OFFERED] = [12_000, 16];

const STYLES = { label: "label", operation: "operation", operand: "operand", comment: "comment" };

/** The tokens of the line that was asked for last, since each of them is asked for by itself. */
let asked = { line: null, tokens: [] };

CodeMirror.defineMode("lgp30", () => ({
    token(stream) {
        const { pos, string: line } = stream;
        if (asked.line !== line) asked = { line, tokens: tokensOf(line) };
        const token = asked.tokens.find(({ to }) => to > pos);
        stream.pos = token === undefined ? line.length : token.from > pos ? token.from : token.to;
        if (token === undefined || token.from > pos) return null;
        return token.kind === "operand" && /^[-=.\d*]/.test(token.text) ? "number" : STYLES[token.kind];
    },
}));

/** How the origin of a pasted piece begins. All pieces of one paste are taken back by one undo. */
const PASTED = "*pasted";

/** The documents by the names of their editors: text, history and place stay when the page is laid anew. */
const editors = new Map();

/** Puts a long text in, piece by piece, at a mark. `ended` is called after the last one. */
function makePieces(cm, text, at, origin, ended) {
    const pieces = { rest: text, at: cm.setBookmark(at, { insertLeft: true }), timer: null };
    const put = () => {
        const end = pieces.rest.length <= PIECE ? pieces.rest.length : pieces.rest.lastIndexOf("\n", PIECE) + 1 || PIECE;
        const piece = pieces.rest.slice(0, end);
        pieces.rest = pieces.rest.slice(end);
        const there = pieces.at.find() ?? cm.getCursor();
        cm.replaceRange(piece, there, undefined, origin);
        if (pieces.rest !== "") pieces.timer = setTimeout(put);
        else { pieces.at.clear(); ended(); }
    };
    pieces.put = put;
    pieces.end = () => { clearTimeout(pieces.timer); pieces.at.clear(); };
    return pieces;
}

/** The column in which a comment begins at the least that stands after something. */
const COMMENTS = 22;

/**
 * Sets the comment of a line in, so that comments have a column of their own. A long one is one row, and can be read whole where the mouse
 * rests on it, or where the cursor goes.
 */
function setIn(cm, { text }, node) {
    const [shown, tokens] = [node.querySelector(".cm-comment"), tokensOf(text)];
    const comment = tokens.at(-1);
    if (shown === null || comment?.kind !== "comment") return;
    shown.dataset.told = comment.text.replace(/^;\s*/, "");
    const missing = tokens.length === 1 ? 0 : COMMENTS - CodeMirror.countColumn(text, comment.from, cm.getOption("tabSize"));
    if (missing > 0) shown.style.marginLeft = `${missing * cm.defaultCharWidth()}px`;
}

/**
 * Moves a label that was just written after blanks to the first column, where it belongs: what follows begins where the label did, or one
 * blank after it.
 */
function moveLabel(cm) {
    const { line, ch } = cm.getCursor();
    const text = cm.getLine(line);
    const [, blanks, word] = /^([ \t]+)(\S+) $/.exec(text) ?? [];
    if (word === undefined || ch !== text.length || !isLabelOnly(word)) return;
    cm.replaceRange(word.padEnd(Math.max(blanks.length, word.length + 1)), CodeMirror.Pos(line, 0), CodeMirror.Pos(line, ch), "+input");
}

/** Begins a line below the operation of the one before. */
function newLine(cm) {
    const { line, ch } = cm.getCursor("from");
    cm.replaceSelection(`\n${" ".repeat(Math.min(columnOf(cm.getLine(line)), ch))}`, "end", "+input");
    cm.scrollIntoView(null);
}

const hintOf = (text, isWritten, meaning) => (
    { text, isWritten, render: (node) => node.append(h("b", {}, text), " ", h("span", {}, meaning)) }
);

/** What completes the word before the cursor. */
function completionsOf(cm, { table }, labels, commentOf) {
    const { line, ch } = cm.getCursor();
    const asked = askedAt(cm.getLine(line), ch);
    if (asked === null) return null;
    const found = asked.kind === "operation" ? operationsWith(asked.text, table).map(({ name, meaning }) => [name, meaning])
        : labels.filter(({ name }) => name.startsWith(asked.text))
            .slice(0, OFFERED)
            .map(({ name, line: at, rest }) => [name, commentOf(at, rest)]);
    return {
        from: CodeMirror.Pos(line, asked.from),
        to: CodeMirror.Pos(line, ch),
        list: found.map(([name, meaning]) => hintOf(name, name === asked.text, meaning)),
    };
}

/** The keys of an open completion. Tab is none of them; and Enter begins a line where the word is written already. */
const COMPLETION_KEYS = {
    Up: (unused, list) => list.moveFocus(-1),
    Down: (unused, list) => list.moveFocus(1),
    PageUp: (unused, list) => list.moveFocus(1 - list.menuSize(), true),
    PageDown: (unused, list) => list.moveFocus(list.menuSize() - 1, true),
    Esc: (unused, list) => list.close(),
    Enter: (cm, list) => {
        if (!list.data.list[cm.state.completionActive.widget.selectedHint].isWritten) return list.pick();
        list.close();
        return newLine(cm);
    },
};

/** Opens the list of what completes the word before the cursor. As long as it is open it goes on with what is written. */
function complete(cm, texts, commentOf) {
    const lines = cm.getValue().split("\n");
    const labels = [...labelsIn(lines), ...namedIn(lines, cm.getCursor().line)];
    const hint = () => completionsOf(cm, texts, labels, commentOf);
    cm.showHint({ hint, completeSingle: false, customKeys: COMPLETION_KEYS });
}

/** Opens the place in which what is looked for is written. */
function find(cm) {
    cm.execCommand("findPersistent");
    cm.getWrapperElement().querySelector(".CodeMirror-dialog input").setAttribute("aria-label", cm.phrase("Search:"));
}

/** The keys of the editor. Tab leaves it. */
const keysOf = (actions, completes) => ({
    "Tab": false, "Shift-Tab": false, "Enter": newLine, "Ctrl-Space": completes, "Ctrl-F": find, "Cmd-F": find,
    ...Object.fromEntries(Object.entries(actions).map(([key, action]) => [key, () => action()])),
    // for the moment in which an open list is made anew it hears no key itself
    "Esc": (cm) => (cm.state.completionActive?.widget == null ? actions.Esc?.() : cm.closeHint()),
});

function makeCodeMirror(name, texts, place) {
    const before = editors.get(name);
    const [mode, theme] = ["lgp30", "lgp30"];
    const value = before === undefined ? CodeMirror.Doc("", mode) : before.swapDoc(CodeMirror.Doc("", mode));
    const gutters = ["stops", "CodeMirror-linenumbers", "places"];
    const { phrases } = texts.table;
    const cm = CodeMirror(place, {
        value,
        mode,
        theme,
        gutters,
        phrases,
        lineNumbers: true,
        scrollbarStyle: "null",
        inputStyle: "contenteditable",
        dragDrop: false,
        screenReaderLabel: texts.text("sourceLabel"),
        indentWithTabs: false,
        undoDepth: 1000,
        workTime: 20,
        workDelay: 100,
    });
    editors.set(name, cm);
    return cm;
}

/** Shows what is given beside the lines that are seen: nodes by gutter, made of a line's number. Only what differs is made anew. */
function makeGutters(cm, made) {
    const shown = new WeakMap();
    return () => cm.operation(() => {
        const { from, to } = cm.getViewport();
        for (let line = from; line < to; line += 1) {
            const handle = cm.getLineHandle(line);
            const [key, nodes] = made(line + 1) ?? [shown.get(handle) ?? "", {}];
            if ((shown.get(handle) ?? "") === key) continue;
            shown.set(handle, key);
            for (const [gutter, node] of Object.entries(nodes)) cm.setGutterMarker(handle, gutter, node);
        }
    });
}

/**
 * Shows at the right edge what `edgeOf` tells for the lines that are seen, by their numbers: a text and what it is, or null. Nothing is
 * shown in the line where somebody writes.
 */
function makeEdge(cm, edgeOf) {
    const rows = h("div");
    let shown = "";
    const place = () => { rows.style.transform = `translateY(${-cm.getScrollInfo().top}px)`; };
    const show = () => {
        const { from, to } = cm.getViewport();
        const own = cm.hasFocus() ? cm.getCursor().line : null;
        const lines = Array.from({ length: to - from }, (unused, at) => from + at).filter((line) => line !== own);
        const made = lines.map((line) => [line, edgeOf(line + 1)]).filter(([, value]) => value !== null);
        if (JSON.stringify(made) === shown) return;
        shown = JSON.stringify(made);
        rows.replaceChildren(
            ...made.map(([line, { text, is }]) => (
                h("span", { class: is, style: `top: ${cm.heightAtLine(line, "local")}px`, "data-line": line + 1 }, text)
            ))
        );
        place();
    };
    cm.getWrapperElement().append(h("div", { class: "edge", "aria-hidden": "true" }, rows));
    cm.on("scroll", place);
    for (const kind of ["viewportChange", "cursorActivity", "focus", "blur"]) cm.on(kind, show);
    return show;
}

/**
 * Marks the faults: the numbers of their lines, and their words. What is wrong is said below the editor: a text within it would push lines,
 * and the cursor would stand beside it.
 */
function makeMarks(cm) {
    let marks = [];
    return (faults) => cm.operation(() => {
        for (const clear of marks) clear();
        marks = faults.flatMap(({ line, from, to, sentence }) => {
            const at = Math.min(line, cm.lineCount()) - 1;
            const handle = cm.addLineClass(at, "gutter", "fault");
            const is = { className: "wave", attributes: { "data-told": sentence } };
            const word = cm.markText({ line: at, ch: from }, { line: at, ch: Math.max(to, from) }, is);
            return [() => cm.removeLineClass(handle, "gutter", "fault"), () => word.clear()];
        });
    });
}

/** Gives a line a class, in place of the one that had it. Gives what does so: whether another line has it now. */
function makeLine(cm, wheres) {
    let [lit, worn] = [null, ""];
    return (line, name) => {
        const handle = line === null ? null : cm.getLineHandle(line - 1) ?? null;
        if (handle === lit && name === worn) return false;
        const isOther = handle !== lit;
        for (const where of wheres) {
            if (lit !== null) cm.removeLineClass(lit, where, worn);
            if (handle !== null) cm.addLineClass(handle, where, name);
        }
        [lit, worn] = [handle, name];
        return isOther && handle !== null;
    };
}

/** Marks the line of the order under way, in its phase, and that of what comes after it, and scrolls there unless somebody writes. */
function makeLight(cm) {
    const [now, next] = [makeLine(cm, ["background", "gutter"]), makeLine(cm, ["background"])];
    return (lines) => cm.operation(() => {
        const isNew = [now(lines.now, `now ${lines.phase}`), next(lines.coming === lines.now ? null : lines.coming, "next")].includes(true);
        if (isNew && !cm.hasFocus()) cm.scrollIntoView({ line: (lines.now ?? lines.coming) - 1, ch: 0 }, 60);
    });
}

/**
 * What is written is read out alone: what stands beside the lines is drawn by the style and is no text, and what is told of a word is a
 * title only where the mouse is.
 */
function readOnlyWhatIsWritten(cm) {
    // it hears the mouse where the text does, which keys reach
    const node = cm.getWrapperElement();
    cm.on("update", () => {
        for (const it of node.querySelectorAll(".CodeMirror-linenumber:not(:empty)")) {
            it.dataset.shown = it.textContent;
            it.textContent = "";
        }
    });
    node.addEventListener("mouseover", ({ target }) => { if (target.dataset.told !== undefined) target.title = target.dataset.told; });
    node.addEventListener("mouseout", ({ target }) => { if (target.dataset.told !== undefined) target.removeAttribute("title"); });
}

/** Tells the number of the line in which somebody writes, until it is left; null where nobody does. */
function makeInWork(cm) {
    let line = null;
    const now = () => cm.getCursor().line + 1;
    cm.on("changes", (unused, changes) => {
        if (changes.some(({ origin }) => origin?.startsWith("+") || origin === "paste")) line = now();
    });
    cm.on("cursorActivity", () => { if (now() !== line) line = null; });
    cm.on("blur", () => { line = null; });
    return () => line;
}

/** What is written, and what is put in from outside; a long text in pieces. `changed` is told the text. */
function makeText(cm, changed) {
    let pieces = null;
    const value = () => {
        const at = pieces?.at.find();
        return at === undefined
            ? cm.getValue()
            : cm.getRange(CodeMirror.Pos(0, 0), at) + pieces.rest + cm.getRange(at, CodeMirror.Pos(cm.lastLine()));
    };
    const put = (text, at, origin, ended) => {
        const own = makePieces(cm, text, at, origin, () => { pieces = null; ended(); });
        const { put: next } = own;
        pieces = own;
        next();
    };
    const set = (text) => {
        pieces?.end();
        pieces = null;
        cm.setValue("");
        put(text, CodeMirror.Pos(0, 0), "setValue", () => cm.clearHistory());
        cm.setCursor(0, 0);
    };
    let count = 0;
    const paste = (text) => {
        cm.replaceSelection("", "end", "paste");
        count += 1;
        const told = () => changed(value());
        put(text, cm.getCursor(), `${PASTED}${count}`, () => { told(); cm.scrollIntoView(null); });
        told();
    };
    const isOwn = ({ origin }) => origin === "setValue" || origin?.startsWith(PASTED);
    cm.on("changes", (unused, changes) => { if (!changes.every(isOwn)) changed(value()); });
    cm.on("paste", (unused, event) => {
        const text = event.clipboardData?.getData("text/plain") ?? "";
        if (text.length <= PIECE || pieces !== null) return;
        event.preventDefault();
        paste(text.replace(/\r\n?/g, "\n"));
    });
    return { value, set, isWhole: () => pieces === null };
}

/**
 * An editor. `changed` is told the text that is written, `actions` has what its keys do by their names, and `beside` tells for a line what
 * stands beside it: a text that says whether that is
 * new, and its nodes by gutter, or null where that is not known; `edgeOf` tells what stands at its right edge; `commentOf` tells what is
 * said of a label that completes a word.
 */
export function makeEditor(name, texts, {
    changed, actions = {}, beside = () => ["", {}], edgeOf = () => null, commentOf = (line, rest) => rest, pressed = () => {},
    moved = () => {},
}) {
    const node = h("div", { class: "editor" });
    const cm = makeCodeMirror(name, texts, node);
    for (const [attribute, is] of [["role", "textbox"], ["aria-multiline", "true"], ["data-name", `editor-${name}`]]) {
        cm.getInputField().setAttribute(attribute, is);
    }
    const completes = () => complete(cm, texts, commentOf);
    cm.setOption("extraKeys", keysOf(actions, completes));
    const text = makeText(cm, changed);
    const [gutters, edge] = [makeGutters(cm, beside), makeEdge(cm, edgeOf)];
    cm.on("viewportChange", gutters);
    cm.on("renderLine", setIn);
    cm.on("inputRead", (unused, { origin, text: [typed] }) => { if (origin === "+input" && typed === " ") moveLabel(cm); });
    cm.on("inputRead", (unused, { origin, text: [typed] }) => {
        if (origin === "+input" && /^[a-z]$/.test(typed) && !cm.state.completionActive) completes();
    });
    const inWork = makeInWork(cm);
    for (const kind of ["cursorActivity", "blur"]) cm.on(kind, moved);
    cm.on("gutterClick", (unused, line) => pressed(line + 1));
    readOnlyWhatIsWritten(cm);
    new ResizeObserver(() => cm.refresh()).observe(node);
    const goTo = (line, from, to) => {
        cm.focus();
        cm.setSelection({ line: line - 1, ch: from }, { line: line - 1, ch: to });
        cm.scrollIntoView({ line: line - 1, ch: from }, 60);
    };
    return {
        node,
        value: text.value,
        set: text.set,
        rewrite: (written) => cm.replaceRange(written, CodeMirror.Pos(0, 0), CodeMirror.Pos(cm.lastLine())),
        isWhole: text.isWhole,
        showBeside: () => { gutters(); edge(); },
        seen: () => cm.getViewport(),
        refresh: () => cm.refresh(),
        showFaults: makeMarks(cm),
        light: makeLight(cm),
        goTo,
        focus: () => cm.focus(),
        inWork,
        line: () => cm.getCursor().line + 1,
        operation: () => tokensOf(cm.getLine(cm.getCursor().line)).find(({ kind }) => kind === "operation")?.text ?? null,
    };
}
