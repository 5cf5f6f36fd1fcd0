// The source in Work: the editor, what a laboratory of its own says of what is written, and the buttons that bring it into the machine.
import { valueAt } from "../kinds.mjs";
import { hasEndLine, isTold, labelsIn, sentenceOf } from "../language.mjs";
import { linesIn } from "../lines.mjs";
import { makeCard } from "./card.mjs";
import { button, h, part, tell } from "./dom.mjs";
import { makeEditor } from "./editor.mjs";

/** How long nothing is written before the laboratory is asked. */
const ASKED_AFTER = 300;

/**
 * Asks of a text what a laboratory says, once nothing was written for a while. `told` is called with the answer to the text that stands
 * there then.
 */
export function makeCheck(checker, told) {
    let [wanted, timer] = [null, null];
    const ask = async () => {
        const text = wanted;
        const said = text.trim() === "" ? null : await checker.ask(text);
        if (text === wanted) told(text, said);
    };
    return (text) => {
        if (text === wanted) return;
        wanted = text;
        clearTimeout(timer);
        timer = setTimeout(ask, ASKED_AFTER);
    };
}

/** The stops of the machine by their places, each with the number of its rule. */
const stopsOf = ({ rules }) => new Map(
    rules.map((rule, number) => [rule.split(" "), number])
        .filter(([[kind]]) => kind === "break")
        .map(([[, place], number]) => [place, number])
);

/**
 * What stands beside a line: its stop, and its place and digits as in a listing; those that the drum has now, where it has others. What is
 * said of an earlier text changes nothing.
 */
const besideOf = (laboratory, state) => (line) => {
    if (!state.isFresh) return null;
    const word = state.said?.wordOf(line) ?? null;
    if (word === null) return ["", { places: null, stops: null }];
    const isStop = stopsOf(laboratory).has(word.place);
    const { digits } = (state.isOnDrum ? laboratory.known.get(word.place) : null) ?? word;
    const isChanged = digits !== word.digits;
    return [
        `${word.place} ${digits} ${isStop} ${isChanged}`,
        {
            places: h(
                "span",
                { class: isChanged ? "place changed" : "place" },
                h("b", { "data-shown": word.place }),
                h("span", { class: "digits", "data-shown": ` ${digits}` })
            ),
            stops: isStop ? h("span", { class: "stop", "data-shown": "●" }) : null,
        },
    ];
};

/**
 * What stands at the right edge of a line whose source is on the drum: the word that is there now as what it is, where it is a whole number
 * or the program has changed it.
 */
const edgeOf = (laboratory, state, texts) => (line) => {
    const word = state.isFresh && state.isOnDrum ? state.said?.wordOf(line) ?? null : null;
    const now = word === null ? undefined : laboratory.known.get(word.place);
    if (now === undefined) return null;
    const isWhole = typeof laboratory.kinds.get(word.place) === "number";
    const isChanged = now.digits !== word.digits;
    return isChanged || isWhole
        ? { text: valueAt(laboratory.kinds, word.place, now.digits, texts), is: isChanged ? "changed" : "whole" }
        : null;
};

/** What is written, what a laboratory says of it and of which text that is said, and whether the text is on the drum. */
const newState = () => ({ shown: "", said: null, saidOf: null, isOnDrum: false, get isFresh() { return this.saidOf === this.shown; } });

/** Whether the digits of each word are seen beside its line; null where the width of the window says that. */
let hasDigits = null;

/** The switch of the digits beside the lines. */
function makeDigits({ text }, editor) {
    const show = () => {
        const isOn = hasDigits ?? matchMedia("(min-width: 1700px)").matches;
        control.setAttribute("aria-pressed", String(isOn));
        editor.node.classList.toggle("with-digits", isOn);
        editor.refresh();
    };
    const control = button(
        text("digitsToo"),
        () => { hasDigits = control.getAttribute("aria-pressed") === "false"; show(); },
        { id: "digits-too", title: text("digitsTooHint") }
    );
    show();
    return control;
}

/** The line below an editor that says whether its text is right, and a button that goes to its faults. */
export function makeVerdict(texts, editor) {
    const { text } = texts;
    const told = h("p", { class: "told", role: "status" });
    let [said, lines, also, all, faults, isAsked] = [null, [], "", [], [], false];
    const goTo = ({ line, from, to }) => editor().goTo(line, from, to);
    const next = () => {
        ask();
        const fault = faults.find(({ line }) => line > editor().line()) ?? faults[0];
        if (fault !== undefined) goTo(fault);
    };
    const there = button(text("goToFault"), next, { class: "go-to-fault", hidden: true });
    const node = h("div", { class: "verdict" }, told, there);
    const sentence = () => {
        if (said === null) return "";
        if (said.refusal !== null) return text("sourceTooLong");
        if (all.length === 0) return text(said.start === null ? "noFaultNoStart" : "noFault", said);
        if (faults.length === 0) return "";
        const [{ line, kind, word, sentence: wrong }] = faults;
        const more = (isAsked ? said.count : faults.length) - 1;
        return `${text(
            kind === "NoEnd" ? "faultAtEnd" : "faultAt", { line }
        )}${word === "" ? "" : `${word} – `}${wrong}.${more > 0 ? ` ${text("moreFaults", { count: more })}` : ""}`;
    };
    /** Tells the faults that are told by now, of all that there are. */
    const refresh = () => {
        const now = { inWork: editor().inWork(), hasEnd: all.length > 0 && hasEndLine(lines), isAsked };
        const before = faults;
        faults = all.filter((fault) => isTold(fault, now));
        node.dataset.is = said === null || said.refusal === null && all.length > 0 && faults.length === 0 ? ""
            : said.isRight ? "right"
            : "wrong";
        there.hidden = faults.length === 0;
        tell(told, [sentence(), also].filter((it) => it !== "").join(" "));
        if (faults.length !== before.length || faults.some((fault, place) => fault !== before[place])) editor().showFaults(faults);
    };
    const show = (nowSaid, nowLines, nowAlso = "") => {
        const names = nowSaid?.isRight === false ? labelsIn(nowLines).map(({ name }) => name) : [];
        if (nowSaid !== said) isAsked = false;
        [said, lines, also] = [nowSaid, nowLines, nowAlso];
        all = (said?.faults ?? []).map((fault) => ({ ...fault, ...sentenceOf(fault, lines[fault.line - 1] ?? "", names, texts) }));
        refresh();
    };
    /** Somebody wants to run what is written: all its faults are told. */
    const ask = () => { isAsked = true; refresh(); };
    const goToLine = (wanted) => goTo(faults.find(({ line }) => line === wanted) ?? { line: wanted, from: 0, to: 0 });
    return {
        node,
        show,
        next,
        ask,
        refresh,
        count: () => (said?.refusal !== null || said.isRight ? 0 : isAsked ? said.count : faults.length),
        goToLine,
        say: (words) => tell(told, words),
    };
}

/** What is done with the source by keys and buttons. */
function makeActions(laboratory, { text }, state, { runIt, checker, editor, verdict }) {
    const written = () => editor().value();
    const run = async () => {
        verdict().ask();
        await runIt(written());
        const [fault] = laboratory.assembled?.faults ?? [];
        if (fault !== undefined) verdict().goToLine(fault.line);
    };
    const stopAt = async (line) => {
        const said = state.isFresh ? state.said : await checker.ask(written());
        const word = said?.wordOf(line) ?? null;
        const stops = stopsOf(laboratory);
        if (word === null) verdict().say(text("noStopHere", { line }));
        else await laboratory.command(stops.has(word.place) ? `drop ${stops.get(word.place)}` : `break ${word.place}`);
    };
    const asked = (action) => () => { verdict().ask(); return action(written()); };
    return { run, stopAt, assemble: asked((source) => laboratory.assemble(source)), load: asked((source) => laboratory.load(source)) };
}

/** The editor of the source with its card, and the line below it. */
function makeWriting(laboratory, texts, state, actions, changed, stop) {
    const commentOf = (line, rest) => [state.isFresh ? state.said?.placeOf(line) : "", rest].filter(Boolean).join(" ");
    const keys = {
        "Ctrl-Enter": actions.run,
        "Cmd-Enter": actions.run,
        F8: () => verdict.next(),
        F9: () => actions.stopAt(editor.line()),
        Esc: () => (card.isOpen() ? card.close() : stop()),
    };
    const editor = makeEditor("source", texts, {
        changed,
        actions: keys,
        beside: besideOf(laboratory, state),
        edgeOf: edgeOf(laboratory, state, texts),
        pressed: actions.stopAt,
        moved: () => { if (card.isOpen()) card.light(); verdict.refresh(); },
        commentOf,
    });
    const card = makeCard(laboratory, texts, editor.operation);
    const verdict = makeVerdict(texts, () => editor);
    return { editor, card, verdict };
}

/** What is said beside whether the source is right: that it is not the one that was assembled, or that there is none. */
function alsoOf(laboratory, { text }, { shown }) {
    if (shown.trim() === "") return laboratory.script === null ? "" : text("noSource");
    return laboratory.assembled !== null && shown !== laboratory.source ? text("sourceChanged") : "";
}

/** Has the words of the lines that are seen known, where the source is on the drum. */
function followWords(laboratory, state, editor) {
    const { from, to } = editor.seen();
    const lines = state.isOnDrum ? Array.from({ length: to - from }, (unused, at) => from + at + 1) : [];
    laboratory.knowAt(lines.map((line) => state.said.wordOf(line)?.place).filter((place) => place !== undefined));
}

/**
 * The part of the page with the source. What is written stays as a draft until it is assembled; `runIt` runs a source, `checker` says what
 * a laboratory says of one, `told` is called when it has, `markNow` tells the order under way, `stop` stops the machine, and `given` is the
 * source of an example whose words a script has put in, or "".
 */
export function makeSource(laboratory, texts, drafts, { runIt, checker, told, markNow, stop, given }) {
    const { text } = texts;
    const state = newState();
    const own = () => (laboratory.source === "" ? given() : laboratory.source);
    const now = () => drafts.of("source") ?? own();
    const actions = makeActions(laboratory, texts, state, { runIt, checker, editor: () => editor, verdict: () => verdict });
    const changed = (written) => {
        state.shown = written;
        drafts.keep("source", written);
        show();
    };
    const { editor, card, verdict } = makeWriting(laboratory, texts, state, actions, changed, stop);
    state.shown = editor.value();
    let also = "";
    const showSaid = () => {
        also = alsoOf(laboratory, texts, state);
        verdict.show(state.isFresh ? state.said : null, linesIn(state.shown), also);
        editor.showBeside();
    };
    const check = makeCheck(checker, (of, said) => {
        if (of !== state.shown) return;
        Object.assign(state, { said, saidOf: of });
        showSaid();
        told();
    });
    const onDrum = () => laboratory.loaded ?? given();
    const isLoadedNow = () => state.isFresh && state.said?.isRight === true && onDrum() === state.shown;
    const light = () => {
        const { now, phase, coming } = markNow();
        const lineAt = (place) => (place === null || !isLoadedNow() ? null : state.said.lineAt(place));
        editor.light({ now: lineAt(now), phase, coming: lineAt(coming) });
    };
    const show = () => {
        if (drafts.of("source") === own()) drafts.keep("source", null);
        if (now() !== state.shown) {
            Object.assign(state, { shown: now(), said: null, saidOf: now() });
            editor.set(state.shown);
            showSaid();
        }
        if (node.checkVisibility()) check(state.shown);
        if (alsoOf(laboratory, texts, state) !== also) showSaid();
        state.isOnDrum = isLoadedNow() && node.checkVisibility();
        followWords(laboratory, state, editor);
        editor.showBeside();
        light();
    };
    const run = button(text("runProgram"), actions.run, { id: "run-program", class: "primary", title: text("runProgramHint") });
    const buttons = [
        button(`${text("card")} F1`, card.toggle, { id: "card-open", "aria-controls": "card" }),
        makeDigits(texts, editor),
        ...["assemble", "load"].map((name) => button(text(name), actions[name], { id: name })),
    ];
    const node = part(
        "source",
        text("source"),
        h("div", { class: "line" }, ...buttons),
        editor.node,
        verdict.node,
        h("small", { class: "editor-keys" }, text("editorKeys"))
    );
    const faults = () => (state.isFresh ? verdict.count() : 0);
    return { node, show, frame: light, run, faults, card, rewrite: editor.rewrite };
}
