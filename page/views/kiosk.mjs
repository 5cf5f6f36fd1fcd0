// The kiosk: one program that plays by itself with captions until it is touched, a story of its first orders, a game, four large buttons in
// each state, and a return to the beginning after a time without input.
import { headOf } from "../lines.mjs";
import { counted, turnsOf } from "../words.mjs";
import { button, h, tell } from "./dom.mjs";
import { KIOSK_GAMES, standsIn } from "./kiosk_game.mjs";
import { happeningIn, rewrittenBy } from "./says.mjs";
import { sentenceOf } from "./story.mjs";

/** For how long each of the captions stands that hold at any moment, in milliseconds. */
const STANDS = 9000;

/** The captions that hold at any moment, one after another: that there is a drum, that it is waited for, and what this program is about. */
function lastingIn({ script }, { text }) {
    const { title } = headOf((script?.lines ?? []).join("\n"));
    return [text("kiosk_drum"), text("kiosk_waits"), ...(title === "" ? [] : [text("kioskProgram", { title: `${title}.` })])];
}

/**
 * What is told while a program plays by itself: of the order under way, whose tile stands before it, or, where that is nothing that can be
 * read in its time, what holds at any moment. Where nothing may move the captions follow one another as the exhibit says.
 */
function makeHappenings(laboratory, texts, { drive, playing, markNow, isStill }, exhibit, told) {
    let [shown, began] = [null, performance.now()];
    const lasting = () => {
        const all = lastingIn(laboratory, texts);
        return all[(isStill() ? exhibit.captions : Math.floor((performance.now() - began) / STANDS)) % all.length];
    };
    return () => {
        const [mark, account] = [markNow(), playing()?.account ?? laboratory.lastTold];
        const happening = drive.pace === null ? null : happeningIn(mark, account, drive.isTelling);
        const said = happening === null ? lasting() : texts.text(happening.name, happening.values);
        const key = `${happening === null ? "" : `${mark.now} ${mark.order}`} ${said}`;
        if (key === shown && told.dataset.of === (happening === null ? "" : mark.now ?? "")) return;
        shown = key;
        told.dataset.of = happening === null ? "" : mark.now ?? "";
        told.replaceChildren(...(happening === null ? [said] : [h("code", { class: "order-tile" }, mark.order), " ", said]));
    };
}

/** How long a printed text is told, at most. */
const SHORT = 40;

/** The share of the told word times in which the machine waited for its drum, in percent; null where not all orders were told. */
function waitedIn({ accounts, history: { behind } }) {
    if (accounts.length === 0 || accounts.length < behind) return null;
    const sum = (of) => accounts.reduce((total, account) => total + of(account), 0);
    return Math.round((100 * sum(({ find, seek }) => Math.max(0, find - 1) + Math.max(0, seek - 1))) / sum((account) => account.sum));
}

/** What is told at the end of the story: what the machine did, and a question. */
export function endText(laboratory, texts, exhibit) {
    const { text, code } = texts;
    const { history: { behind }, panel, begunAt, printed, way } = laboratory;
    if (way.kind === "keys") return text("kioskKeys");
    const [paper, waited] = [printed.text.trim(), waitedIn(laboratory)];
    const did = text("kioskDid", { orders: counted(behind, code), turns: turnsOf(Number(panel.clock - begunAt), texts) });
    return [
        paper !== "" && paper.length <= SHORT ? text("kioskHasPrinted", { paper }) : text("kioskHasEnded"),
        did,
        waited === null ? "" : text("kioskWaited", { share: waited }),
        text(exhibit.offers("faster") ? "kioskAsksFaster" : "kioskAsks"),
    ].filter((it) => it !== "").join(" ");
}

/** What is told in the story: what the order does that is played, or was the last; what it has rewritten is added when it is done. */
function storyNodes(laboratory, texts, { held }, exhibit) {
    const account = laboratory.accounts.at(-1);
    if (exhibit.at === 0 || account === undefined) return [texts.text("kioskIntro")];
    const event = held() === null ? rewrittenBy(account) : null;
    return [
        ...sentenceOf(account, texts), ...(event === null ? [] : [" ", h("span", { class: "rewriting" }, texts.text("rewritten", event))]),
    ];
}

/**
 * What is told at the top, in each state: in the story what the order does, in the game whose turn it is, while it plays what happens, and
 * at the end what was done.
 */
function makeTold(laboratory, texts, showing, exhibit) {
    const { text } = texts;
    const { drive, held } = showing;
    const told = h("p", { class: "kiosk-told", role: "status" });
    const happens = makeHappenings(laboratory, texts, showing, exhibit, told);
    const turn = standsIn([...KIOSK_GAMES.values()][0], laboratory, texts, drive);
    const says = { matches: turn, end: () => (drive.pace === null ? endText(laboratory, texts, exhibit) : text("kioskRuns")) };
    let shown = null;
    const frame = () => {
        const { state, at } = exhibit;
        told.setAttribute("aria-live", state === "attract" ? "off" : "polite");
        if (state === "attract" || state === "show") happens();
        else told.dataset.of = state === "story" ? showing.markNow().now ?? "" : "";
        if (state in says) tell(told, says[state]());
        const key = state === "story" ? `${at} ${laboratory.accounts.at(-1)?.clock} ${held() === null}` : null;
        if (key !== null && key !== shown) told.replaceChildren(...storyNodes(laboratory, texts, showing, exhibit));
        shown = key;
    };
    return { node: told, show: frame, frame };
}

/** Which button stands out in each state: one, or, where a choice is open, none. */
const PRIMARY = { attract: [1], story: [2], show: [2], end: [1] };

/** What a button says: the name of a text of the page, or a text in each language. */
const labelIn = (label, { text, code }) => (typeof label === "string" ? text(label) : label[code]);

/**
 * The four buttons: each has its number, by which a key presses it. The second press of a double one is not meant for what the first one
 * has led to in a game.
 */
export function makeButtons(texts, exhibit) {
    const { code } = texts;
    const buttons = [1, 2, 3, 4].map((number) => button(
        "", ({ detail }) => (detail > 1 && exhibit.state === "matches" ? undefined : exhibit.press(number)), { id: `kiosk-${number}` }
    ));
    const show = () => {
        const { labels, state } = exhibit;
        const held = buttons.find((it) => it === document.activeElement);
        for (const [place, control] of buttons.entries()) {
            const label = labels[place];
            tell(control, label === null ? "" : labelIn(label, texts));
            control.classList.toggle("none", label === null);
            control.classList.toggle(
                "primary", (exhibit.main === undefined ? PRIMARY[state]?.includes(place + 1) : exhibit.main === place + 1) ?? false
            );
            if (label === "kioskLanguage") control.lang = code === "de" ? "en" : "de";
            else control.removeAttribute("lang");
        }
        // who goes on by keys stays among the buttons where the one that was pressed is none by now
        const isThere = (it) => !it.classList.contains("none");
        if (held !== undefined && !isThere(held)) (buttons.find((it) => it.classList.contains("primary")) ?? buttons.find(isThere))?.focus();
    };
    return { node: h("div", { class: "kiosk-bar" }, ...buttons), show };
}

/** The colours of the phases with their words. */
const colours = ({ text }) => h(
    "p",
    { class: "colours" },
    ...["find", "take", "seek", "act"].map((phase) => h("span", {}, h("span", { class: `dot ${phase}` }), text(`colour_${phase}`)))
);

/**
 * The kiosk: header, main and footer. `made` has the views of the page that it shows, `others` the small buttons at the top, and `views`
 * what it opens beside the machine. Which of them are seen follows from the state.
 */
export function makeKiosk(laboratory, texts, showing, exhibit, made, others, views) {
    const { text } = texts;
    const [told, buttons] = [makeTold(laboratory, texts, showing, exhibit), makeButtons(texts, exhibit)];
    const hint = h("p", { class: "kiosk-hint" });
    const header = h("header", {}, h("h1", {}, text("kioskTitle")), h("div", { class: "others" }, ...others), told.node, hint);
    const cabinet = h(
        "div", { class: "cabinet" }, h("p", { class: "plate" }, h("b", {}, "ROYAL McBEE LGP-30")), made.drum.node, colours(texts)
    );
    const shown = { show: () => {
        document.body.dataset.state = exhibit.state;
        document.body.toggleAttribute("data-opening", exhibit.isOpening);
        tell(hint, { attract: text("kioskTouch"), story: text("kioskOrder", { at: exhibit.at }) }[exhibit.state] ?? "");
    } };
    return {
        nodes: [
            header,
            h(
                "main",
                {},
                cabinet,
                made.scope.node,
                made.heap.node,
                h("div", { class: "flexowriter" }, made.paper.node, made.deck.node),
                ...Object.values(views).map(({ node }) => node)
            ),
            h("footer", {}, buttons.node),
        ],
        views: [told, buttons, shown, ...Object.values(made)],
    };
}

/** What a visitor's hand may do beside pressing: nothing of it is taken, so that the exhibit stays as it is. */
const REFUSED = ["contextmenu", "dragstart", "dragover", "drop", "selectstart", "gesturestart"];

/** Refuses at a kiosk the browser's own menus, dragging, selecting and pinching. Returns what ends that. */
export function refuseOthers() {
    const refuse = (event) => event.preventDefault();
    const pinch = (event) => { if (event.ctrlKey) event.preventDefault(); };
    for (const kind of REFUSED) addEventListener(kind, refuse);
    addEventListener("wheel", pinch, { passive: false });
    return () => {
        for (const kind of REFUSED) removeEventListener(kind, refuse);
        removeEventListener("wheel", pinch);
    };
}

/** The key combination that leaves the kiosk. */
export const isLeaving = ({ key, ctrlKey, shiftKey }) => ctrlKey && shiftKey && key.toLowerCase() === "l";

/**
 * Calls `reset` after this number of seconds in which nobody touched the page, and `touched` at each touch, before a button hears it.
 * Returns what ends the watch.
 */
export function watchIdle(seconds, reset, touched) {
    let timer;
    const again = () => {
        clearTimeout(timer);
        timer = setTimeout(reset, 1000 * seconds);
    };
    const touch = (event) => { again(); touched(event); };
    const [moves, touches] = [["pointermove"], ["pointerdown", "keydown", "click"]];
    for (const kind of moves) addEventListener(kind, again);
    for (const kind of touches) addEventListener(kind, touch, true);
    again();
    return () => {
        clearTimeout(timer);
        for (const kind of moves) removeEventListener(kind, again);
        for (const kind of touches) removeEventListener(kind, touch, true);
    };
}
