// The story of an order: a sentence, a bar of four colours that fills as the drum turns, and below them the exact account.
import { PHASES } from "../player.mjs";
import { h, part, refill, tell } from "./dom.mjs";
import { saysOf, whyOf } from "./says.mjs";

/** The parts of a phase: a wait, drawn as a line, and the word time that reads; or a work. */
const partsOf = (phase, times) => (["find", "seek"].includes(phase) && times > 1 ? [["wait", times - 1], ["work", 1]] : [["work", times]]);

/**
 * A text whose places are elements: `{m}` is an address, `{f}` and `{s}` are places in the colours of their phases, and `{times}` are word
 * times.
 */
function sentence(pattern, values) {
    const made = {
        m: (value) => h("code", {}, value),
        f: (value) => h("b", { class: "find" }, value),
        s: (value) => h("b", { class: "seek" }, value),
        g: (value) => h("code", {}, value),
        times: (value) => h("b", {}, value),
    };
    return pattern.split(/(\{\w+\})/).filter((piece) => piece !== "").map((piece) => {
        const name = /^\{(\w+)\}$/.exec(piece)?.[1];
        return name === undefined ? piece : (made[name] ?? String)(String(values[name]));
    });
}

/** The bar of an account, and what fills it up to this many word times. */
export function makeBar(account) {
    let begins = 0;
    const fills = PHASES.flatMap((phase) => partsOf(phase, account[phase]).filter(([, times]) => times > 0).map(([kind, times]) => {
        const fill = h("i");
        begins += times;
        return {
            phase,
            from: begins - times,
            times,
            fill,
            node: h("span", { class: `piece ${phase} ${kind}`, style: `flex: ${times} 1 0` }, fill),
        };
    }));
    const show = (offset) => {
        for (const { from, times, fill } of fills) {
            fill.style.transform = `scaleX(${Math.max(0, Math.min(1, (offset - from) / times)).toFixed(3)})`;
        }
    };
    return { nodes: fills.map(({ node }) => node), show };
}

/** The names of the phases with their word times, and their sum. */
function legend(account, { text }) {
    const names = PHASES.map((phase) => (
        h("span", { "data-phase": phase }, h("span", { class: `dot ${phase}` }), `${text(phase)} `, h("b", {}, String(account[phase])))
    ));
    return [...names, h("span", {}, ...sentence(text("lasts"), { times: account.sum }))];
}

/** What is told where no order is: why there is none, and what tells one. */
const untold = (pace) => ({ own: "storyOwn", fast: "storyFast" })[pace] ?? "storyNone";

/** What an order does, and how far the drum had to turn for it, as nodes. */
export function sentenceOf(account, { text, table }) {
    const { kind, waits, values } = saysOf(account);
    return [
        h("code", {}, account.order),
        " ",
        ...sentence(table.says[kind], values),
        " ",
        ...(waits === null ? [] : sentence(text(waits), values)),
    ];
}

/** Why an order has waited, as nodes. */
const whyNodes = (account, { text }) => (
    [h("code", {}, account.order), " ", ...whyOf(account).flatMap(({ name, values }) => [...sentence(text(name), values), " "])]
);

/** Makes a bar one that is pressed, by mouse and by keys, or takes that from it. */
function pressable(bar, way) {
    bar.onclick = way?.press ?? null;
    bar.onkeydown = way === null ? null : (event) => {
        if (event.key !== "Enter" && event.key !== " ") return;
        event.preventDefault();
        way.press();
    };
    const names = { role: "button", tabindex: "0", "aria-label": way?.label };
    for (const [name, value] of Object.entries(names)) way === null ? bar.removeAttribute(name) : bar.setAttribute(name, value);
}

/**
 * The part of the page with the story of the order under way, or of the last one; or, until another one is told, why one has waited whose
 * bar was pressed.
 */
export function makeStory(laboratory, texts, { playing, isFast, pace }) {
    const { text } = texts;
    const [tile, told] = [h("span", { class: "tile", "aria-hidden": "true" }), h("p", { class: "sentence-of-order" })];
    const [bar, names] = [h("div", { class: "order-bar" }), h("p", { class: "phases" })];
    let [shown, drawn, asked] = [undefined, null, null];
    const draw = (account) => {
        shown = account;
        drawn = account === null ? null : makeBar(account);
        tell(tile, account === null ? "–" : account.order.replace("-", "")[0]);
        told.replaceChildren(
            ...(account === null ? [text(untold(pace()))]
                : account === asked?.account ? whyNodes(account, texts)
                : sentenceOf(account, texts))
        );
        refill(bar, ...(drawn?.nodes ?? []));
        pressable(bar, account === null ? null : { label: text("whyWaited", { place: account.order }), press: () => why(account) });
        refill(names, ...(account === null ? [] : legend(account, texts)));
    };
    const frame = () => {
        const at = playing();
        drawn?.show(at?.account === shown ? at.offset : Infinity);
        for (const name of names.children) name.classList.toggle("now", at !== null && !at.done && name.dataset.phase === at.phase);
    };
    const show = () => {
        const last = isFast() ? null : laboratory.accounts.at(-1) ?? null;
        if (asked?.last !== last) asked = null;
        const account = asked?.account ?? last;
        if (account !== shown || account === null) draw(account);
        told.setAttribute("aria-live", pace() === "order" || asked !== null ? "polite" : "off");
        frame();
    };
    const why = (account) => {
        asked = { account, last: isFast() ? null : laboratory.accounts.at(-1) ?? null };
        shown = undefined;
        show();
    };
    const node = part("story", text("story"), h("div", { class: "telling-order" }, tile, told), bar, names);
    Object.assign(node, { id: "story", tabIndex: -1 });
    return { node, show, frame, why };
}
