// What is written beside the source: lines for the monitor with their replies, and the lines of a script.
import { pasted } from "../lines.mjs";
import { counted } from "../words.mjs";
import { button, guarded, h, part, showLive } from "./dom.mjs";

const LOGGED = 80;
const REPLY_SHOWN = 20_000;

/**
 * A box for lines to the monitor, with its name and that of its draft: lines that were sent come back by the arrow keys, and several may be
 * pasted.
 */
export function makeLineBox(laboratory, { text }, drafts, name, draft) {
    const input = drafts.held(
        h("input", {
            class: "wide", "aria-label": name, placeholder: "words 0050 2", autocapitalize: "off", autocomplete: "off", spellcheck: "false",
        }),
        draft
    );
    const { history } = drafts;
    const write = (line) => {
        input.value = line;
        drafts.keep(draft, line === "" ? null : line);
    };
    const send = async (event) => {
        event.preventDefault();
        const line = input.value;
        write("");
        history.add(line);
        await laboratory.say(line);
    };
    input.addEventListener("keydown", (event) => {
        const line = event.key === "ArrowUp" ? history.back(input.value) : event.key === "ArrowDown" ? history.forward() : null;
        if (line === null) return;
        event.preventDefault();
        write(line);
    });
    input.addEventListener("paste", (event) => {
        const { value, selectionStart, selectionEnd } = input;
        const text = pasted(event.clipboardData.getData("text"), value.slice(0, selectionStart), value.slice(selectionEnd));
        if (text === null) return;
        event.preventDefault();
        write(text.stays);
        for (const line of text.lines) history.add(line);
        laboratory.say(...text.lines);
    });
    const show = () => { input.placeholder = laboratory.openSource === null ? "words 0050 2" : text("sourceLine"); };
    return { node: h("form", { class: "line", onsubmit: send }, input, h("button", {}, text("send"))), show };
}

/** The part of the page with lines and replies. Only what is new is added to the log, so that a screen reader reads that alone. */
export function makeLines(laboratory, texts, drafts) {
    const { text, code } = texts;
    const log = h("pre", { class: "log", tabindex: "0", role: "log", "aria-label": text("lines") });
    const box = makeLineBox(laboratory, texts, drafts, text("typeLine"), "line");
    const shown = new Map();
    const show = () => {
        const talk = laboratory.talk.slice(-LOGGED);
        for (const said of [...shown.keys()].filter((said) => !talk.includes(said))) {
            shown.get(said).remove();
            shown.delete(said);
        }
        const young = talk.filter((said) => !shown.has(said));
        for (const said of young) {
            shown.set(
                said,
                h(
                    "span",
                    {},
                    h("b", {}, `${said.line}\n`),
                    said.reply.slice(0, REPLY_SHOWN),
                    said.reply.length > REPLY_SHOWN ? `…\n${text("replyLength", { count: counted(said.reply.length, code) })}\n` : ""
                )
            );
            log.append(shown.get(said));
        }
        if (young.length > 0) requestAnimationFrame(() => { log.scrollTop = log.scrollHeight; });
        box.show();
    };
    return { node: part("lines", text("lines"), log, box.node), show };
}

/** The part of the page with a script's lines. */
export function makeScript(laboratory, { text }) {
    const list = h("pre", { class: "script-lines", tabindex: "0", role: "group", "aria-label": text("script") });
    const told = h("p");
    const next = guarded(text("nextLine"), {}, () => laboratory.scriptLines(1), () => laboratory.tell({ kind: "scriptDone" }));
    const all = guarded(text("allLines"), {}, () => laboratory.scriptLines(Infinity), () => laboratory.tell({ kind: "scriptDone" }));
    const show = () => {
        const { script } = laboratory;
        node.hidden = script === null;
        if (script === null) return;
        list.replaceChildren(
            ...script.lines.map((line, place) => (
                h("span", { class: place < script.at ? "done" : place === script.at ? "now" : "" }, `${line}\n`)
            ))
        );
        const now = list.querySelector(".now");
        if (now !== null) list.scrollTop = now.offsetTop - list.clientHeight / 2;
        told.textContent = text("scriptAt", { at: script.at, of: script.lines.length });
        for (const control of [next, all]) showLive(control, script.at < script.lines.length);
    };
    const node = part("script", text("script"), list, h("div", { class: "line" }, next, all, told));
    return { node, show };
}
