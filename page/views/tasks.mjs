// Tasks: the text of one, a source that is written for it, and what its check says, in the sentences of ./check_task. The check has a
// laboratory of its own.
import { checkClass, textOf } from "../class_check.mjs";
import { linesIn } from "../lines.mjs";
import { assembled, checked, setUpOf, speaker, taskIn, textAtPage } from "../task.mjs";
import { button, h, part } from "./dom.mjs";
import { makeEditor } from "./editor.mjs";
import { makeCheck, makeVerdict } from "./source.mjs";

/** A text of which pieces within grave accents are code. */
const pieces = (text) => text.split("`").map((piece, place) => (place % 2 === 1 ? h("code", {}, piece) : piece));

/** The nodes of a task's text: headings, paragraphs, lists, and lines to type, which are set in by four blanks. */
function nodesOf(text) {
    return text.trim().split(/\n\n+/).map((block) => {
        const heading = /^(##?) (.*)$/.exec(block);
        if (heading !== null) return h(heading[1] === "#" ? "h3" : "h4", {}, heading[2]);
        if (block.startsWith("    ")) return h("pre", {}, block.replace(/^ {4}/gm, ""));
        if (block.startsWith("- ")) return h("ul", {}, ...block.slice(2).split("\n- ").map((item) => h("li", {}, ...pieces(item))));
        return h("p", {}, ...pieces(block));
    });
}

/** Does something with a link to a laboratory of its own, which is ended then. What goes wrong with it is a sentence too. */
async function withLink(openLink, say, action) {
    const link = openLink();
    try {
        await link.opened;
        return await action(link);
    } catch (failure) {
        return { isRight: false, verdict: say("lab-failed", failure.message), missing: [] };
    } finally {
        link.end();
    }
}

/** The place for what is said of a source: the verdict, and what is missing. */
function makeAnswer({ text }) {
    const node = h("div", { class: "task-answer", tabindex: "0", role: "status", "aria-label": text("taskAnswer") });
    const show = (said) => {
        node.classList.toggle("right", said?.isRight === true);
        node.classList.toggle("wrong", said?.isRight === false);
        node.replaceChildren(
            ...(said === null ? [] : [h("p", {}, said.verdict), h("ul", {}, ...said.missing.map((line) => h("li", {}, line)))])
        );
    };
    return { node, show };
}

/** What is done with a source by buttons. `now` gives the task that is open, its name, the name of its file, and the source. */
function makeActions({ text }, now, { sentences, code, openLink, answer, setUp, run, begin, takeBack }) {
    const say = speaker(sentences);
    const asked = async (action) => {
        const { file } = now();
        answer.show(null);
        const said = await withLink(openLink, say, action);
        if (file === now().file) answer.show(said);
        return said;
    };
    const check = () => {
        const { task, file, source } = now();
        return asked((link) => checked(link, task, source, { file, sentences, code }));
    };
    const tells = (verdict) => answer.show({ isRight: null, verdict: text(verdict), missing: [] });
    /** What keeps a source from being put in, as it is told; null where nothing does. */
    const wrongIn = ({ file, source }) => asked(async (link) => {
        const { missing } = await assembled(link, source, say);
        return missing.length === 0 ? null : { isRight: false, verdict: say("wrong", file), missing };
    });
    /** Sets the machine up, with the source where that is right. */
    const put = async () => {
        const { name, task, source } = now();
        const isBlank = source.trim() === "";
        const isWrong = !isBlank && await wrongIn(now()) !== null;
        await setUp(`tasks/${name}`, setUpOf(task, isBlank || isWrong ? null : source));
        if (!isWrong && name === now().name) tells(isBlank ? "taskIsPutBlank" : "taskIsPut");
    };
    /** Runs the source where it is right; else the machine stays as it is. */
    const runIt = async () => {
        const { name, task, source } = now();
        if (source.trim() === "") return tells("taskIsBlank");
        if (await wrongIn(now()) !== null) return undefined;
        await setUp(`tasks/${name}`, setUpOf(task, source));
        return run();
    };
    const save = () => {
        const { file, source } = now();
        const href = URL.createObjectURL(new Blob([source], { type: "text/plain" }));
        h("a", { href, download: file }).click();
    };
    const buttons = Object.entries({ check, run: runIt, put, save, begin, takeBack }).map(
        ([name, action]) => button(text(`${name}Task`), action, {
            id: `${name === "takeBack" ? "take-back" : name}-task`,
            title: text(`${name}TaskHint`),
            class: name === "check" ? "primary" : null,
        })
    );
    return { node: h("div", { class: "line" }, ...buttons), showBack: (isThere) => { buttons.at(-1).hidden = !isThere; } };
}

/** What the check says of the files of a class, in a window of its own and as a file. */
function showClass(verdicts, { text }, dialog) {
    const [all, right] = [textOf(verdicts), verdicts.filter(({ isRight }) => isRight).length];
    const link = h(
        "a",
        { id: "save-class", href: URL.createObjectURL(new Blob([all], { type: "text/plain" })), download: "class.txt" },
        text("classSaved")
    );
    dialog(
        text("classTitle"),
        h("p", {}, text("classRight", { right, count: verdicts.length })),
        h("pre", { class: "transcript", tabindex: "0", role: "group", "aria-label": text("classTitle") }, all),
        h("p", {}, link)
    );
}

/**
 * The part of the page with the task that is open, and the names and titles of all. `sources` has what pupils have written, `openLink`
 * gives a link to a new laboratory, `checker` says what one says of a source, `setUp` sets the machine up by a script, and `run` runs it.
 */
export function makeTasks(texts, { tasks, sentences }, { sources, openLink, checker, setUp, run }) {
    const { text } = texts;
    const code = texts.code in sentences ? texts.code : "en";
    const titles = Object.entries(tasks).map(([name, it]) => (
        [name, text("taskTitle", { title: /^# (.*)$/m.exec(it.texts[code])[1], minutes: taskIn(it.task).minutes })]
    ));
    const answer = makeAnswer(texts);
    const read = h("div", { class: "task-text", tabindex: "0", role: "group", "aria-label": text("taskText") });
    const changed = (written) => {
        sources.keep(sources.open, written);
        answer.show(null);
        check(written);
    };
    const verdict = makeVerdict(texts, () => editor);
    const check = makeCheck(checker, (of, said) => verdict.show(said, linesIn(of)));
    let editor = null;
    const fill = (source) => {
        if (editor === null) {
            editor = makeEditor("task", texts, { changed, actions: { F8: () => verdict.next() }, moved: () => verdict.refresh() });
            desk.prepend(editor.node);
        }
        if (editor.value() !== source) editor.set(source);
        check(source);
    };
    const now = () => (
        { name: sources.open, task: taskIn(tasks[sources.open].task), file: `${sources.open}.source`, source: editor.value() }
    );
    const open = (name) => {
        sources.open = name;
        node.hidden = name === null;
        answer.show(null);
        if (name === null) return;
        read.replaceChildren(...nodesOf(textAtPage(tasks[name].texts[code], text("taskLines"))));
        read.scrollTop = 0;
        fill(sources.of(name) ?? tasks[name].given[code]);
        buttons.showBack(sources.before(name) !== null);
    };
    /** Checks the files of a class against the task that is open. */
    const checkAll = async (files, dialog) => {
        const { task } = now();
        const own = { ...sentences.en, ...sentences[code] };
        const told = (at) => answer.show({ isRight: null, verdict: text("classAt", { at, count: files.length }), missing: [] });
        const said = await withLink(openLink, speaker(own), (link) => checkClass(link, files, { task, sentences: own, code, told }));
        answer.show(Array.isArray(said) ? null : said);
        if (Array.isArray(said)) showClass(said, texts, dialog);
    };
    const begin = () => { sources.begin(sources.open); open(sources.open); };
    const takeBack = () => { sources.takeBack(sources.open); open(sources.open); editor.focus(); };
    const buttons = makeActions(texts, now, {
        sentences: { ...sentences.en, ...sentences[code] }, code, openLink, answer, setUp, run, begin, takeBack,
    });
    const desk = h("div", { class: "task-desk" }, verdict.node, buttons.node, answer.node);
    const node = part("tasks", text("tasksName"), h("div", { class: "task" }, read, desk));
    open(sources.open);
    return { node, titles, open, opened: () => sources.open, has: (name) => Object.hasOwn(tasks, name), checkAll, show: () => {} };
}
