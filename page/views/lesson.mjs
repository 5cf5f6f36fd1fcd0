// A lesson as steps, of which the one in work is seen: one that is done is ticked off, by what the machine shows or by an answer that is
// compared with it.
import { bringTo } from "../lesson_solutions.mjs";
import { LESSONS } from "../lesson_steps.mjs";
import { button, h, part, tell } from "./dom.mjs";
import { makeLineBox } from "./writing.mjs";

/** An answer as it is compared: thousands may be set apart. */
export const plain = (answer) => answer.trim().toLowerCase().replace(/\s+/g, " ").replace(/(\d)[., ](?=\d{3}$)/, "$1");

/** A text whose pieces in backticks are code. */
const marked = (text) => text.split("`").map((piece, place) => (place % 2 === 0 ? piece : h("code", {}, piece)));
const tellMarked = (node, text) => node.replaceChildren(...marked(text));

/** The box for an answer. A wrong one is met by a hint, and the next wrong one by what is right as well. */
function makeAnswer(laboratory, step, place, { text }, hint, { done, undone }, drafts) {
    const input = drafts.held(
        h("input", { size: 8, "aria-label": text("answer", { number: place + 1 }), autocapitalize: "off", autocomplete: "off" }),
        `answer/${step.lesson}/${place}`
    );
    let wrong = 0;
    const check = () => {
        if (plain(input.value) === "") return tell(hint, text("lessonNoAnswer"));
        if (!step.isAsked(laboratory)) return tell(hint, text("lessonNotThere"));
        const answer = step.answer(laboratory);
        const isRight = plain(input.value) === answer;
        if (!isRight) { wrong += 1; undone(); }
        tellMarked(hint, isRight ? text("lessonRight") : wrong === 1 ? step.hint : `${step.hint} ${text("lessonWouldBe", { answer })}`);
        return isRight ? done() : undefined;
    };
    return h(
        "form", { class: "line answer", onsubmit: (event) => { event.preventDefault(); check(); } }, input, button(text("check"), check)
    );
}

/**
 * What is done with in a step: a box for lines with the last reply, where lines are typed; and a box for an answer, or a button for the
 * hint.
 */
function makeControls(laboratory, step, place, texts, hint, ends, drafts) {
    const { text } = texts;
    const box = step.types
        ? makeLineBox(laboratory, texts, drafts, text("lineOfStep", { number: place + 1 }), `line/${step.lesson}/${place}`)
        : null;
    const reply = step.types ? h("pre", { class: "reply", role: "status" }) : null;
    box?.node.classList.add("types");
    const control = step.answer === undefined
        ? button(text("hint"), () => tellMarked(hint, step.hint), { class: "for-hint" })
        : makeAnswer(laboratory, step, place, texts, hint, ends, drafts);
    const show = () => {
        const last = laboratory.talk.findLast(({ line }) => !step.lines.includes(line));
        box?.show();
        if (reply !== null) tell(reply, last === undefined ? "" : `${last.line}\n${last.reply}`.trimEnd());
    };
    return { node: h("div", { class: "controls-of-step" }, box?.node, reply, control), show };
}

/** Whether a pupil may have lost the way: the machine has stopped, or a line was refused. */
const isAstray = ({ panel, notice }) => panel.status === "halted stop" || notice?.code !== undefined;

/** The step in its row: its number or a tick, what is to be done, the lines that are done for it, and its controls. */
function makeStep(laboratory, step, place, texts, ends, drafts) {
    const { text } = texts;
    const [mark, hint] = [h("span", { class: "mark", "aria-hidden": "true" }), h("span", { class: "hint", role: "status" })];
    const lines = step.lines.length === 0
        ? null
        : h(
            "div",
            { class: "lines-of-step" },
            text("lessonLines"),
            h("pre", { tabindex: "0", role: "group", "aria-label": text("lessonLines") }, step.lines.join("\n"))
        );
    const controls = makeControls(laboratory, step, place, texts, hint, ends, drafts);
    const state = h("span", { class: "unseen" });
    const node = h(
        "li", { tabindex: "-1" }, mark, h("div", {}, state, h("span", { class: "what" }, ...marked(step.text)), lines, controls.node, hint)
    );
    const show = (isDone, isNow) => {
        tell(mark, isDone ? "✓" : String(place + 1));
        tell(state, isDone ? `${text("stepDone")} ` : "");
        node.className = [isDone ? "done" : "", isNow ? "now" : ""].join(" ").trim();
        if (isNow) node.setAttribute("aria-current", "step");
        else node.removeAttribute("aria-current");
        controls.node.hidden = !isNow;
        if (lines !== null) lines.hidden = !isNow;
        if (isNow) controls.show();
        if (isDone && step.done !== undefined) tell(hint, "");
        if (isNow && !isDone && step.done !== undefined && hint.textContent === "" && isAstray(laboratory)) tellMarked(hint, step.hint);
    };
    return { ...step, node, show, isSetUp: step.opens !== undefined || step.lines.length > 0 };
}

/**
 * The rows of steps, below the names of their parts; a press of a name begins with that part. Only the step in work is seen, with the name
 * of its part.
 */
function rowsOf(steps, { text }, begin) {
    return [...new Set(steps.map((step) => step.part))].flatMap((name) => {
        const first = steps.findIndex((step) => step.part === name);
        const heading = h("h3", {}, button(name, () => begin(first), { class: "plain", title: text("beginPart", { part: name }) }));
        return [heading, h("ol", {}, ...steps.filter((step) => step.part === name).map(({ node }) => node))];
    });
}

/** The rail: a mark for each step, which goes there. */
function makeRail({ text }, goTo) {
    const list = h("ol", { "aria-label": text("steps") });
    const node = h("div", { class: "rail" }, list);
    const layOut = (count, links) => {
        list.replaceChildren(
            ...Array.from(
                { length: count },
                (unused, place) => h("li", {}, button("", () => goTo(place), { class: "mark", "data-name": `step-${place}` }))
            )
        );
        node.replaceChildren(list, ...links);
    };
    const show = ({ at, isDone }) => [...node.querySelectorAll("button")].forEach((mark, place) => {
        tell(mark, isDone.has(place) ? "✓" : String(place + 1));
        mark.setAttribute(
            "aria-label",
            [isDone.has(place) ? text("stepDone") : "", text("stepNumber", { number: place + 1 })].filter((it) => it !== "").join(" ")
        );
        mark.classList.toggle("is-done", isDone.has(place));
        if (place === at) mark.setAttribute("aria-current", "step");
        else mark.removeAttribute("aria-current");
    });
    return { node, layOut, show };
}

/**
 * The ways through a lesson: the rail, and below the step in work two buttons to the steps before and after it, of which the latter is
 * highlighted when that is done. The machine's own buttons have other names. `leadTo` goes to a step, and `next` on.
 */
function makeWays(texts, pupil, leadTo, next) {
    const { text } = texts;
    const rail = makeRail(texts, leadTo);
    const backOne = button(text("previousStep"), () => leadTo(pupil.at - 1), { id: "step-back" });
    const nextOne = button(text("nextStep"), next, { id: "step-next" });
    const show = (count) => {
        rail.show(pupil);
        backOne.disabled = pupil.at === 0;
        nextOne.disabled = pupil.at === count;
        nextOne.classList.toggle("primary", pupil.isDone.has(pupil.at));
    };
    return {
        rail: rail.node,
        foot: h("div", { class: "line lesson-foot" }, backOne, nextOne),
        layOut: rail.layOut,
        show,
        focusNext: () => nextOne.focus({ preventScroll: true }),
    };
}

/**
 * Where a pupil is: the lesson, or null, the place of its step, and the places of those that are done. It outlasts a change of the
 * language.
 */
export const noLesson = () => ({ lesson: null, at: 0, isDone: new Set() });

/**
 * The steps of the pupil's lesson: a rail of all, the one in work, and Back and Next. A step that is done is ticked off, and Next goes on;
 * before that, Next has what the step asks for done. `told` is called when a step is reached or done.
 */
function makeSteps(laboratory, texts, open, pupil, drafts, told) {
    let [steps, round, isReady] = [[], 0, true];
    const [list, ended] = [h("div", { class: "steps" }), h("p", { role: "status", class: "lesson-end", tabindex: "-1" })];
    const ways = makeWays(texts, pupil, (place) => leadTo(place), () => (pupil.isDone.has(pupil.at) ? reach : leadTo)(pupil.at + 1));
    const layOut = (written, links) => {
        round += 1;
        steps = (pupil.lesson?.steps ?? []).map((step, place) => makeStep(
            laboratory,
            { ...step, ...written[place], lesson: pupil.lesson.name },
            place,
            texts,
            { done: () => done(), undone: () => undone(place) },
            drafts
        ));
        ways.layOut(steps.length, links);
        list.replaceChildren(...rowsOf(steps, texts, again), ended);
    };
    const again = (first) => {
        for (const place of steps.keys()) if (place >= first) pupil.isDone.delete(place);
        return reach(first);
    };
    const done = () => {
        const isWithin = list.contains(document.activeElement);
        pupil.isDone.add(pupil.at);
        told();
        show();
        if (isWithin) ways.focusNext();
    };
    /** The last answer counts: a wrong one takes back that the step is done. */
    const undone = (place) => {
        pupil.isDone.delete(place);
        told();
        show();
    };
    const setUp = (step) => (step?.isSetUp ? open(step) : undefined);
    const bring = async (unused, place) => {
        await bringTo(laboratory, pupil.lesson.name, steps, place, open);
        laboratory.countFromHere();
    };
    /** Goes to a step, with the machine as it is there. */
    const leadTo = (place) => {
        pupil.isDone.delete(place);
        return reach(place, place < steps.length ? bring : () => {});
    };
    const reach = async (place, prepare = setUp) => {
        const [hadFocus, step] = [[list, ways.foot].some((it) => it.contains(document.activeElement)), steps[place]];
        [pupil.at, round, isReady] = [place, round + 1, false];
        const mine = round;
        told();
        Object.assign(laboratory, { lookedAt: step?.looks ?? [], isCounted: step?.counts ?? false });
        await prepare(step, place);
        if (mine !== round) return;
        if (step?.shows !== undefined) await laboratory.showAt(step.shows);
        if (mine !== round) return;
        isReady = true;
        show();
        list.scrollTop = 0;
        if (hadFocus) (step?.node.querySelector("input") ?? step?.node ?? ended).focus({ preventScroll: true });
    };
    const show = () => {
        if (isReady && !pupil.isDone.has(pupil.at) && steps[pupil.at]?.done?.(laboratory)) { done(); return; }
        steps.forEach((step, place) => step.show(pupil.isDone.has(place), isReady && place === pupil.at));
        ways.show(steps.length);
        tell(ended, pupil.at === steps.length ? texts.table.lessons[pupil.lesson.name].end : "");
    };
    /** Goes on where the pupil is, with the machine as it is. */
    const goOn = () => reach(pupil.at, () => {});
    return { nodes: [ways.rail, list, ways.foot], layOut, reach, bring: leadTo, goOn, show };
}

/**
 * The part of the page with the choice of a lesson or a task, one of which is open at most, and the lesson where the pupil is. `open` sets
 * the machine up for a step, `told` is called when another place is reached, and `sheets` makes links to the sheets of a lesson.
 */
export function makeLesson(laboratory, texts, { open, pupil, tasks, drafts, told, sheets, isSeen }) {
    const { text, table } = texts;
    const about = h("p", { class: "about" });
    const steps = makeSteps(laboratory, texts, open, pupil, drafts, told);
    const lessons = LESSONS.map((it) => button(table.lessons[it.name].title, () => begin(it, null), { "data-lesson": it.name }));
    const others = tasks.titles.map(([name, title]) => button(title, () => begin(null, name), { "data-task": name }));
    const chosen = h("summary", {});
    const row = (name, controls) => (
        h("div", { class: "line", role: "group", "aria-label": name }, h("span", { "aria-hidden": "true" }, name), ...controls)
    );
    const choice = h("details", { class: "choice-of-lesson" }, chosen, row(text("lessonsName"), lessons), row(text("tasksName"), others));
    const begin = (lesson, task) => {
        place(lesson, task);
        if (lesson !== null) return steps.reach(0);
        told();
        return show();
    };
    const place = (lesson, task) => {
        tasks.open(task);
        Object.assign(pupil, noLesson(), { lesson });
        layOut();
        if (choice.contains(document.activeElement)) chosen.focus();
        Object.assign(laboratory, { lookedAt: [], isCounted: false });
    };
    /** Opens what an address names: a lesson at a step, or at its first one, with the machine set up for it; or a task. */
    const openAt = ({ lesson, step, task }) => {
        const named = LESSONS.find((it) => it.name === lesson) ?? null;
        const at = Math.min((step ?? 1) - 1, named === null ? 0 : named.steps.length - 1);
        if (named === null || named !== pupil.lesson) place(named, task);
        return named === null ? show() : steps.bring(at);
    };
    const layOut = () => {
        const written = table.lessons[pupil.lesson?.name] ?? null;
        const title = written?.title ?? tasks.titles.find(([name]) => name === tasks.opened())?.[1];
        choice.open = title === undefined;
        tell(chosen, title ?? text("chooseLesson"));
        tell(about, written?.about ?? "");
        for (const node of steps.nodes) node.hidden = written === null;
        steps.layOut(written?.steps ?? [], written === null ? [] : sheets(pupil.lesson.name));
    };
    const show = () => {
        for (const control of lessons) control.setAttribute("aria-pressed", String(control.dataset.lesson === pupil.lesson?.name));
        for (const control of others) control.setAttribute("aria-pressed", String(control.dataset.task === tasks.opened()));
        about.hidden = pupil.lesson === null || pupil.at > 0;
        if (pupil.lesson !== null && isSeen()) steps.show();
    };
    layOut();
    return {
        node: part("lesson", text("learn"), choice, about, ...steps.nodes),
        show,
        openAt,
        goOn: () => (pupil.lesson === null ? show() : steps.goOn()),
    };
}
