// The last works, to go back to; and the offer of the last one when the page is opened.
import { linesIn } from "../lines.mjs";
import { counted } from "../words.mjs";
import { button, h } from "./dom.mjs";
import { waysOut } from "./notice.mjs";

/** What a work is called: the lesson and its step, the task, the example or the file that is open, or the first line of its source. */
export function titleOf(laboratory, pupil, sources, { text, table }) {
    if (pupil.lesson !== null) {
        return text("stepOf", { title: table.lessons[pupil.lesson.name].title, step: Math.min(pupil.at + 1, pupil.lesson.steps.length) });
    }
    if (sources.open !== null) return sources.open;
    return laboratory.script?.name ?? laboratory.source.split("\n").find((line) => line.trim() !== "")?.trim().slice(0, 40) ?? "";
}

const whenOf = (when, code) => new Intl.DateTimeFormat(code, { dateStyle: "medium", timeStyle: "short" }).format(when);

/** The list of works, the newest first. `open` goes back to one, and `share` shows one to be sent. */
export function listOfWorks(works, { text, code }, open, share) {
    const count = ({ lines }) => counted(lines === "" ? 0 : linesIn(lines).length, code);
    const item = (work) => h(
        "li",
        {},
        h("b", {}, text("workOf", { title: work.title || text("blankWork"), when: whenOf(work.when, code) })),
        ` ${text("workLines", { count: count(work) })} `,
        work.id === works.id ? text("workNow") : button(text("goBack"), () => open(work), { "data-work": work.id }),
        " ",
        button(text("share"), () => share(work), { "data-share": work.id })
    );
    const all = works.all();
    return h("div", { class: "works" }, h("p", {}, text(all.length === 0 ? "worksNone" : "worksHint")), h("ul", {}, ...all.map(item)));
}

/** The offer of a work. It is there until it is opened or put away. */
export function makeOffer(work, { text }, { open, forget }) {
    const place = document.getElementById("kept");
    const goOn = () => [...document.querySelectorAll("#open, .doors a")].find((it) => it.checkVisibility())?.focus();
    const end = (action) => async () => {
        place.hidden = true;
        goOn();
        await action();
        if (document.activeElement === document.body) goOn();
    };
    place.replaceChildren(
        text("keptSession"),
        ...waysOut(button(text("openAgain"), end(() => open(work))), button(text("forget"), end(() => forget(work.id))))
    );
    place.hidden = false;
}
