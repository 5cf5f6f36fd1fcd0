// Guided stories: captions one after another, each with the orders that it plays in slow motion.
import { button, guarded, h, part, showLive, tell } from "./dom.mjs";

/**
 * The stories: the example that each opens, how many of its orders are done before, and how many each caption plays; the last one may let
 * it run. `back` has how many are gone back over after a caption, and as many captions as `prints` says have the paper seen.
 */
export const TALES = [
    { name: "wait", example: "self-modifying", before: 0, plays: [1, 1, 1, 1, 0] },
    { name: "rewrite", example: "self-modifying", before: 9, plays: [0, 1, 1, 1, 0] },
    { name: "type", example: "message", before: 2, plays: [0, 3, 1, 3, 0], runs: true, prints: 5 },
    { name: "who", example: "self-modifying", before: 11, plays: [0, 1, 0, 0, 0], asks: [3, "0009"] },
    {
        name: "rewind", example: "finding-mistakes/wrong-row", before: 32, plays: [0, 1, 0, 1, 0], back: [12, 8, 6], asks: [2, "0012"],
        prints: 3,
    },
];

/** Where a viewer is: the story, or null, its caption, and after how many orders it begins. It outlasts a change of the language. */
export const noTale = () => ({ tale: null, at: 0, first: 0 });

/**
 * The part of the page with the stories. `open` opens an example and sets it going, and `told` is called when another caption is reached,
 * and `after` has the name of what follows the last story, and opens it. One story is played at a time: the last that was asked for.
 */
export function makeTales(laboratory, { text, table }, drive, { open, viewer, told, others, after }) {
    let round = 0;
    // while a story is opened its machine is not there yet, and no caption speaks of it
    let isOpening = false;
    const caption = h("p", { class: "caption", "aria-live": "polite", "aria-busy": "false" });
    const next = () => {
        const following = TALES[TALES.indexOf(viewer.tale) + 1];
        if (viewer.at + 1 < viewer.tale.plays.length) return goTo(viewer.at + 1);
        return following === undefined ? after.open() : begin(following);
    };
    const [place, backOne, nextOne] = [
        h("span", { class: "caption-at" }),
        guarded(text("captionBack"), { id: "caption-back" }, () => goTo(viewer.at - 1)),
        button(text("captionNext"), next, { id: "caption-next" }),
    ];
    const choices = TALES.map((it) => button(table.tales[it.name].title, () => begin(it), { "data-tale": it.name }));
    const orders = (count) => {
        const { plays, back = [] } = viewer.tale;
        return plays.slice(0, count).reduce((sum, played, at) => sum + played - (back[at] ?? 0), viewer.first);
    };
    /** Goes to a place, and waits for what leads there. Whether nothing else was asked for meanwhile. */
    const turnTo = async (tale, at, action) => {
        round += 1;
        const mine = round;
        drive.halt();
        Object.assign(viewer, { tale, at: Math.max(0, at) });
        caption.setAttribute("aria-busy", "true");
        told();
        show();
        await action(() => mine === round);
        if (mine !== round) return false;
        caption.setAttribute("aria-busy", "false");
        return true;
    };
    const begin = async (chosen, at = 0) => {
        isOpening = true;
        const isHere = await turnTo(chosen, at, async (isWanted) => {
            await open(chosen.example);
            if (isWanted() && chosen.before > 0) await laboratory.step(chosen.before, false);
        });
        if (!isHere) return;
        viewer.first = laboratory.history.behind;
        await goTo(at);
    };
    const goTo = async (wanted) => {
        const isHere = await turnTo(viewer.tale, wanted, async (isWanted) => {
            await laboratory.settled();
            const missing = isWanted() ? orders(wanted) - laboratory.history.behind : 0;
            if (missing > 0) await laboratory.step(missing, false);
            if (missing < 0) await laboratory.back(-missing);
        });
        if (!isHere) return;
        isOpening = false;
        show();
        play();
    };
    const play = () => {
        const { tale, at } = viewer;
        const isLast = at === tale.plays.length - 1;
        if (tale.plays[at] > 0) drive.go("tale", tale.plays[at]);
        else if (isLast && tale.runs) drive.go("own");
        if (tale.asks?.[0] === at) document.querySelector(`tr[data-address="${tale.asks[1]}"] button`)?.click();
    };
    const show = () => {
        const { tale, at } = viewer;
        for (const control of choices) control.setAttribute("aria-pressed", String(control.dataset.tale === tale?.name));
        caption.dataset.story = tale?.name ?? "";
        caption.toggleAttribute("data-prints", at < (tale?.prints ?? 0));
        tell(caption, tale === null ? text("chooseTale") : isOpening ? "" : table.tales[tale.name].captions[at]);
        for (const control of [place, backOne, nextOne]) control.hidden = tale === null;
        if (tale === null) return;
        tell(place, text("captionAt", { at: at + 1, of: tale.plays.length }));
        showLive(backOne, at > 0);
        tell(nextOne, at + 1 < tale.plays.length ? text("captionNext") : tale === TALES.at(-1) ? after.name : text("nextTale"));
    };
    /** Opens the story and the caption that an address names, each by its number. */
    const openAt = (story, number) => {
        const tale = TALES[story - 1];
        const at = Math.min((number ?? 1), tale.plays.length) - 1;
        return tale === viewer.tale ? goTo(at) : begin(tale, at);
    };
    /** Ends the story. */
    const leave = () => {
        round += 1;
        isOpening = false;
        Object.assign(viewer, noTale());
        caption.setAttribute("aria-busy", "false");
        show();
    };
    return {
        node: part(
            "tales",
            text("talesName"),
            h("div", { class: "line" }, ...choices, ...others),
            caption,
            h("div", { class: "line" }, backOne, nextOne, place)
        ),
        show,
        openAt,
        leave,
    };
}
