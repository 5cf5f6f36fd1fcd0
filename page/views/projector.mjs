// A lesson for a projector: the step in work with its own controls, the drum, and what the order did, large enough to be read from the back
// of a room. What is seen and how large is in
// the style. The keys of a presenter's remote turn the steps.
import { projected } from "../opening.mjs";
import { behind } from "./doors.mjs";
import { button, h } from "./dom.mjs";

/** The buttons that turn the steps of a lesson, by the keys that press them. */
const TURNS = { PageUp: "step-back", ArrowLeft: "step-back", PageDown: "step-next", ArrowRight: "step-next" };

/** The link from a lesson to its projector's view, which `turnTo` opens. */
export const linkToProjector = ({ text }, turnTo) =>
    h(
        "a",
        {
            id: "to-projector",
            href: projected(true, location),
            title: text("projectorHint"),
            onclick: (event) => { event.preventDefault(); turnTo(true); },
        },
        text("projector")
    );

/** The way out of the view, and its keys. `isOn` says whether a lesson is seen so, and `turnTo` changes that. */
export function makeProjector({ text }, isOn, turnTo) {
    const onKey = (event) => {
        // in a field the arrows move the cursor, and on the drum all of these keys turn it
        const others = event.key.startsWith("Arrow") ? "input, dialog, [role='slider']" : "dialog, [role='slider']";
        if (!isOn() || event.ctrlKey || event.altKey || event.metaKey || event.target.closest(others) !== null) return false;
        if (event.key === "Escape") turnTo(false);
        else document.getElementById(TURNS[event.key])?.click();
        return event.key === "Escape" || event.key in TURNS;
    };
    return {
        node: behind("learn", button(text("leaveProjector"), () => turnTo(false), { id: "leave-projector" })),
        show: () => document.body.toggleAttribute("data-projector", isOn()),
        onKey,
    };
}
