// The profile of a run as bars.
import { counted } from "../words.mjs";
import { button, h, part } from "./dom.mjs";

/** A line of a profile with its bar, drawn against the greatest of its group. */
function bar({ name, times, percent }, most, label, kind, code) {
    const width = most === 0 ? 0 : (100 * times) / most;
    return h(
        "div",
        { class: "bar-line" },
        h("span", { class: "bar-name" }, label),
        h("span", { class: `bar ${kind}`, style: `width: ${width.toFixed(1)}%`, "data-name": name }),
        h("span", { class: "bar-number" }, `${counted(times, code)}  ${percent} %`)
    );
}

const PHASES = ["find", "take", "seek", "act", "none"];

/** The part of the page with the profile. */
export function makeProfile(laboratory, { text, table, code }, drafts) {
    const limit = drafts.held(h("input", { type: "number", min: 1, max: 1000000, value: 10000 }), "limit");
    const place = h("div", { class: "bars" });
    const show = () => {
        const { profile } = laboratory;
        if (profile === null) return place.replaceChildren(h("p", {}, text("noProfile")));
        const most = (group) => Math.max(...group.map(({ times }) => times), 0);
        const values = { orders: counted(profile.orders, code), times: counted(profile.times, code), turns: counted(profile.turns, code) };
        return place.replaceChildren(h("p", {}, text("profileTotals", values)),
            ...profile.parts.map((line, at) => bar(line, most(profile.parts), table.parts[line.name] ?? line.name, PHASES[at], code)),
            h("h3", {}, text("dearest")), ...profile.places.map((line) => bar(line, most(profile.places), line.name, "place", code)));
    };
    const start = button(text("makeProfile"), () => laboratory.addUp(Math.max(1, Math.floor(Number(limit.value)))));
    return {
        node: part(
            "profile", text("profile"), h("div", { class: "line" }, h("label", {}, text("profileOrders"), " ", limit), start), place
        ),
        show,
    };
}
