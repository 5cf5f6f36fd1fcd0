// The panel: registers as bits with their readings, status, mode and clock.
import { bitsOf, fractionOf, wholeOf } from "../../libraries/javascript/replies.mjs";
import { counted, decimal } from "../words.mjs";
import { h, memoized, part, refill } from "./dom.mjs";

/** The bits of a word as lamps. The order and the address stand out. */
function lamps(digits, name) {
    const bits = bitsOf(digits);
    const field = (place) => (place >= 12 && place < 16 ? "of-order" : place >= 18 && place < 30 ? "of-address" : "");
    const lampsOf = bits.map((bit, place) => h("span", { class: `lamp ${bit ? "lit" : ""} ${field(place)}` }));
    const inGroups = (nodes, size, kind) => Array.from(
        { length: nodes.length / size }, (unused, group) => h("span", { class: kind }, ...nodes.slice(size * group, size * (group + 1)))
    );
    return h(
        "span",
        { class: "lamps", role: "img", "aria-label": `${name} ${bits.join("")}` },
        ...inGroups(inGroups(lampsOf, 4, "four"), 4, "sixteen")
    );
}

/** A line of the panel: a name, what stands there, its bits as lamps where it has any, and its reading. */
const line = (text) => ({ name, value, digits, reading }) => [h("dt", {}, text(name)),
    h(
        "dd",
        {},
        value,
        digits === undefined ? null : h("code", { class: "large" }, digits),
        digits?.length === 8 ? lamps(digits, `${text("bitsOf")} ${text(name)}`) : null,
        reading === undefined ? null : h("small", {}, reading)
    )];

/** The part of the page with the registers. */
export function makePanel(laboratory, { text, table, code }) {
    const body = h("dl", { class: "registers" });
    const numbers = (digits) => (
        `${text("asWhole")} ${counted(wholeOf(digits), code)}, ${text("asFraction")} ${decimal(fractionOf(digits), 9, code)}`
    );
    const lineOf = memoized(line(text));
    const show = () => {
        const { panel: { counter, accumulator, register, status, mode, clock }, orderInRegister: order } = laboratory;
        const lines = [
            { name: "counter", digits: counter }, { name: "accumulator", digits: accumulator, reading: numbers(accumulator) },
            { name: "register", digits: register, reading: order === null ? "" : `${text("asOrder")} ${order}` },
            { name: "status", value: table.statuses[status] ?? status, reading: table.modes[mode] ?? mode },
            { name: "clockLong", value: counted(clock, code) },
        ];
        refill(body, ...lines.flatMap((shown) => lineOf(shown.name, shown)));
    };
    return { node: part("panel", text("panel"), body), show };
}
