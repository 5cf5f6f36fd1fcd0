// The drum in the hand: words are taken by their pins and carried to other sectors, by a finger, a mouse or keys.
import { SECTORS } from "../addresses.mjs";
import { positionOf, sectorAt } from "../machine.mjs";
import { counted } from "../words.mjs";
import { h, s, tell } from "./dom.mjs";
import { STEP, X, Y, angleOf, at, fixed } from "./drum.mjs";
import { apart, inRadians, turned } from "./pins.mjs";

/** The least size of a pin in a picture of 800 to 720, where the rim ends, and how far pins lie from it. */
const [PIN, RIM, GAP] = [{ width: 82, height: 38 }, 340, 8];

/** How far from the centre a pin is that lies beside the rim at an angle. */
export const distanceOf = (angle, { width, height }) => (
    RIM + GAP + (width / 2) * Math.abs(Math.sin(inRadians(angle))) + (height / 2) * Math.abs(Math.cos(inRadians(angle)))
);

/** A place of the window as seen from the centre of a drum: its angle, clockwise from above, and how far it is, in the picture of 800. */
function seenFrom({ clientX, clientY }, box) {
    const { left, top, width } = box.getBoundingClientRect();
    const [across, up] = [((clientX - left) * 800) / width - X, Y - ((clientY - top) * 800) / width];
    return { angle: (Math.atan2(across, up) * 180) / Math.PI, distance: Math.hypot(across, up) };
}

/** The sector below a place of the window, where the drum has turned to a position. */
const sectorBelow = (event, box, position) => sectorAt(Math.round(seenFrom(event, box).angle / STEP + position + 0.5));

/** By how many places a key moves a word. */
const MOVES = { ArrowRight: 1, ArrowUp: 1, ArrowLeft: -1, ArrowDown: -1, PageUp: 8, PageDown: -8 };

/**
 * The pin of a word. It is taken and carried, there or by the cell in which the word lies, or moved by keys; a touch that is cancelled puts
 * the word back.
 */
function makeGrip({ address, name }, hands, place) {
    const node = h(
        "div",
        {
            class: "grip", role: "slider", tabindex: "0", "data-word": address, "aria-label": name, "aria-valuemin": 0,
            "aria-valuemax": SECTORS - 1,
        },
        h("span", { class: "ribs", "aria-hidden": "true" }),
        name,
        h("i", { class: "hold" })
    );
    let before = null;
    const move = (sector) => { if (sector !== hands.sectorOf(address)) hands.move(address, sector); };
    const end = (isCancelled) => {
        if (before === null) return;
        if (isCancelled) move(before);
        before = null;
        node.classList.remove("held");
        hands.drop(address);
    };
    node.addEventListener("pointerdown", (event) => {
        if (event.button !== 0) return;
        event.preventDefault();
        node.setPointerCapture(event.pointerId);
        node.focus({ preventScroll: true, focusVisible: false });
        hands.pick(address);
        node.classList.add("held");
        before = hands.sectorOf(address);
    });
    node.addEventListener("pointermove", (event) => { if (before !== null) move(sectorBelow(event, ...place())); });
    for (const kind of ["pointerup", "pointercancel", "lostpointercapture"]) {
        node.addEventListener(kind, () => end(kind === "pointercancel"));
    }
    node.addEventListener("focus", () => hands.pick(address));
    node.addEventListener("keydown", (event) => {
        const by = MOVES[event.key];
        const isBack = ["Home", "Escape"].includes(event.key);
        if ((by === undefined && !isBack) || event.ctrlKey || event.altKey || event.metaKey) return undefined;
        event.preventDefault();
        event.stopPropagation();
        if (event.key === "Escape" && before !== null) return end(true);
        if (isBack) hands.back(address);
        else move(sectorAt(positionOf(hands.sectorOf(address)) + by));
        return hands.drop(address);
    });
    return node;
}

/** The pin of a word that may not be moved: it has no grip, and says why when it is pressed. */
const makeFixedPin = ({ address, name, kind }, hands) => (
    h("button", { type: "button", class: `grip fixed ${kind}`, "data-word": address, onclick: () => hands.refuse(kind) }, name)
);

/**
 * The pins of words around a drum; `show` gives the angles at which they lie, and is told how many pixels beyond the picture's sides, below
 * it and above it they may be. `hands` has `sectorOf` and `says` of a word by its address, `pick`, `move`, which moves it to a sector,
 * `back`, which moves it to its own, `drop`, and `refuse`, which is told the kind of a word that may not be moved.
 */
export function makeGrips(box, hands) {
    const lines = s("svg", { class: "stems", viewBox: "0 0 800 720", "aria-hidden": "true" });
    const layer = h("div", { class: "grips" });
    let [grips, position] = [new Map(), 0];
    box.append(lines, layer);
    const put = (words) => {
        grips = new Map(
            words.map((word) => (
                [word.address, (word.kind ?? "free") === "free" ? makeGrip(word, hands, () => [box, position]) : makeFixedPin(word, hands)]
            ))
        );
        layer.replaceChildren(...grips.values());
        lines.replaceChildren();
    };
    const show = (now, scale, isBest, beyond, below = Infinity, above = Infinity) => {
        position = now;
        const pins = [...grips].map(([name, node]) => (
            {
                name,
                angle: angleOf(hands.sectorOf(name), now),
                width: Math.max(PIN.width, node.offsetWidth / scale),
                height: Math.max(PIN.height, node.offsetHeight / scale),
            }
        ));
        const angles = apart(pins, distanceOf);
        const placeOf = (pin) => {
            const [wide, low] = at(angles.get(pin.name), distanceOf(angles.get(pin.name), pin));
            const most = 400 + beyond / scale - pin.width / 2;
            return [
                400 + Math.max(-most, Math.min(most, wide - 400)),
                Math.max(pin.height / 2 - above / scale, Math.min(720 + below / scale - pin.height / 2, low)),
            ];
        };
        lines.replaceChildren(...pins.map((pin) => s("path", { d: `M ${fixed(at(pin.angle, 319))} L ${fixed(placeOf(pin))}` })));
        for (const pin of pins) {
            const [node, [x, y], cell] = [grips.get(pin.name), placeOf(pin), at(pin.angle, 290)];
            Object.assign(node.style, { left: `${x / 8}%`, top: `${y / 7.2}%` });
            node.classList.toggle("best", isBest(pin.name));
            if (node.matches(".fixed")) continue;
            node.lastChild.style.transform = `translate(${(cell[0] - x) * scale}px, ${(cell[1] - y) * scale}px) rotate(${pin.angle}deg)`;
            node.setAttribute("aria-valuenow", positionOf(hands.sectorOf(pin.name)));
            node.setAttribute("aria-valuetext", hands.says(pin.name));
        }
        return [...angles.values()];
    };
    return { put, show, focus: (address) => grips.get(address)?.focus() };
}

/** Where on the drum it can be turned: between the hub and the end of the rim. */
const HUB = 146;

/** What a key of the turner does: a number of word times, or of orders. */
const TIMES = { ArrowRight: 1, ArrowUp: 1, ArrowLeft: -1, ArrowDown: -1 };
const ORDERS = { PageUp: 1, PageDown: -1 };

/** Where the wheel of a mouse turns the drum and does not scroll the page: where that has nothing to scroll, or the drum has the focus. */
const isWheelFree = (node) => node === document.activeElement || document.documentElement.scrollHeight <= innerHeight;

/** A little give in the way in which the drum cannot go. */
function give(box, way) {
    if (!matchMedia("(prefers-reduced-motion: reduce)").matches) box.animate([{}, { rotate: `${-2 * way}deg` }, {}], 150);
}

/** Hears the hand that turns a drum: a drag of its ring or rim. `holds` is told whether there is one. */
function hearDrag(node, box, turning, holds) {
    let last = null;
    const end = () => {
        if (last === null) return;
        last = null;
        holds(false);
        turning.settle();
    };
    node.addEventListener("pointerdown", (event) => {
        const { angle, distance } = seenFrom(event, box);
        if (event.button !== 0 || distance < HUB) return;
        event.preventDefault();
        node.setPointerCapture(event.pointerId);
        node.focus({ preventScroll: true, focusVisible: false });
        last = angle;
        holds(true);
    });
    node.addEventListener("pointermove", (event) => {
        if (last === null) return;
        const { angle } = seenFrom(event, box);
        turning.turn(-turned(angle - last) / STEP);
        last = angle;
    });
    for (const kind of ["pointerup", "pointercancel", "lostpointercapture"]) node.addEventListener(kind, end);
}

/** Hears the wheel and the keys that turn a drum. */
function hearWheelAndKeys(node, turning) {
    node.addEventListener("wheel", (event) => {
        if (event.ctrlKey || !isWheelFree(node)) return;
        event.preventDefault();
        turning.take();
        turning.turn(Math.sign(event.deltaY));
    }, { passive: false });
    node.addEventListener("keydown", (event) => {
        const { key } = event;
        if ((TIMES[key] ?? ORDERS[key]) === undefined || event.ctrlKey || event.altKey || event.metaKey) return;
        event.preventDefault();
        turning.take();
        if (key in TIMES) turning.turn(TIMES[key]);
        else turning.order(ORDERS[key]);
    });
}

/** What turns the drum: its ring and its rim, by a drag, a wheel or keys. What a drag has done is told in the hall as well. */
export function makeTurner(box, { text, code }, turning, byHand) {
    const node = h("div", {
        class: "turner", role: "slider", tabindex: "0", "aria-label": text("turnDrum"), "aria-valuemin": 0, "aria-valuemax": SECTORS - 1,
    });
    let began = null;
    const show = () => {
        const { clock, left } = turning;
        node.setAttribute("aria-valuenow", Math.floor(clock) % SECTORS);
        node.setAttribute(
            "aria-valuetext", text(left > 0 ? "turnSays" : "turnRests", { clock: counted(Math.floor(clock), code), left: Math.ceil(left) })
        );
        const turns = Math.round(clock - began);
        const times = turns < 0 ? `−${-turns}` : `+${turns}`;
        if (began === null) delete box.dataset.turned;
        else box.dataset.turned = text("turnedBy", { times });
        tell(byHand, began === null ? text("turnMe") : text(left > 0 ? "turnedSo" : "turnedThere", { times, left: Math.ceil(left) }));
    };
    hearDrag(node, box, turning, (isHeld) => {
        if (isHeld) turning.take();
        began = isHeld ? turning.clock : null;
        show();
    });
    hearWheelAndKeys(node, turning);
    turning.addEventListener("end", ({ way }) => give(box, way));
    box.append(node);
    return { node, show, frame: show };
}
