// The drum from its end: the head stands still, the ring of sectors turns below it. What is lit comes from replies; the look of ring, head
// and hub is the
// page's own picture of the machine.
import { SECTORS, sectorOf } from "../addresses.mjs";
import { positionOf } from "../machine.mjs";
import { bitsOf } from "../../libraries/javascript/replies.mjs";
import { PHASES } from "../player.mjs";
import { decimal } from "../words.mjs";
import { h, part, s, tell } from "./dom.mjs";
import { apart, inRadians, turned, within } from "./pins.mjs";

/** The centre of the picture of 800 to 720, and what one word time turns. */
export const [X, Y] = [400, 372];
export const STEP = 360 / SECTORS;
const RING = { outer: 318, inner: 260, numbers: 301, bits: [265, 281], rim: 321 };
const WAY = 330;
const WRITTEN_MILLISECONDS = 1100;
/** How wide a cell is where its number stands: where there is less room than a number takes, each second one is seen. */
const CELL = 29.5;
/** How many times larger than in the picture pins are where that is small. */
const SMALL = 1.6;
/** The part of 800 pixels below which the pins keep their size, as the style sheet has it. */
const pinOf = (box) => Number(getComputedStyle(box).getPropertyValue("--pin"));
/**
 * The trail: where it begins, how much further in it is after each turn, how many turns are seen of it, how wide waits and works are, and
 * how faint it is at its end.
 */
export const PEN = { radius: 246, pitch: 20, turns: 4.6, waits: 4.5, works: 15, faintest: 0.12 };

/** The point at an angle, clockwise from above, and a distance from the centre. */
export const at = (degrees, radius) => [X + radius * Math.sin(inRadians(degrees)), Y - radius * Math.cos(inRadians(degrees))];
export const fixed = (numbers) => numbers.map((number) => number.toFixed(1)).join(" ");
const arc = (to, radius, sweep = 1) => `A ${radius} ${radius} 0 0 ${sweep} ${fixed(at(to, radius))}`;
const startOf = (sector) => (positionOf(sector) - 1) * STEP;

/** The angle of a sector's middle, where the drum has turned to a position. */
export const angleOf = (sector, position) => (positionOf(sector) - 0.5 - position) * STEP;

/** The sector that an address names, or null. */
const sectorIn = (address) => (address == null ? null : sectorOf(address));

function cell(sector) {
    const from = startOf(sector);
    const [outline, middle] = [[from, from + STEP], from + STEP / 2];
    const [x, y] = at(middle, RING.numbers);
    const path =
        `M ${fixed(at(outline[0], RING.outer))} ${arc(outline[1], RING.outer)} L ${fixed(at(outline[1], RING.inner))} ${arc(outline[0], RING.inner, 0)} Z`;
    return s(
        "g",
        { class: `cell ${positionOf(sector) % 2 === 0 ? "even" : "odd"}` },
        s("path", { class: "face", d: path }),
        s("path", { class: "bits" }),
        s(
            "text",
            { x: x.toFixed(1), y: (y + 6.6).toFixed(1), transform: `rotate(${fixed([middle, x, y])})` },
            String(sector).padStart(2, "0")
        )
    );
}

/** A stroke for each bit of a word that is 1. */
const strokes = (sector, digits) => bitsOf(digits).map((bit, place) => [bit, startOf(sector) + (STEP * (place + 3)) / 38])
    .filter(([bit]) => bit).map(([, angle]) => `M ${fixed(at(angle, RING.bits[0]))} L ${fixed(at(angle, RING.bits[1]))}`).join(" ");

/** Where the bars of a ring of costs begin and end, and where its marks lie. */
const COSTS = { from: 168, to: 254, mark: 157 };

/** The bar of a sector's cost, the longer the more it takes, of the least and the most that sectors take. */
function costBar({ sector, times, isOwn, isBest }, least, most) {
    const share = 0.025 + (0.975 * (times - least)) / Math.max(1, most - least);
    const [from, to, radius] = [startOf(sector) + 0.5, startOf(sector) + STEP - 0.5, COSTS.from + (COSTS.to - COSTS.from) * share];
    const [x, y] = at((from + to) / 2, COSTS.mark);
    const bar = s("path", {
        class: `cost ${isBest ? "best" : isOwn ? "own" : ""}`,
        d: `M ${fixed(at(from, radius))} ${arc(to, radius)} L ${fixed(at(to, COSTS.from))} ${arc(from, COSTS.from, 0)} Z`,
    });
    const own = isOwn ? s("circle", { class: "cost-mark own", cx: x, cy: y, r: 6 }) : null;
    const best = isBest ? s("path", { class: "cost-mark best", d: "M0 -9L9 0L0 9L-9 0Z", transform: `translate(${fixed([x, y])})` }) : null;
    return s("g", {}, bar, own, best);
}

/** A mark around the hub of a sector that was tried for a word: the longer, the more it costs there. */
function triedMark({ sector, share, isBest }) {
    const [from, to, radius] = [startOf(sector) + 0.8, startOf(sector) + STEP - 0.8, 123 + 21 * share];
    return s("path", {
        class: `tried ${isBest ? "best" : ""}`,
        d: `M ${fixed(at(from, radius))} ${arc(to, radius)} L ${fixed(at(to, 121))} ${arc(from, 121, 0)} Z`,
    });
}

/**
 * The ring of sectors. `mark` lights those of the order under way, of its word, and of the order that comes next, `light` any by the name
 * of a class, `write` draws the words' bits, `cost` draws what the sectors would cost a word, `trace` which of them were tried, and `turn`
 * turns it.
 */
function makeRing() {
    const cells = Array.from({ length: SECTORS }, (unused, sector) => cell(sector));
    const box = [X - RING.rim, Y - RING.rim, 2 * RING.rim, 2 * RING.rim].join(" ");
    const bolts = Array.from({ length: 8 }, (unused, place) => at(45 * place + 22.5, 133)).map(
        ([cx, cy]) => s("circle", { class: "bolt", cx, cy, r: 6.5 })
    );
    const plates = () => (
        [s("circle", { class: "face-plate", cx: X, cy: Y, r: RING.inner }), s("circle", { class: "hub-plate", cx: X, cy: Y, r: 146 })]
    );
    const [costs, tries] = ["ring-of-costs", "tries"].map((name) => s("g", { class: name }));
    const svg = s("svg", { class: "ring", viewBox: box, "aria-hidden": "true" }, ...cells, ...plates(), ...bolts, costs, tries);
    // what an eye sees of it where nothing on it can be read: it lies above, so that the ring need not be drawn anew when it comes and goes
    const blur = s(
        "svg",
        { class: "blur", viewBox: box, "aria-hidden": "true" },
        s("circle", { class: "rim", cx: X, cy: Y, r: RING.rim }),
        ...[RING.numbers, 272].map((r) => s("circle", { class: "streak", cx: X, cy: Y, r })),
        ...plates()
    );
    const [drawn, marked] = [new Map(), { next: null, operand: null, written: null, now: null }];
    const mark = (marks) => {
        for (const kind of Object.keys(marked)) {
            const sector = sectorIn(marks[kind]);
            if (sector === marked[kind]) continue;
            cells[marked[kind]]?.classList.remove(kind);
            cells[sector]?.classList.add(kind);
            marked[kind] = sector;
        }
    };
    const light = (kind, sectors) => cells.forEach((it, sector) => it.classList.toggle(kind, sectors.includes(sector)));
    const write = (words) => {
        for (const [sector, digits] of words) {
            if (drawn.get(sector) !== digits) cells[sector].querySelector(".bits").setAttribute("d", strokes(sector, digits));
            drawn.set(sector, digits);
        }
    };
    let costsShown = null;
    const cost = (shown) => {
        if (shown === costsShown) return;
        costsShown = shown;
        const [sectors, times] = [shown?.sectors ?? [], (shown?.sectors ?? []).map((it) => it.times)];
        costs.replaceChildren(...sectors.map((it) => costBar(it, Math.min(...times), Math.max(...times))));
    };
    const trace = (tried) => tries.replaceChildren(...tried.map(triedMark));
    return {
        node: h("div", { class: "well" }, svg, blur),
        mark,
        light,
        write,
        cost,
        trace,
        turn: (position) => { svg.style.transform = `rotate(${-position * STEP}deg)`; },
    };
}

/** The size of the drawing; the sizes of pins, and how far from the centre they lie at an angle. */
const DRAWING = [800, 720];
const FLAGS = { now: { width: 96, height: 30 }, next: { width: 66, height: 25 }, operand: { width: 64, height: 28 } };
const flagDistance = (angle, { width, height }) => (
    314 + height / 2 + (height / 2) * Math.abs(Math.cos(inRadians(angle))) + (width / 2) * Math.abs(Math.sin(inRadians(angle)))
);

/** The pin of an address; where it lies aside of its sector a line leads there. */
function makePin(kind) {
    const [label, stem, rect] = [s("text", { y: 6.5 }), s("path", { class: "stem" }), s("rect", { rx: kind === "operand" ? 14 : 5 })];
    const place = s("g", {}, s("g", { class: "flag" }, rect, label));
    const node = s("g", { class: `pin ${kind} away`, "data-kind": kind }, stem, place);
    const hide = () => node.classList.add("away");
    const show = ({ address, name, own, angle, flag: { width, height }, size }) => {
        node.classList.remove("away");
        node.dataset.address = address;
        label.textContent = name;
        for (const [key, value] of Object.entries({ x: -width / 2, y: -height / 2, width, height })) rect.setAttribute(key, value);
        stem.setAttribute("d", Math.abs(turned(own - angle)) < 2 ? "" : `M ${fixed(at(own, RING.outer))} L ${fixed(at(angle, WAY + 10))}`);
        const whole = { width: width * size, height: height * size };
        const middle = within(at(angle, flagDistance(angle, { width, height })), whole, DRAWING);
        place.setAttribute("transform", `translate(${fixed(middle)})`);
    };
    return { node, hide, show };
}

/** How far below the middle of the hub each of its texts stands. */
const HUB_TEXTS = { order: -80, phase: -52, count: 18, below: 52, clock: 84 };

/** What stands still: the head with its tip, the way still to go, the hub with its text, and the pins. */
function makeFixed({ text, code }) {
    const pins = Object.fromEntries(["operand", "next", "now"].map((kind) => [kind, makePin(kind)]));
    const [tip, beam] = [
        s("path", { class: "tip", d: "M390 55h20l-10 9z" }),
        s("path", { class: "beam", d: `M393.5 64L${fixed(at(-1.3, RING.inner))}L${fixed(at(1.3, RING.inner))}L406.5 64z` }),
    ];
    const way = s("path", { class: "way-to-go" });
    const texts = Object.fromEntries(
        Object.entries(HUB_TEXTS).map(([name, y]) => [name, s("text", { class: `hub-${name}`, x: X, y: Y + y })])
    );
    const svg = s("svg", { class: "fixed", viewBox: "0 0 800 720", "aria-hidden": "true" },
        s("circle", { class: "casing", cx: X, cy: Y, r: WAY }), way,
        s("path", { class: "turns-left", d: `M ${fixed(at(-20, 350))} ${arc(-40, 350, 0)}` }),
        s("path", { class: "turns-left tip-of", d: `M ${fixed(at(-43.2, 350))} L ${fixed(at(-38.8, 343))} L ${fixed(at(-38.8, 357))} Z` }),
        beam,
        s("path", { class: "head face", d: "M346 0h108v28l-24 20h-20l-10 7-10-7h-20l-24-20z" }),
        tip,
        s("text", { class: "head-name", x: 400, y: 24 }, text("head")),
        s("circle", { class: "hub", cx: X, cy: Y, r: 119 }), ...Object.values(texts), ...Object.values(pins).map(({ node }) => node));
    let size = 1;
    /** On a small drum the pin of the order under way has no room for its letter. */
    const flagOf = (kind) => (kind === "now" && size > SMALL ? FLAGS.next : FLAGS[kind]);
    const showPins = (view, position) => {
        const there = Object.keys(pins).filter((kind) => (view[kind] ?? null) !== null && !(kind === "next" && view.next === view.now));
        const set = there.map((kind) => (
            {
                name: kind,
                angle: angleOf(sectorOf(view[kind]), position),
                width: flagOf(kind).width * size,
                height: flagOf(kind).height * size,
            }
        ));
        const angles = apart(set, flagDistance);
        for (const { node, hide } of Object.values(pins)) if (!there.includes(node.dataset.kind)) hide();
        for (const { name: kind, angle: own } of set) {
            const address = view[kind];
            pins[kind].show({
                address,
                name: kind === "now" && size <= SMALL ? `${address} ${view.letter}` : address,
                own,
                angle: angles.get(kind),
                flag: flagOf(kind),
                size,
            });
        }
        pins.operand.node.classList.toggle("written", view.isWritten === true);
    };
    const show = (view, position) => {
        showPins(view, position);
        svg.dataset.phase = view.phase ?? "rest";
        beam.classList.toggle("lit", view.isReading);
        way.setAttribute("d", view.left > 0 ? sweep(Math.min(view.left, SECTORS)) : "");
        const said = {
            order: view.order ?? "",
            phase: text(`hub_${view.phase ?? "rest"}`),
            count: view.count,
            below: view.below ?? (view.left > 0 ? text("placesToGo") : ""),
            clock: view.clock === null ? "" : `${text("clock")} ${decimal(view.clock, 0, code)}`,
        };
        for (const [name, value] of Object.entries(said)) tell(texts[name], value);
    };
    return { node: svg, show, resize: (factor) => { size = factor; } };
}

/** A path along the way of the head, clockwise from it over this many word times. */
function sweep(times) {
    const angles = Array.from({ length: Math.ceil(times / 16) }, (unused, place) => Math.min(times, 16 * (place + 1)) * STEP);
    return `M ${fixed(at(0, WAY))} ${angles.map((angle) => arc(angle, WAY)).join(" ")}`;
}

/** The pieces of the accounts that have passed the head, the newest last: phase, and how many word times ago it began and ended. */
export function passed(accounts, { clock, offset }, shape = PEN) {
    return accounts.flatMap((account) => {
        let begins = Number(clock - account.clock) + offset;
        return PHASES.flatMap((phase) => {
            const [from, to] = [begins, Math.max(0, begins - account[phase])];
            begins -= account[phase];
            const isWait = phase === "find" || phase === "seek";
            const works = { phase, from: isWait ? Math.min(from, begins + 1) : from, to, width: shape.works };
            return [...(isWait ? [{ phase, from, to: Math.max(to, begins + 1), width: shape.waits }] : []), works];
        });
    }).filter(({ from, to }) => from > to && to < shape.turns * SECTORS);
}

/** The trail on its canvas, whose size is asked for only when it changes; `sized` is told how much smaller than 800 pixels it is. */
function makeTrail(sized) {
    const node = h("canvas", { class: "trail", "aria-hidden": "true" });
    const colours = {};
    let redraw = () => {};
    new ResizeObserver(([{ contentRect: { width } }]) => {
        if (width === 0) return;
        const ratio = Math.min(2, devicePixelRatio || 1);
        Object.assign(node, { width: Math.round(width * ratio), height: Math.round((width * ratio * 720) / 800) });
        sized(width / 800);
        for (const phase of PHASES) colours[phase] = getComputedStyle(node).getPropertyValue(`--in-${phase}`);
        redraw();
    }).observe(node);
    const draw = (pieces, isFast, shape) => {
        const pen = node.getContext("2d");
        pen.setTransform(node.width / 800, 0, 0, node.width / 800, 0, 0);
        pen.clearRect(0, 0, 800, 720);
        if (isFast) drawShares(pen, pieces, colours);
        else for (const piece of pieces) stroke(pen, piece, colours[piece.phase], shape);
    };
    return { node, draw: (pieces, isFast = false, shape = PEN) => { redraw = () => draw(pieces, isFast, shape); redraw(); } };
}

/** A piece of the pen's line, eight word times at once, fainter the older it is. */
function stroke(pen, { from, to, width }, colour, { radius, pitch, turns, faintest }) {
    Object.assign(pen, { lineWidth: width, strokeStyle: colour });
    for (let end = to; end < from; end += 8) {
        const begin = Math.min(from, end + 8);
        pen.globalAlpha = Math.max(faintest, 1 - end / (turns * SECTORS));
        pen.beginPath();
        for (let place = 0; place <= 8; place += 1) {
            const age = end + ((begin - end) * place) / 8;
            pen.lineTo(...at(-age * STEP, radius - (pitch * age) / SECTORS));
        }
        pen.stroke();
    }
}

/**
 * What the drum shows between orders: the one that was the last, as done, or, where orders pass too fast to be read, what comes next alone.
 */
function atRest({ panel }, mark, isFast) {
    const place = isFast ? { phase: "turns", now: null, order: null, operand: null, next: panel.counter } : { ...mark, next: mark.coming };
    return {
        clock: panel.clock,
        offset: 0,
        left: 0,
        count: isFast ? "↻" : letterIn(place.order) ?? "–",
        isReading: false,
        written: null,
        ...place,
    };
}

/** The letter of an order as it is written, without a sign that it may have; null where there is none. */
const letterIn = (order) => order?.trim().replace(/^-/, "")[0] ?? null;

/** What it shows while an order is played. */
function whilePlayed({ account, offset, left }, mark) {
    const sign = account.printed === null ? letterIn(account.order) : account.printed.sign ?? "·";
    return {
        clock: account.clock,
        offset,
        left,
        count: left > 0 ? String(Math.ceil(left)) : sign,
        isReading: left > 0 && left <= 1,
        written: null,
        ...mark,
        next: mark.coming,
    };
}

/**
 * Rings in place of the trail, where it passes too fast to be read: one for each of the last turns, as strong as the share of a phase in
 * it.
 */
function drawShares(pen, pieces, colours) {
    for (let turn = 0; turn < 4; turn += 1) {
        for (const [place, phase] of ["find", "seek"].entries()) {
            const times = pieces.filter((piece) => piece.phase === phase).map(({ from, to }) => (
                Math.min(from, SECTORS * (turn + 1)) - Math.max(to, SECTORS * turn)
            ));
            const share = times.filter((time) => time > 0).reduce((sum, time) => sum + time, 0) / SECTORS;
            Object.assign(pen, { globalAlpha: Math.min(1, share), strokeStyle: colours[phase], lineWidth: 6 });
            pen.beginPath();
            pen.arc(X, Y, PEN.radius - 10 - PEN.pitch * turn - 7 * place, 0, 2 * Math.PI);
            pen.stroke();
        }
    }
}

/** The picture of a drum: the ring, the trail, and what stands still above them. `redraw` is called when its size has changed. */
export function makePicture(texts, redraw) {
    const sized = (scale) => {
        box.style.setProperty("--scale", String(scale));
        box.classList.toggle("tight", scale * CELL < 12.1);
        still.resize(Math.max(1, pinOf(box) / scale));
        redraw();
    };
    const [ring, trail, still] = [makeRing(), makeTrail(sized), makeFixed(texts)];
    const box = h("div", { class: "drum-box", role: "img" }, ring.node, trail.node, still.node);
    return { box, ring, trail, still };
}

/** The colours of the phases, each with its name. */
export const makeKey = (nameOf, ...more) => (
    h("p", { class: "key" }, ...PHASES.flatMap((phase) => [h("span", { class: `dot ${phase}` }), nameOf(phase), " "]), ...more)
);

/**
 * The part of the page that shows the drum. `playing` gives what is played at this moment, or null, `held` the order that has not yet done
 * what it does, `markNow` the order under way; `isFast` tells whether it turns too fast to be read.
 */
export function makeDrum(laboratory, texts, { playing, held, isFast, markNow }) {
    const { text } = texts;
    const { box, ring, trail, still } = makePicture(texts, () => { if (laboratory.panel !== null) frame(); });
    const key = makeKey(
        text, h("span", { class: "dot next" }), text("nextOrder"), " ", h("span", { class: "dot operand" }), text("operand")
    );
    /**
     * The word that the last order has stored, for a moment after it has done so. The moment begins when what was done is shown: a picture
     * drawn in between, or during an action, may know an order that is yet to be played.
     */
    let [told, until] = [null, 0];
    const begin = () => {
        const account = laboratory.accounts.at(-1);
        if (!laboratory.isActing && held() === null && account !== told) {
            [told, until] = [account, performance.now() + WRITTEN_MILLISECONDS];
        }
    };
    const writtenNow = () => {
        const account = laboratory.accounts.at(-1);
        return held() === null && account === told && performance.now() < until ? account?.stored?.address ?? null : null;
    };
    const frame = () => {
        const played = isFast() ? null : playing();
        const mark = markNow();
        const view = played === null ? atRest(laboratory, mark, isFast()) : whilePlayed(played, mark);
        view.letter = letterIn(view.order);
        if (laboratory.isCounted && view.left > 0) {
            Object.assign(view, { count: String(Math.floor(view.offset)), below: text("placesTurned") });
        }
        if (played?.isHurried && played.phase === "act" && !played.done) {
            view.below = text("shownFaster", { turns: Math.round(played.account.act / SECTORS) });
        }
        view.written = isFast() ? null : writtenNow();
        const position = Number(view.clock % BigInt(SECTORS)) + view.offset;
        ring.turn(position % SECTORS);
        ring.mark({ ...view, next: view.next === view.now ? null : view.next });
        box.dataset.phase = view.phase ?? "rest";
        still.show({ ...view, clock: view.clock + BigInt(Math.floor(view.offset)) }, position);
        trail.draw(passed(laboratory.accounts, view), isFast());
        box.classList.toggle("fast", isFast());
        box.dataset.moving = String(played !== null && !played.done);
        if (view.written !== null) setTimeout(frame, until - performance.now() + 1);
    };
    const show = () => {
        begin();
        frame();
        const stored = held()?.stored;
        ring.write(
            laboratory.track.map(({ address, text: digits }) => (
                [sectorOf(address), address === stored?.address ? stored.before.digits : digits]
            ))
        );
        ring.cost(laboratory.costs);
        trail.node.classList.toggle("away", laboratory.costs !== null && laboratory.costs.sectors.length > 0);
        const { panel: { clock, counter }, lastTold } = laboratory;
        const last = lastTold === null ? "" : text("drumLast", { order: lastTold.order, at: lastTold.at ?? "–" });
        box.setAttribute(
            "aria-label", isFast() ? text("drumRuns") : text("drumSays", { clock: decimal(clock, 0, texts.code), next: counter, last })
        );
    };
    return { node: part("drum", text("drum"), box, key), box, ring, show, frame };
}
