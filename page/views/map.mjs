// The map of the drum: its 64 tracks as rows and its 64 sectors as columns, as they pass the head or by their numbers. A word is as the
// last told orders left it: performed, read, written, or there.
import { SECTORS, addressOf, numberOf } from "../addresses.mjs";
import { positionOf, sectorAt } from "../machine.mjs";
import { button, h, part, tell } from "./dom.mjs";
import { whyNodes } from "./listing.mjs";

/**
 * The room for the numbers of tracks and sectors; the height of a track with words, and of one without; the last orders that are drawn
 * full.
 */
const [LEFT, TOP, HIGH, LOW, YOUNG] = [22, 14, 16, 2, 9];
const BLANK = "00000000";
const KINDS = ["performed", "read", "written"];
const COLOURS = {
    performed: "--in-find", read: "--in-seek", written: "--in-write", loaded: "--spots", next: "--in-next", ground: "--well", text: "--ink",
    chosen: "--numbers",
};

/** What an account did with words of the drum: the place of its order, and the word that it read or wrote. */
function usesOf({ at, word, stored }) {
    const used = stored !== null ? { address: stored.address, kind: "written" } : word === null ? null : { address: word, kind: "read" };
    return [...(at === null ? [] : [{ address: at, kind: "performed" }]), ...(used === null ? [] : [used])];
}

/** Of each word that told orders used: how often in each way, the last way, and how many orders ago that was. */
export function usedBy(accounts) {
    const used = new Map();
    for (const [place, account] of accounts.entries()) {
        for (const { address, kind } of usesOf(account)) {
            const before = used.get(address) ?? { performed: 0, read: 0, written: 0 };
            used.set(address, { ...before, [kind]: before[kind] + 1, kind, ago: accounts.length - 1 - place });
        }
    }
    return used;
}

/** Where the rows of tracks begin, and how high they are: those with words are higher. */
export function rowsOf(hasWords, height) {
    const count = hasWords.filter(Boolean).length;
    const empty = Math.min(LOW, height / SECTORS / 2);
    const high = count === 0 ? LOW : Math.min(HIGH, (height - (SECTORS - count) * empty) / count);
    const low = Math.min(high, (height - count * high) / Math.max(1, SECTORS - count));
    let top = 0;
    return hasWords.map((has) => {
        const row = { top, height: has ? high : low, has };
        top += row.height;
        return row;
    });
}

/** The column of a sector, and the sector of a column. */
const columnOf = (sector, passes) => (passes ? (positionOf(sector) + SECTORS - 1) % SECTORS : sector);
const sectorIn = (column, passes) => (passes ? sectorAt(column + 1) : column);

/** The drawing of the map on its canvas. */
function makeDrawing(node) {
    const colours = {};
    let at = { rows: [], cell: 4, width: 0, height: 0 };
    const resize = (width, height) => {
        const ratio = Math.min(2, devicePixelRatio || 1);
        Object.assign(node, { width: Math.round(width * ratio), height: Math.round(height * ratio) });
        for (const [name, key] of Object.entries(COLOURS)) colours[name] = getComputedStyle(node).getPropertyValue(key);
        at = { ...at, width, height, cell: Math.max(3, Math.floor((width - LEFT) / SECTORS)) };
    };
    const box = (address, passes) => {
        const [track, sector] = [Math.floor(numberOf(address) / SECTORS), numberOf(address) % SECTORS];
        return [LEFT + columnOf(sector, passes) * at.cell, TOP + at.rows[track].top, at.cell, at.rows[track].height];
    };
    const draw = ({ digits, used, next, chosen, passes }) => {
        const pen = node.getContext("2d");
        const ratio = node.width / Math.max(1, at.width);
        at.rows = rowsOf(
            Array.from(
                { length: SECTORS }, (unused, track) => digits.slice(track * SECTORS, (track + 1) * SECTORS).some((word) => word !== BLANK)
            ),
            at.height - TOP - 2
        );
        pen.setTransform(ratio, 0, 0, ratio, 0, 0);
        pen.clearRect(0, 0, at.width, at.height);
        pen.fillStyle = colours.ground;
        pen.fillRect(LEFT, TOP, SECTORS * at.cell, at.height - TOP - 2);
        for (const [number, word] of digits.entries()) if (word !== BLANK) fill(pen, box(addressOf(number), passes), colours.loaded, 0.75);
        for (const [address, { kind, ago }] of used) fill(pen, box(address, passes), colours[kind], ago < YOUNG ? 1 : 0.6);
        for (const [address, colour] of [[next, colours.next], [chosen, colours.chosen]]) {
            if (address !== null) frame(pen, box(address, passes), colour);
        }
        names(pen, at, colours.text, passes);
    };
    const addressAt = (x, y, passes) => {
        const [column, track] = [
            Math.floor((x - LEFT) / at.cell), at.rows.findIndex(({ top, height }) => y - TOP >= top && y - TOP < top + height),
        ];
        return column < 0 || column >= SECTORS || track < 0 ? null : addressOf(track * SECTORS + sectorIn(column, passes));
    };
    return { resize, draw, addressAt, headAt: (position) => LEFT + position * at.cell };
}

function fill(pen, [x, y, width, height], colour, alpha) {
    Object.assign(pen, { fillStyle: colour, globalAlpha: alpha });
    pen.fillRect(x, y, Math.max(1, width - 1), Math.max(1, height - 0.5));
    pen.globalAlpha = 1;
}

function frame(pen, [x, y, width, height], colour) {
    Object.assign(pen, { strokeStyle: colour, lineWidth: 2 });
    pen.strokeRect(x - 1, y - 1, width + 1, height + 1);
}

/** The numbers of every sixteenth sector, and of tracks that are high enough, as far as they do not meet. */
function names(pen, { rows, cell }, colour, passes) {
    Object.assign(pen, { fillStyle: colour, font: "10px sans-serif", textBaseline: "middle", textAlign: "center" });
    for (let column = 0; column < SECTORS; column += 8) {
        pen.fillText(String(sectorIn(column, passes)).padStart(2, "0"), LEFT + (column + 0.5) * cell, TOP / 2);
    }
    let last = -Infinity;
    pen.textAlign = "left";
    for (const [track, { top, height, has }] of rows.entries()) {
        const middle = TOP + top + height / 2;
        if (middle - last < 11 || !has && track % 16 !== 0) continue;
        pen.fillText(String(track).padStart(2, "0"), 2, middle);
        last = middle;
    }
}

/** What is told of a word: its place, its label, its digits, and what told orders did with it. */
function toldOf(address, { digits, used, labels }, { text }) {
    const { performed = 0, read = 0, written = 0 } = used.get(address) ?? {};
    const place = [address, ...(labels.get(address) ?? [])].join(" ");
    return `${place} ${digits[numberOf(address)] ?? ""} · ${text("mapUses", { performed, read, written })}`;
}

const STEPS = { ArrowLeft: [-1, 0], ArrowRight: [1, 0], ArrowUp: [0, -1], ArrowDown: [0, 1] };

/** The address to which an arrow key goes from another one, or null. */
function arrived(key, from, passes) {
    const [across, down] = STEPS[key] ?? [null];
    if (across === null) return null;
    const [track, sector] = [Math.floor(numberOf(from) / SECTORS), numberOf(from) % SECTORS];
    const column = (columnOf(sector, passes) + across + SECTORS) % SECTORS;
    return addressOf(((track + down + SECTORS) % SECTORS) * SECTORS + sectorIn(column, passes));
}

/** Two buttons for the order of the columns, of which one is pressed. `changed` is told whether they are as the sectors pass. */
function makeWays({ text }, changed) {
    const ways = ["mapPasses", "mapNumbers"].map((name, place) => button(text(name), () => {
        ways.forEach((way, at) => way.setAttribute("aria-pressed", String(at === place)));
        changed(place === 0);
    }, { "aria-pressed": String(place === 0), "data-name": name }));
    const legend = h(
        "p",
        { class: "map-key" },
        ...[...KINDS, "loaded"].flatMap((kind) => (
            [h("span", { class: `map-dot ${kind}`, "aria-hidden": "true" }), text(`map_${kind}`), " "]
        ))
    );
    return h("div", { class: "line map-ways" }, legend, ...ways);
}

/** What can be done with the word that is chosen, and the place for what the monitor answers. */
function makeActions(laboratory, texts, chosen, costsAsked) {
    const { text } = texts;
    const answer = h("p", { class: "map-answer", role: "status" });
    const who = async () => {
        const told = await laboratory.why(chosen());
        answer.replaceChildren(...(told === undefined ? [] : whyNodes(laboratory, told, texts)));
    };
    const node = h(
        "div",
        { class: "line" },
        button(text("watchAt"), () => laboratory.command(`watch ${chosen()}`), { "data-name": "map-watch" }),
        button(text("mapWho"), who, { "data-name": "map-who" }),
        button(text("tab_costs"), () => costsAsked(chosen()), { "data-name": "map-costs" })
    );
    const show = () => { for (const control of node.children) control.disabled = chosen() === null; };
    return { node, answer, show };
}

/**
 * The canvas with the line of the head, in an element that is reached by the tab key and named by what is told of the word that is chosen.
 */
function makeGrid({ text }, shown, choose) {
    const [canvas, line, told] = [
        h("canvas", { class: "drum-map", "aria-hidden": "true" }),
        h("div", { class: "map-head", "aria-hidden": "true" }),
        h("p", { class: "map-told", role: "gridcell" }),
    ];
    const drawing = makeDrawing(canvas);
    const ground = h("div", { class: "map-ground" }, canvas, line);
    const node = h(
        "div", { class: "map", role: "grid", tabindex: "0", "aria-label": text("mapName") }, ground, h("div", { role: "row" }, told)
    );
    node.addEventListener("click", ({ target, offsetX, offsetY }) => {
        if (target === canvas) choose(drawing.addressAt(offsetX, offsetY, shown.passes));
    });
    node.addEventListener("keydown", (event) => {
        const address = event.target === node ? arrived(event.key, shown.chosen ?? shown.next, shown.passes) : null;
        if (address === null) return;
        event.preventDefault();
        choose(address);
    });
    return { node, canvas, line, told, ground, drawing };
}

/** The place of the drum that the head reads, at rest or while an order is played. */
function positionNow({ panel }, at) {
    const clock = at?.account.clock ?? panel.clock;
    return (Number(clock % BigInt(SECTORS)) + (at?.offset ?? 0)) % SECTORS;
}

/** The part of the page with the map. The words are asked for while it is seen, and not where orders pass too fast. */
export function makeMap(laboratory, texts, { playing, isFast }, costsAsked) {
    const { text } = texts;
    const shown = { digits: [], used: new Map(), labels: new Map(), next: "0000", chosen: null, passes: true };
    const choose = (address) => {
        if (address === null) return;
        [shown.chosen, actions.answer.textContent] = [address, ""];
        draw();
    };
    const { node: grid, canvas, line, told, ground, drawing } = makeGrid(texts, shown, choose);
    const actions = makeActions(laboratory, texts, () => shown.chosen, costsAsked);
    const draw = () => {
        if (shown.digits.length > 0 && canvas.width > 0) drawing.draw(shown);
        tell(told, shown.chosen === null ? text("mapHint") : toldOf(shown.chosen, shown, texts));
        actions.show();
    };
    const frame = () => {
        line.hidden = !shown.passes;
        line.style.transform = `translateX(${drawing.headAt(positionNow(laboratory, isFast() ? null : playing())).toFixed(1)}px)`;
    };
    const ask = async () => {
        if (isFast()) return;
        const digits = await laboratory.drum();
        if (digits === null || digits === shown.digits) return;
        shown.digits = digits;
        draw();
    };
    const show = () => {
        Object.assign(shown, { used: usedBy(laboratory.accounts), labels: laboratory.labels, next: laboratory.panel.counter });
        if (!canvas.checkVisibility()) return;
        ask();
        draw();
        frame();
    };
    new ResizeObserver(([{ contentRect: { width, height } }]) => {
        if (width === 0) return;
        drawing.resize(width, height);
        if (laboratory.panel !== null) show();
    }).observe(ground);
    const ways = makeWays(texts, (passes) => {
        shown.passes = passes;
        draw();
        frame();
    });
    return { node: part("map-part", text("tab_map"), ways, grid, actions.node, actions.answer), show, frame };
}
