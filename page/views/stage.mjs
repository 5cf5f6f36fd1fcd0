// Where the parts are, at each door in one window. In Look: the drum, and beside it what is told of it. In Learn: the step of a lesson or a
// task, the drum, what is told of it, and the time line. In Work: the
// source, the machine with its last orders, and program and typewriter, and the time line. The document's order is the seen order.
import { h } from "./dom.mjs";
import { behind, hideOthers } from "./doors.mjs";
import { fill, makeTabs } from "./tabs.mjs";

const WIDEST = matchMedia("(min-width: 1700px)");
const WIDE = matchMedia("(min-width: 1280px)");
const NARROW = matchMedia("(max-width: 760px)");

const box = (name, ...views) => h("div", { class: name }, ...views.map((view) => view.node ?? view));

/** Gives the parts their places for the width of the window and the door, as the page was laid last. */
let place = () => {};

/** What is seen at which door. */
function markDoors(made) {
    for (const { node } of [made.lesson, made.tasks, made.drum, made.console, made.time, made.story, made.paper, made.keyboard]) {
        node.querySelector("h2").classList.add("unseen");
    }
    const stand = "learn work";
    behind(stand, made.console.node);
    for (const node of [
        made.story.node.querySelector(".telling-order"),
        made.console.node.querySelector(".second-row"),
        made.source.run,
        made.operated,
        ...made.listing.node.querySelectorAll("form button:not(:first-of-type), .rules"),
    ]) {
        behind("work", node);
    }
    for (const node of [made.listing.node.querySelector("form"), made.costs.node]) behind(stand, node);
    for (const node of [made.tales.node, made.tales.node.lastElementChild]) behind("look", node);
    behind("hall", made.hall.node);
    made.paper.node.append(behind("work", made.sheet.control));
}

/**
 * What the boxes contain outside of Work: in the hall the drum and the doors; in Look what is told of the drum, with Back and Next at its
 * end; in Learn the guide, the machine, what is told of it, and the time line.
 */
const ELSEWHERE = {
    hall: (made, { cabinet, main }) => [[cabinet, [made.drum.node, made.hall.node]], [main, [cabinet]]],
    look: (made, { cabinet, tells, told, typewriter, foot, main }) => [
        [typewriter, [made.paper.node, made.keyboard.node]],
        [cabinet, [made.drum.node, tells]],
        [told, [made.tales.node, made.story.node, made.listing.node, made.scope.node, typewriter, foot]],
        [main, [cabinet, told]],
    ],
    learn: (made, { guide, cabinet, told, pace, typewriter, main }) => [
        [typewriter, [made.paper.node, made.keyboard.node]],
        [guide, [made.lesson.node, made.tasks.node, made.costs.node]],
        [cabinet, [made.plate.node, made.console.node, made.drum.node]],
        [told, [made.scope.node, made.story.node, made.listing.node, typewriter]],
        [pace, [made.time.node, made.pace.node]],
        [main, NARROW.matches ? [cabinet, guide, pace, told] : [guide, cabinet, told, pace, made.projector.node]],
    ],
};

/**
 * What the tabs of Work have, by their names. In the widest window the map stands below the program, and tape and keys below one another;
 * where there are three columns the map comes first, else the program.
 */
function entriesOf(made, boxes, { text }) {
    const entry = (name, ...nodes) => ({ name, title: text(`tab_${name}`), nodes });
    const [map, program] = [entry("map", made.map.node), entry("program", made.listing.node)];
    return {
        told: [
            entry("orders", made.story.node, made.accounts.node),
            entry("time", made.profile.node, made.turns.node),
            entry("lines", made.lines.node),
            entry("script", made.script.node, made.explanation.node, made.noScript),
            entry("registers", made.panel.node),
        ],
        memory: [
            ...(WIDEST.matches ? [program] : WIDE.matches ? [map, program] : [program, map]), entry("costs", made.costs.node),
        ],
        flexo: [entry("keyboard", made.keyboard.node), entry("tape", made.tape.node)],
        paper: [entry("paper", boxes.typewriter)],
        phone: [
            entry("write", made.source.node),
            entry("machine", boxes.cabinet, boxes.toldTabs.node),
            entry("memory", boxes.memoryTabs.node),
            entry("typewriter", boxes.typewriter),
        ],
    };
}

/**
 * The parts of Work. From 1280 pixels on there are three columns, from 1700 on four; below, what was in the third one is under tabs; and on
 * a telephone all is under four.
 */
function workbench(made, boxes, texts) {
    const { left, middle, right, last, cabinet, pace, typewriter, desk, main, toldTabs, memoryTabs, phoneTabs, keysTabs, body } = boxes;
    const { told, memory, paper, phone, flexo } = entriesOf(made, boxes, texts);
    const [widest, wide, narrow] = [WIDEST.matches, WIDE.matches, NARROW.matches];
    keysTabs.set(widest ? [] : flexo);
    toldTabs.set(wide || narrow ? told : [...told, ...memory, ...paper]);
    memoryTabs.set(wide || narrow ? memory : []);
    phoneTabs.set(narrow ? phone : []);
    const thirds = widest ? [[right, [memoryTabs.node, made.map.node]], [last, [typewriter]]] : [[right, [memoryTabs.node, typewriter]]];
    const columns = [[left, [made.source.node]], [middle, [cabinet, toldTabs.node]], ...(wide ? thirds : [])];
    return [
        [typewriter, [made.paper.node, body, made.operated]], [body, widest ? [made.tape.node, made.keyboard.node] : [keysTabs.node]],
        [desk, [made.plate.node, made.scope.node, made.console.node]],
        [cabinet, [made.drum.node, desk]],
        [pace, [made.time.node, made.pace.node]],
        ...(narrow ? [] : columns),
        [main, [...(narrow ? [phoneTabs.node] : columns.map(([column]) => column)), pace, made.sheet.node, made.source.card.node]],
    ];
}

/** The page below its header: what is seen at each door. */
export function makeStage(made, texts) {
    markDoors(made);
    const [all, stand, { text }] = ["look learn work", "learn work", texts];
    const desk = behind(all, box("desk"));
    const body = behind("work", box("flexo-body"));
    const boxes = {
        desk,
        told: behind("look learn", box("telling")),
        guide: behind("learn", box("guide")),
        cabinet: box("cabinet"),
        tells: box("tells"),
        pace: behind(stand, box("pace")),
        foot: made.tales.node.lastElementChild,
        body,
        typewriter: behind(all, box("flexowriter", made.paper, body, made.operated)),
        left: box("pane"),
        middle: box("pane"),
        right: box("pane"),
        last: box("pane"),
        main: h("main"),
        keysTabs: makeTabs("flexo", text("paper")),
        toldTabs: makeTabs("told", text("tabsTold")),
        memoryTabs: makeTabs("memory", text("tabsMemory")),
        phoneTabs: makeTabs("phone", text("tabsPhone")),
    };
    place = () => {
        const { door } = document.body.dataset;
        for (const [node, children] of door === "work" ? workbench(made, boxes, texts) : (ELSEWHERE[door] ?? ELSEWHERE.hall)(made, boxes)) {
            fill(node, children);
        }
        if (document.body.hasAttribute("data-game")) fill(boxes.main, [made.faster.node]);
    };
    place();
    return boxes.main;
}

/**
 * Gives all parts their places for the width of the window and the door. A part that comes into the page by that may have been hidden for
 * another door.
 */
export function arrange() {
    place();
    hideOthers();
}

for (const width of [WIDEST, WIDE, NARROW]) width.addEventListener("change", arrange);
