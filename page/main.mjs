// Puts the page together: the machines, their views, what the address asks for, and what is kept.
import { Controller } from "./controller.mjs";
import { Drafts } from "./drafts.mjs";
import { Drive } from "./drive.mjs";
import { withRemarks } from "./examples.mjs";
import { Exhibit, KIOSK } from "./exhibit.mjs";
import { exhibitIn } from "./exhibits.mjs";
import { linkOf, unopened } from "./files.mjs";
import { HandTurning } from "./hand_turning.mjs";
import { Keeper, Sources, Works, shareTasks, takeOver } from "./keeper.mjs";
import { Checker } from "./language.mjs";
import { LESSONS, setUpFor } from "./lesson_steps.mjs";
import { headOf, linesIn, setUp, withoutQuestions } from "./lines.mjs";
import { Link } from "./link.mjs";
import manifest from "../libraries/javascript/package.json";
import { addressOf, askedIn, inLanguage, projected } from "./opening.mjs";
import { movedSource, timesOf } from "./placing.mjs";
import { PLACING_GAMES } from "./placing_game.mjs";
import { Pieces } from "./pieces.mjs";
import { Player, markAt } from "./player.mjs";
import { Choice, Running } from "./running.mjs";
import { isWorkFile, ordersIn, sentOf, workInFile, workInLink } from "./sending.mjs";
import { Sound, follow } from "./sound.mjs";
import { openStore } from "./store.mjs";
import { makeAccounts, makeTime } from "./views/accounts.mjs";
import { makeCarried } from "./views/carried.mjs";
import { makeConsole, makeKeyboard, makeShownBody } from "./views/console.mjs";
import { makeCosts } from "./views/costs.mjs";
import { button, h, memoized, part, tell } from "./views/dom.mjs";
import { makeAddresses } from "./views/about.mjs";
import { behind, makeDoors, makeHall, makeSkip, showDoor } from "./views/doors.mjs";
import { makeDrum } from "./views/drum.mjs";
import { makeTurner } from "./views/hand.mjs";
import { isLeaving, makeKiosk, refuseOthers, watchIdle } from "./views/kiosk.mjs";
import { makeHeap } from "./views/kiosk_game.mjs";
import { makeLesson, noLesson } from "./views/lesson.mjs";
import { linkToProjector, makeProjector } from "./views/projector.mjs";
import { makeListing } from "./views/listing.mjs";
import { makeMap } from "./views/map.mjs";
import { makeMenu, shutBeside } from "./views/menu.mjs";
import { makeNotices, placeNotices } from "./views/notice.mjs";
import { hearDrops, makeOpen, openFile } from "./views/open_file.mjs";
import { makePace } from "./views/pace.mjs";
import { makePanel } from "./views/panel.mjs";
import { makePaper, makeTape } from "./views/paper.mjs";
import { PlacingGameView } from "./views/placing_game.mjs";
import { makeRunning } from "./views/running.mjs";
import { makeTakeHome, nodesOfSent } from "./views/sending.mjs";
import { makeProfile } from "./views/profile.mjs";
import { makePlate, makeScope } from "./views/scope.mjs";
import { makeThumbs } from "./views/scrolling.mjs";
import { makeSheet } from "./views/sheet.mjs";
import { linksToSheet, showSheet, withDrawings } from "./views/sheets.mjs";
import { makeSource } from "./views/source.mjs";
import { arrange, makeStage } from "./views/stage.mjs";
import { makeStory } from "./views/story.mjs";
import { reveal } from "./views/tabs.mjs";
import { TALES, makeTales, noTale } from "./views/tales.mjs";
import { makeTasks } from "./views/tasks.mjs";
import { makeTurns } from "./views/turns.mjs";
import { listOfWorks, makeOffer, titleOf } from "./views/works.mjs";
import { makeLines, makeScript } from "./views/writing.mjs";
import { LANGUAGES, counted, textsIn } from "./words.mjs";

/** The time between two orders that are played one after another, at most: it passes on the drum as well. */
const CARRIED_MILLISECONDS = 250;
const player = new Player();
const still = matchMedia("(prefers-reduced-motion: reduce)");
const sound = new Sound(() => new AudioContext());
const clocks = { now: () => performance.now(), sleep: (milliseconds) => new Promise((resolve) => setTimeout(resolve, milliseconds)) };
const { port1: hears, port2: says } = new MessageChannel();
hears.start();
/** Ends a task of the browser, so that it can hear what was pressed. A timer would wait for four milliseconds, again and again. */
const turn = () => new Promise((resolve) => {
    hears.addEventListener("message", resolve, { once: true });
    says.postMessage(null);
});
const inlined = (id) => document.getElementById(id).textContent;
/** What the page has of the repository's examples, lessons and tasks, once it was unpacked. */
let [examples, remarks, exampleSources, sheets, drawings, tasks, licences, exhibits] = [new Map(), {}, {}, {}, [], {}, "", new Map()];
const openLink = () => new Link(inlined("worker"), inlined("module"));
const drafts = new Drafts();
const checker = new Checker(openLink);
/** What was torn off of the paper of the work at hand. */
const pieces = new Pieces({ of: () => drafts.of("pieces"), keep: (text) => drafts.keep("pieces", text) });

/** Which work is at hand in this tab of the browser, so that another tab has its own. */
const TAB = "condugwa-work";
/** How long after a change the work is kept at most, and the most orders that are done again when the page is loaded again. */
const [WORK_AFTER, MOST_AGAIN] = [300, 20_000_000];

let asked = askedIn(location);
let texts = textsIn((navigator.language ?? "en").slice(0, 2));
let { isKiosk, door } = asked;
let [views, parts, notices] = [[], {}, null];
/** The machine that is seen, and its drive. */
let [laboratory, drive] = [null, null];
/** The visitor's own laboratory, where it is open. */
let visitors = null;
let exhibit = null;
let picture = { frame: null, views: [], last: 0 };
let endExhibit = () => {};
/** Has the thumbs of what can be scrolled in their places. */
let thumbs = () => {};
let hasShortKeys = true;
let isOperated = false;
let hasTurns = true;
let [keeper, works, sources] = [new Keeper(), null, null];
let keeping = null;
let begunWith = "{}";
/** The work whose machine was set up for a step of a lesson last. */
let setUpHere = null;
/** Whether a work is being opened: what is there meanwhile is not that work. */
let isSettling = false;
/** Ends when the work at hand is there again, after the page was loaded anew: what begins another one waits for that. */
let restored = Promise.resolve();
/** What is done one after another: going through doors, and what begins another laboratory. */
let going = Promise.resolve();
let opening = Promise.resolve();
const [pupil, viewer] = [noLesson(), noTale()];
/** The game that is open at the door Look, or null. */
let game = null;

/** The machines that are open: the visitor's own, and one that the page shows by itself, in the hall and at the kiosk. */
const machines = { own: null, shown: null };

/** Opens a machine, with its drive. */
async function openMachine() {
    const link = openLink();
    const made = new Controller(link);
    await made.open();
    const driven = new Drive(made, player, () => run(made), clocks);
    made.addEventListener("change", () => { if (made === laboratory) show(); });
    driven.addEventListener("change", () => { if (driven === drive) show(); });
    driven.addEventListener("play", () => { if (driven === drive) animate(); });
    return { laboratory: made, drive: driven, link };
}

/** Opens one of the machines, unless it is open. */
function machineOf(name) {
    machines[name] ??= openMachine();
    return machines[name];
}

/** From now on this machine is seen. The one that the page has shown by itself is ended with that. */
async function use(name) {
    drive?.halt();
    const machine = await machineOf(name);
    if (name === "own" && machines.shown !== null) {
        const { link } = await machines.shown;
        machines.shown = null;
        link.end();
    }
    player.end();
    ({ laboratory, drive } = machine);
}

function progressOf({ orders, starts, milliseconds, at, of }) {
    if (of !== undefined) return texts.text("goingTo", { at: counted(at, texts.code), of: counted(of, texts.code) });
    if (starts > 0) return texts.text("startsAgain", { count: counted(starts, texts.code) });
    const speed = Math.round(orders / (milliseconds / 1000));
    return texts.text("running", { orders: counted(orders, texts.code), speed: counted(speed, texts.code) });
}

/** What a run does, or what the last one has done, as long as nothing is done after it. It is read out when the run has ended. */
function showProgress({ progress, lastRun, notice }) {
    const place = document.getElementById("progress");
    const told = isKiosk
        ? null
        : progress
            ?? (notice === null && lastRun !== null && lastRun.orders + lastRun.starts > 0
                ? { ...lastRun, milliseconds: Math.max(1, lastRun.milliseconds) }
                : null);
    place.setAttribute("aria-busy", String(progress !== null));
    place.textContent = told === null ? "" : progressOf(told);
    place.hidden = told === null;
}

function show() {
    const { panel } = laboratory;
    if (notices === null) return;
    notices.show();
    showProgress(laboratory);
    if (panel !== null) for (const view of views) view.show();
    thumbs();
}

/** An example with its comments in the language of the page, where that has them. */
const exampleNamed = (name) => withRemarks(examples.get(name), remarks[texts.code]?.[name] ?? []);

/** The source that stands beside the open example where its script puts words in, in the language of the page; else "". */
const sourceBeside = () => exampleSources[texts.code]?.[laboratory.script?.name] ?? "";

/**
 * Goes on in another language; an example that is open has its comments in that as well. Where a control had the focus, the one of this
 * name has it then.
 */
function goOnIn(code, id) {
    texts = textsIn(code);
    const name = laboratory.script?.name;
    if (examples.has(name)) laboratory.retold(exampleNamed(name));
    if (!isKiosk) {
        keeper.keep("language", code);
        history.replaceState(null, "", inLanguage(code, location));
    }
    layFor(id);
}

/** What the hall shows. */
const HALL_EXAMPLE = "self-modifying";

/**
 * Whether something was done in the work at hand: at the machine, in a field, or in a lesson. What stands in the fields since an earlier
 * one is kept with that.
 */
const isWorth = (own) => (
    own.doings > 0 || JSON.stringify(drafts.all) !== begunWith || pupil.isDone.size > 0 || (works.of(works.id)?.isWorth ?? false)
);

/** The visitor's work as it is now. */
const workOf = (own) => ({
    door: door === "hall" ? "work" : door,
    title: titleOf(own, pupil, sources, texts),
    lines: own.lines.join("\n"),
    later: own.openSource === null ? own.later : [],
    script: own.script,
    performed: own.performed,
    drafts: drafts.all,
    task: sources.open,
    pupil: pupil.lesson === null ? null : { lesson: pupil.lesson.name, at: pupil.at, isDone: [...pupil.isDone] },
});

/** Keeps the work at hand. */
function keepWork() {
    clearTimeout(keeping);
    keeping = null;
    if (works !== null && visitors !== null && !isSettling) works.keep(workOf(visitors), isWorth(visitors));
}

/** Something was done or written: the work is kept soon. */
function noteWork() {
    if (works !== null) keeping ??= setTimeout(keepWork, WORK_AFTER);
}

/** Begins another work, with these texts in its fields. Gives the one before, where that is kept. */
function beginWork(texts) {
    const before = works.begin();
    sessionStorageOf()?.setItem(TAB, works.id);
    drafts.restore(texts);
    pieces.anew();
    begunWith = JSON.stringify(drafts.all);
    return before;
}

/**
 * Does what begins another laboratory; what was written in the one before is kept and offered. Its source stays in its field where that is
 * wanted.
 */
function beginAnother(action, { keepsSource = false, isOffered = true } = {}) {
    opening = opening.then(async () => {
        drive.halt();
        keepWork();
        const { source, carried, ...others } = drafts.all;
        const before = beginWork(keepsSource && source !== undefined ? { ...others, source } : others);
        await action();
        const { notice } = laboratory;
        if (isOffered && before !== null && (notice === null || notice.kind === "before")) {
            await laboratory.tell({ ...notice ?? { kind: "beforeKept" }, work: before.id });
        }
        noteWork();
    });
    return opening;
}

/** Goes back to a work, with all that stood beside its machine. */
async function openWork(work) {
    await restored;
    keepWork();
    isSettling = true;
    works.id = work.id;
    sessionStorageOf()?.setItem(TAB, work.id);
    await goTo(work.door === "look" ? "work" : work.door, false);
    drive.halt();
    standAt(work);
    await laboratory.restore(work);
    isSettling = false;
    lay();
    parts.lesson.goOn();
    tellPlace();
}

/** Has in fields, lesson and task what a work has. */
function standAt(work) {
    drafts.restore(work.drafts);
    const lesson = LESSONS.find(({ name }) => name === work.pupil?.lesson) ?? null;
    Object.assign(pupil, noLesson(), lesson === null ? {} : { lesson, at: work.pupil.at, isDone: new Set(work.pupil.isDone) });
    sources.open = work.task !== null && Object.hasOwn(tasks.tasks, work.task) ? work.task : null;
    Object.assign(viewer, noTale());
    begunWith = JSON.stringify(drafts.all);
}

async function openExample(name) {
    await restored;
    if (door !== "work") await goTo("work", false);
    await beginAnother(() => laboratory.openScript(name, exampleNamed(name)));
    tellPlace();
}

/** Opens what was saved: all its lines are done. */
async function openSaved(name, script) {
    await restored;
    if (door !== "work") await goTo("work", false);
    await beginAnother(() => laboratory.openSaved(name, script));
    tellPlace();
}

/** The texts that an example has in the page's languages, each with its language. */
const editionsOf = (name) => (
    examples.has(name) ? Object.keys(LANGUAGES).map((code) => [code, withRemarks(examples.get(name), remarks[code]?.[name] ?? [])]) : []
);

/** What of a work is sent, and with a task its source. Only Work and Learn are opened so: a story is led to by its own address. */
const sentOfWork = (work) => sentOf(
    {
        ...work,
        door: work.door === "learn" ? "learn" : "work",
        source: work.task === null ? null : sources.of(work.task),
        isPaperUp: work.id === works.id && parts.sheet.isUp,
    },
    editionsOf
);

/** Shows a work to be sent. */
async function share(work) {
    dialog(texts.text("share"), h("p", {}, texts.text("sentHint")), ...await nodesOfSent(sentOfWork(work), texts, location));
}

/**
 * Opens what somebody has sent as another work beside the one at hand; where it cannot be opened, that is told. `go` leads through a door.
 * One that would take long is opened up to its first run.
 */
async function openSent({ work, wrong }, go) {
    if (wrong !== null) return laboratory.tell({ kind: "wrongSent", wrong });
    await restored;
    if (door !== work.door) await go(work.door, false);
    const isLong = ordersIn(work.lines) > MOST_AGAIN;
    await beginAnother(async () => {
        isSettling = true;
        if (work.task !== null && work.source !== null) sources.begin(work.task);
        if (work.task !== null) sources.keep(work.task, work.source);
        standAt(work);
        await (isLong ? laboratory.openScript("#work", work.lines) : laboratory.restore(work));
        isSettling = false;
    });
    lay();
    parts.lesson.goOn();
    parts.sheet.toggle(work.isPaperUp);
    tellOpened();
    return isLong ? laboratory.tell({ kind: "sentLong", most: MOST_AGAIN, work: laboratory.notice?.work }) : undefined;
}

/**
 * What a link has held is open: the address names the place, so that the page when loaded again has the work as it was left, and not once
 * more what was sent.
 */
function tellOpened() {
    history.replaceState(null, "", addressOf(placeNow(), location));
    noteWork();
}

/** A blank machine; the source stays in its field. */
async function openBlank() {
    await restored;
    await beginAnother(() => laboratory.new(), { keepsSource: true });
    tellPlace();
}

/** A folder, or several files, on a task are those of a class; else the first file is opened. */
function openDropped(files, isFolder) {
    const isClass = door === "learn" && sources.open !== null && (isFolder || files.length > 1);
    return isClass ? parts.tasks.checkAll(files, dialog) : openFile(files[0].file, laboratory, openSaved, openObject);
}

/** Opens a file in JSON: a work that was sent, or an exhibit at the kiosk; the address has that in itself then. A wrong one is told. */
async function openObject(text) {
    if (isWorkFile(text)) return openSent(await workInFile(text, editionsOf), goTo);
    const { exhibit: file, wrong } = exhibitIn(text, (name) => examples.has(name));
    if (wrong !== null) return laboratory.tell({ kind: "wrongExhibit", detail: wrong });
    history.pushState(null, "", `${location.search || "?"}#exhibit=${encodeURIComponent(JSON.stringify(file))}`);
    return followAddress();
}

/** Opens an example that the page shows by itself, and sets it going. */
const openShown = (name) => (
    isWorth(laboratory) ? beginAnother(() => setUpFor(laboratory, { opens: name }, exampleNamed)) : setUpShown({ opens: name })
);

function setUpShown(step) {
    opening = opening.then(() => setUpFor(laboratory, step, exampleNamed));
    return opening;
}

/**
 * Sets the machine up for a step of a lesson. One that was set up so before, and at which the pupil has done nothing since, is no work of
 * its own.
 */
async function openForStep(step) {
    await restored;
    drive.halt();
    const isUntouched = works.id === setUpHere && laboratory.doings === 0;
    if (isUntouched) drafts.keep("carried", null);
    await (isWorth(laboratory) && !isUntouched
        ? beginAnother(() => setUpFor(laboratory, step, exampleNamed), { isOffered: false })
        : setUpShown(step));
    setUpHere = works.id;
}

/** Sets the machine up by a script of a task. */
const openForTask = (name, script) => restored.then(() => beginAnother(() => laboratory.openScript(name, script), { isOffered: false }));

/** Loads a source, starts it and runs it; with a fault, or without a source, nothing is run. */
async function runProgram(source) {
    drive.halt();
    if (source.trim() === "") return laboratory.tell({ kind: "noSourceToRun" });
    await laboratory.load(source);
    if (laboratory.notice !== null) return undefined;
    if (laboratory.way.kind === "start") await laboratory.command("press start");
    return drive.go(drive.chosen);
}

/** Where the visitor is, as addresses name it. */
const placeNow = () => ({
    door,
    lesson: door === "learn" ? pupil.lesson?.name : null,
    step: Math.min(pupil.at + 1, pupil.lesson?.steps.length ?? 1),
    task: door === "learn" ? sources.open : null,
    story: door === "look" && viewer.tale !== null ? TALES.indexOf(viewer.tale) + 1 : null,
    caption: viewer.at + 1,
    game: door === "look" ? game : null,
    example: door === "work" && examples.has(laboratory.script?.name) ? laboratory.script.name : null,
});

/** The address says where the visitor is. */
function tellPlace() {
    const [address, before] = [addressOf(placeNow(), location), askedIn(location)];
    if (isKiosk || address === location.search + location.hash) return;
    // an address that has asked for the same in fewer words is written out
    if (before.door === door && isThere(before)) history.replaceState(null, "", address);
    else history.pushState(null, "", address);
    noteWork();
}

/** Goes through a door. The visitor's machine stays as it is. */
function goTo(wanted, isNew = true) {
    going = going.then(() => pass(wanted, isNew));
    return going;
}

async function pass(wanted, isNew) {
    if (isKiosk) return;
    const isOther = (door === "hall") !== (wanted === "hall");
    if (isOther) await use(wanted === "hall" ? "shown" : "own");
    else drive.halt();
    door = wanted;
    if (isOther) layFor(null);
    placeDoor();
    show();
    if (isNew) tellPlace();
    if (isOther && wanted === "hall") await openHall();
    if (isNew && isOther && wanted === "look" && !isWorth(visitors)) beginTales();
}

/**
 * Look begins by itself with its first story, unless one is open, or the game. Who comes from Work or Learn finds the machine as it was
 * there.
 */
function beginTales() {
    if (door === "look" && viewer.tale === null && game === null) parts.tales.openAt(1, null);
}

/** Shows what is seen behind the door, and asks of the machine what is seen there. */
function placeDoor() {
    laboratory.isOnShow = isKiosk || door === "hall" || door === "look";
    laboratory.wantsLast = !isKiosk && door === "work";
    const isPlayed = !isKiosk && door === "look" && game !== null;
    // the game stands in place of what has the notices otherwise
    if (isPlayed) placeNotices(null);
    document.body.toggleAttribute("data-game", isPlayed);
    if (isPlayed) parts.faster.begin(game);
    else parts.faster?.stop();
    for (const name of isKiosk ? ["door", "window"] : ["state"]) delete document.body.dataset[name];
    if (!isKiosk || !(exhibit instanceof Running)) {
        for (const name of ["exhibit", "beside", "orders", "scene", "busy"]) delete document.body.dataset[name];
    }
    if (!isKiosk) { showDoor(door); arrange(); }
    placeNotices(isKiosk || door === "hall" || isPlayed ? null : document.querySelector(".tells"));
}

function dialog(heading, ...children) {
    const node = h("dialog", { "aria-label": heading }, h("h2", {}, heading), ...children, button(texts.text("close"), () => node.close()));
    node.addEventListener("close", () => { node.remove(); thumbs(); });
    document.body.append(node);
    node.showModal();
    thumbs();
}

/** A link under which a script is saved. */
const linkTo = (script) => h(
    "a",
    { href: URL.createObjectURL(new Blob([script], { type: "text/plain" })), download: "laboratory.txt" },
    `${texts.text("save")} laboratory.txt`
);

/** Shows the transcript, without the lines that only ask where the reader does not want them. */
async function save() {
    const { text, code } = texts;
    const whole = await laboratory.transcript();
    if (whole === undefined) return;
    const place = h("pre", { class: "transcript", tabindex: "0", role: "group", "aria-label": text("script") });
    const [below, address] = [h("p", { role: "status" }), h("p")];
    const show = () => {
        const script = wanted.checked ? whole : withoutQuestions(whole, laboratory.questions);
        place.textContent = script;
        below.replaceChildren(
            linkTo(script), ` ${text("lineCount", { count: counted(script === "" ? 0 : linesIn(script).length, code) })}`
        );
        const link = linkOf(script, location);
        address.replaceChildren(...(link === null ? [text("noLink")] : [h("a", { href: link, id: "link" }, text("linkThat"))]));
    };
    const wanted = h("input", { type: "checkbox", id: "with-questions", onchange: show });
    show();
    dialog(
        text("save"), h("p", {}, text("saveHint")), place, h("p", {}, h("label", {}, wanted, ` ${text("withQuestions")}`)), below, address
    );
}

function about() {
    const wanted = h("input", {
        type: "checkbox", id: "short-keys", checked: hasShortKeys, onchange: () => { hasShortKeys = wanted.checked; },
    });
    const ours = h(
        "details",
        { id: "notices-of-all" },
        h("summary", {}, texts.text("licences")),
        h("pre", { class: "transcript", lang: "en", tabindex: "0", role: "group", "aria-label": texts.text("licences") }, licences)
    );
    dialog(
        texts.text("about"),
        ...texts.table.aboutText.map((paragraph) => h("p", {}, paragraph)),
        ours,
        h("p", {}, texts.text("version", manifest)),
        ...makeAddresses(manifest, texts),
        h("p", {}, h("label", {}, wanted, ` ${texts.text("shortKeys")}`))
    );
}

/** What is played, as long as it leads to where the machine stands; in slow motion up to the next order. */
function playing() {
    const at = player.at();
    if (at === null || at.account !== laboratory.accounts.at(-1) || at.account.clock + BigInt(at.account.sum) !== laboratory.panel.clock) {
        return null;
    }
    return at.done && !["slow", "tale", "show"].includes(drive.pace) ? null : at;
}

/** The order that is played, as long as it has not done what it does. */
function held() {
    const at = playing();
    return at === null || at.done ? null : at.account;
}

/** The order under way, of which list, pins, register, hub and caption speak alike. */
const markNow = () => markAt({ played: playing(), last: laboratory.lastTold, panel: laboratory.panel });

/** Draws what moves picture by picture, as long as an order is played. When it has ended, what it has done is shown. */
function animate() {
    const next = (now) => {
        picture.last = now - player.tick(Math.max(0, now - picture.last));
        const at = playing();
        for (const view of picture.views) view.frame();
        picture.frame = at === null || at.done || at.isHeld ? null : requestAnimationFrame(next);
        if (picture.frame === null) { show(); drive.played(); }
    };
    if (picture.frame !== null) return;
    if (performance.now() - picture.last > CARRIED_MILLISECONDS) picture.last = performance.now();
    picture.frame = requestAnimationFrame(next);
}

/** A run, by `operate` where that is switched on and the switch is seen. */
const run = (machine) => (isOperated && door === "work" && !isKiosk ? machine.operate() : machine.run());

/** The switch of the runs by `operate`. */
function makeOperated() {
    const { text } = texts;
    const wanted = h("input", {
        type: "checkbox",
        id: "operated",
        checked: isOperated,
        "aria-describedby": "operated-hint",
        onchange: () => { isOperated = wanted.checked; },
    });
    return h(
        "p",
        { class: "operated" },
        h("label", {}, wanted, ` ${text("operated")}`),
        " ",
        h("small", { id: "operated-hint" }, text("operatedHint"))
    );
}

/** The switch of the sound. */
function makeSoundSwitch() {
    const control = button(texts.text("sound"), () => {
        sound.switchTo(!sound.isOn);
        control.setAttribute("aria-pressed", String(sound.isOn));
        show();
    }, { id: "sound", title: texts.text("soundHint"), "aria-pressed": String(sound.isOn) });
    return control;
}

/**
 * The menu at the top, and the name of the work. It names the example that is open in Work; one that the hall, a story or a lesson shows is
 * not named, so that it can be chosen.
 */
function makeBar() {
    const { text } = texts;
    const choice = h(
        "select",
        { id: "example", "aria-label": text("openExample"), onchange: () => examples.has(choice.value) && openExample(choice.value) },
        h("option", { value: "" }, `${text("examples")}: ${text("chooseExample")}`),
        ...[...examples.keys()].map((name) => h("option", { value: name }, `${name}: ${headOf(exampleNamed(name)).title}`))
    );
    const language = h("select", { id: "language", "aria-label": "Language, Sprache", onchange: () => goOnIn(language.value, "language") },
        ...Object.entries(LANGUAGES).map(([code, table]) => h("option", { value: code, selected: code === texts.code }, table.language)));
    const name = h("p", { class: "work-name" });
    const begins = [
        behind("work", button(text("new"), openBlank, { id: "new", title: text("newHint") })),
        behind("work", makeOpen(texts, openDropped)),
        behind("work", button(text("save"), save, { title: text("saveHint"), id: "save" })),
        behind(
            "learn work",
            button(text("share"), () => share({ ...workOf(visitors), id: works.id }), { title: text("shareHint"), id: "share" })
        ),
        behind("learn work", button(text("works"), showWorks, { id: "works", title: text("worksHint") }))
    ];
    const menu = makeMenu(
        texts,
        [
            begins,
            [choice],
            [makeSoundSwitch(), button(text("kiosk"), openKiosk, { id: "kiosk" }), language],
            [button(text("about"), about, { id: "about" })],
        ],
        ["sound", "language"]
    );
    const show = () => {
        choice.value = placeNow().example ?? "";
        tell(name, ["learn", "work"].includes(door) ? titleOf(laboratory, pupil, sources, texts) : "");
    };
    return { name, menu, show };
}

/** The list of the last works. */
function showWorks() {
    keepWork();
    const list = listOfWorks(
        works,
        texts,
        (work) => { list.closest("dialog").close(); openWork(work); },
        (work) => { list.closest("dialog").close(); share(work); }
    );
    dialog(texts.text("works"), list);
}

function makeExplanation() {
    const { text } = texts;
    const place = h("div", { class: "explanation-text" });
    const node = part("explanation", text("explanation"), place);
    const showIt = () => {
        node.hidden = laboratory.script === null;
        if (laboratory.script !== null) {
            place.replaceChildren(...headOf(laboratory.script.lines.join("\n")).paragraphs.map((paragraph) => h("p", {}, paragraph)));
        }
    };
    return { node, show: showIt };
}

/**
 * What the views ask: what is played, what it has not done yet, whether the drum turns too fast to be read, the pace, whether nothing may
 * move, and whether the costs of a word are seen.
 */
const showing = {
    playing,
    held,
    markNow,
    isFast: () => drive.pace === "own" || drive.pace === "fast" || (isKiosk && (exhibit?.isFast ?? false)),
    pace: () => (isKiosk && exhibit?.pace === 1 ? "own" : drive.pace),
    isStill: () => still.matches,
    isAttract: () => exhibit?.isAttract ?? false,
    hasCosts: () => ["learn", "work"].includes(door),
};

/** The links to a lesson's sheet; its form is what a printer gets. */
const sheetOf = (name) => withDrawings((sheets[texts.code] ?? sheets.en)[name], drawings);
const sheetsOf = (name) => [
    ...linksToSheet(sheetOf(name), texts),
    ...(name === "where-a-word-costs-least" ? [" ", linkToRace()] : []),
    " ",
    linkToProjector(texts, project),
];
const linkToRace = () => h(
    "a",
    { id: "race", href: addressOf({ game: "race" }, location), onclick: (event) => { event.preventDefault(); openRace(); } },
    texts.text("race")
);

/** Whether a lesson is seen as a projector shows it, which the address says. */
const isProjected = () => !isKiosk && placeNow().lesson != null && askedIn(location).isProjected;

function project(isOn) {
    history.pushState(null, "", projected(isOn, location));
    show();
    document.getElementById(isOn ? "step-next" : "to-projector").focus();
}

/** Asks for the costs of a word, and chooses the tab that tells them. */
function showCosts(address) {
    reveal(parts.costs.node);
    return laboratory.askCosts(address);
}

/** What of the paper is in the machine. A machine that nothing was done with has an empty one, of which nothing was torn off. */
function restOfPaper(text, typed) {
    if (text === "" && laboratory === visitors && laboratory.lines.length === 0 && !isSettling) pieces.anew();
    return laboratory === visitors ? pieces.rest(text, typed) : { text, typed };
}

/** Prints a page alone; what a printer got before it gets again after that. */
function printPage(page) {
    showSheet(page);
    const name = pupil.lesson?.name;
    addEventListener("afterprint", () => showSheet(name === undefined ? null : sheetOf(name)), { once: true });
    globalThis.print();
}

/** All parts but the header, and the element that holds them in the order in which they are seen. */
function makeWork() {
    const open = { sources, openLink, checker, setUp: openForTask, run: () => drive.go(drive.chosen) };
    const madeTasks = makeTasks(texts, tasks, open);
    const source = makeSource(laboratory, texts, drafts, {
        runIt: runProgram, checker, told: () => show(), markNow, stop: () => drive.halt(), given: sourceBeside,
    });
    const time = makeTime(laboratory, texts, showing, () => drive.halt());
    const turns = makeTurns(laboratory, texts, hasTurns, (isOpen) => { hasTurns = isOpen; });
    const made = {
        hall: makeHall(texts, goTo, drive),
        tales: makeTales(laboratory, texts, drive, {
            open: openShown,
            viewer,
            told: toldOfTale,
            others: [gameButton(false)],
            after: { name: texts.text("faster"), open: () => openGame("faster") },
        }),
        faster: makeGame(),
        lesson: makeLesson(laboratory, texts, {
            open: openForStep, pupil, tasks: madeTasks, drafts, told: toldOfLesson, sheets: sheetsOf, isSeen: () => door === "learn",
        }),
        tasks: madeTasks,
        drum: makeDrum(laboratory, texts, showing),
        plate: makePlate(laboratory, texts),
        scope: makeScope(laboratory, texts, showing),
        panel: makePanel(laboratory, texts),
        console: makeConsole(laboratory, texts),
        paper: makePaper(laboratory, texts, showing, restOfPaper),
        sheet: makeSheet(laboratory, texts, pieces, {
            print: printPage, changed: show, goToRow: (returns) => { drive.halt(); return laboratory.goToRow(returns); },
        }),
        tape: makeTape(laboratory, texts, drafts, showing),
        keyboard: makeKeyboard(laboratory, texts, showing),
        pace: makePace(laboratory, texts, drive, {
            run: source.run, when: time.when, faults: () => (door === "work" ? source.faults() : null),
        }),
        time,
        operated: makeOperated(),
        story: makeStory(laboratory, texts, showing),
        accounts: makeAccounts(laboratory, texts, showing, (account) => parts.story.why(account)),
        listing: makeListing(laboratory, texts, showing, drafts),
        costs: makeCosts(laboratory, texts),
        map: makeMap(laboratory, texts, showing, showCosts),
        explanation: makeExplanation(),
        noScript: h("p", { class: "no-script" }, texts.text("noScript")),
        projector: makeProjector(texts, isProjected, project),
        script: makeScript(laboratory, texts),
        source,
        lines: makeLines(laboratory, texts, drafts),
        profile: makeProfile(laboratory, texts, drafts), turns,
    };
    const turning = turningOf();
    made.turner = makeTurner(made.drum.box, texts, turning, made.hall.byHand);
    made.carried = makeCarried(laboratory, texts, made.drum, turning, drafts, writeMoved, () => reveal(parts.costs?.node));
    made.costs.node.append(made.carried.node);
    parts = made;
    return { node: makeStage(made, texts), made: Object.values(made).filter(({ show }) => show !== undefined) };
}

/**
 * Writes into the source that words are at other sectors, runs that as long as it ran before, and tells whether it took what was foretold.
 */
async function writeMoved(placing, orders, nameOf) {
    const [source, foretold] = [drafts.of("source") ?? laboratory.source, placing.times];
    const words = placing.moved.map((address) => ({ address, sector: placing.sectorOf(address), word: nameOf(address) }));
    if (source === "" || laboratory.loaded !== source) return laboratory.tell({ kind: "notMoved", wrong: "notLoadedNow" });
    const hasFocus = document.activeElement.id === "write-moved";
    const { accounts } = await laboratory.askPlacing([]);
    const { text, places, ...wrong } = accounts.length === 0 ? { wrong: "tooLong" } : await movedSource(checker, source, accounts, words);
    if (text === undefined) return laboratory.tell({ kind: "notMoved", ...wrong });
    drafts.keep("carried", null);
    parts.source.rewrite(text);
    await laboratory.load(text);
    if (laboratory.way.kind === "start") await laboratory.command("press start");
    await laboratory.run(orders);
    const again = await laboratory.askPlacing([]);
    await showCosts(places[0].place);
    // its part was hidden as long as there were no costs
    if (hasFocus) document.getElementById("write-moved").focus();
    return laboratory.tell({
        kind: "moved",
        words: places,
        foretold,
        took: timesOf(again.accounts),
        waited: { now: again.accounts[0].find, before: accounts[0].find },
    });
}

/** The hand at the drum of the machine that is seen. */
function turningOf() {
    const turning = new HandTurning(laboratory, player, drive);
    turning.addEventListener("turn", () => { for (const view of picture.views) view.frame(); });
    turning.addEventListener("rest", show);
    goOnInHall(turning);
    return turning;
}

/** How long after a hand has let the hall's drum go it goes on, in milliseconds. */
const HALL_AFTER = 4000;

/** In the hall the drum goes on by itself a while after a hand has taken it, where it was going before. */
function goOnInHall(turning) {
    let [wasGoing, timer] = [false, null];
    turning.addEventListener("take", () => { wasGoing ||= drive.pace !== null; });
    turning.addEventListener("rest", () => {
        clearTimeout(timer);
        timer = setTimeout(() => {
            const isWanted = wasGoing && door === "hall" && !isKiosk && drive.pace === null;
            wasGoing = false;
            if (isWanted) drive.go("slow");
        }, HALL_AFTER);
    });
}

/** What the program of a game takes, asked once of a laboratory that has nothing else to do; null where it could not be run. */
const askGame = memoized(({ example, words }) => openGameMachine(example, words));

async function openGameMachine(example, words) {
    const link = openLink();
    const machine = new Controller(link);
    await machine.open();
    await setUpFor(machine, { opens: example }, exampleNamed);
    await machine.run();
    const told = machine.notice === null ? await machine.askPlacing(words) : null;
    link.end();
    return told === null ? null : { ...told, track: machine.track };
}

const gameButton = (isPressed) => (
    button(texts.text("faster"), () => openGame("faster"), { "data-game-to": "faster", "aria-pressed": String(isPressed) })
);

/** The game, with the buttons that lead to the stories. */
function makeGame() {
    const { text, table } = texts;
    const stories = TALES.map((tale, place) => button(table.tales[tale.name].title, () => parts.tales.openAt(place + 1, null)));
    const lesson = button(text("backToLesson"), () => goTo("learn"), { id: "back-to-lesson" });
    const others = (name) => (name === "race" ? [lesson] : [...stories, gameButton(true)]);
    const keptMoves = { of: () => keeper.of("game"), keep: (moves) => keeper.keep("game", moves) };
    return new PlacingGameView(texts, {
        ask: (program) => askGame(program.name, program),
        kept: keptMoves,
        isStill: () => still.matches,
        seconds: asked.seconds ?? 120,
        others,
    });
}

/** Has a game in place of the stories, or, where that is null, these. */
function turnToGame(wanted) {
    drive.halt();
    game = wanted;
    if (wanted !== null) parts.tales.leave();
    placeDoor();
    show();
}

function openGame(name) {
    turnToGame(name);
    tellPlace();
}

/** The race of the lesson about places. */
async function openRace() {
    await goTo("look", false);
    openGame("race");
}

/** Another caption is reached: the address says so, and the game is left. */
function toldOfTale() {
    if (game !== null) turnToGame(null);
    tellPlace();
}

/** Another step or task is reached: its address says so, and a printer gets its sheet. */
function toldOfLesson() {
    tellPlace();
    noteWork();
    const name = pupil.lesson?.name;
    showSheet(name === undefined ? null : sheetOf(name));
}

/**
 * What the kiosk opens beside its machine, by the names of its offers: each has its `node`, `open`, `press`, which is given the number of a
 * button and says whether it goes on, and `labels`, the names of its buttons' texts.
 */
const kioskViews = { faster: null };

/** A program that runs at the kiosk: drum and typewriter. */
function makeRunningExhibit() {
    const { pieces: torn } = exhibit;
    const made = {
        drum: makeDrum(laboratory, texts, showing),
        paper: makePaper(laboratory, texts, showing, (text, typed) => torn.rest(text, typed)),
        deck: makeShownBody(laboratory, texts, showing),
    };
    for (const node of [made.drum.node, made.paper.node]) node.querySelector("h2").classList.add("unseen");
    return makeRunning(laboratory, texts, exhibit, made, makeOthers(), markNow);
}

/** What is at the kiosk, to be taken home: as far as it has come, or else its program before the start. */
function worksToTake() {
    const { script, lines } = laboratory;
    const [name, work] = [
        script?.name ?? null, { door: "work", script, drafts: {}, task: null, source: null, pupil: null, isPaperUp: false },
    ];
    return {
        sent: [lines, lines.slice(0, setUp(lines, true))].map((all) => sentOf({ ...work, lines: all.join("\n") }, editionsOf)),
        name: examples.has(name) ? name : null,
    };
}

/** The small controls of the kiosk, and what they open. */
function makeOthers() {
    parts.takeHome = makeTakeHome(texts, worksToTake, location);
    return [makeSoundSwitch(), parts.takeHome.control, parts.takeHome.node];
}

function makeExhibit() {
    kioskViews.faster = null;
    if (exhibit instanceof Running) return makeRunningExhibit();
    const made = {
        drum: makeDrum(laboratory, texts, showing),
        scope: makeScope(laboratory, texts, showing),
        heap: makeHeap(laboratory, texts),
        paper: makePaper(laboratory, texts, showing),
        deck: makeShownBody(laboratory, texts, showing),
    };
    for (const node of [made.drum.node, made.paper.node]) node.querySelector("h2").classList.add("unseen");
    kioskViews.faster = new PlacingGameView(texts, {
        ask: (program) => askGame(program.name, program),
        kept: { of: () => null, keep: () => {} },
        isStill: () => still.matches,
        seconds: Infinity,
        others: () => [],
    });
    if (exhibit.state === "faster") kioskViews.faster.open();
    return makeKiosk(laboratory, texts, { ...showing, drive }, exhibit, made, makeOthers(), kioskViews);
}

function makePage() {
    const { text } = texts;
    const top = makeBar();
    const heading = h(
        "header",
        {},
        behind("look learn work", makeSkip(texts)),
        h("h1", {}, text("title")),
        h("p", { class: "subtitle" }, text("subtitle")),
        top.name,
        makeDoors(texts, goTo),
        top.menu.control,
        top.menu.list
    );
    const { node, made } = makeWork();
    return { nodes: [heading, node], views: [top, ...made] };
}

/** Makes all that is seen. Gives what puts it in place. */
function makeAll() {
    document.documentElement.lang = texts.code;
    document.title = texts.text("documentTitle");
    const made = isKiosk ? makeExhibit() : makePage();
    return () => place(made);
}

/** Puts what was made in its place. */
function place(made) {
    document.body.className = isKiosk ? "kiosk" : "";
    placeNotices(null);
    const actions = {
        run: () => drive.go(isKiosk ? "fast" : drive.chosen),
        save,
        anew: () => (isKiosk ? exhibit.attract() : openBlank()),
        linkTo: (lines) => linkTo(withoutQuestions(lines, laboratory.questions)),
        goBack: (id) => openWork(works.of(id)),
    };
    notices = makeNotices(laboratory, texts, isKiosk, actions);
    views = [...made.views, follow(laboratory, sound, showing)];
    picture.views = views.filter(({ frame }) => frame !== undefined);
    document.getElementById("page").replaceChildren(...made.nodes);
    placeDoor();
}

function lay() {
    makeAll()();
    show();
}

/** Lays the page when it is opened, and lets the browser do something else in between. */
async function layInTurns() {
    const placed = makeAll();
    await turn();
    placed();
    document.body.dataset.laying = "true";
    notices.show();
    for (const view of [...views]) {
        await turn();
        view.show();
    }
    delete document.body.dataset.laying;
}

/** Lays the page anew. Where a control had the focus, the one of this name has it then, or the door. */
function layFor(id) {
    const hadFocus = document.activeElement !== document.body;
    lay();
    if (hadFocus) {
        [
            document.getElementById(id), document.querySelector(".menu"), document.querySelector(".doors [aria-current]"),
        ].find((it) => it?.checkVisibility())?.focus();
    }
}

/** What an exhibit needs of the page. `home` leads back to the screen on which it was chosen. */
const kioskSettings = (home = null) => (
    {
        scriptOf: (name) => (examples.has(name) ? exampleNamed(name) : undefined),
        isStill: () => still.matches,
        ...clocks,
        home,
        language: () => goOnIn(texts.code === "de" ? "en" : "de", "kiosk-4"),
    }
);

/** The story of an example, with its games. */
const storyOf = (name, offers, home = null) => new Exhibit(laboratory, drive, name, { ...kioskSettings(home), offers, views: kioskViews });

/** What is offered at the kiosk after its exhibits, each with the button of its story that begins it. */
const OTHERS = [
    { name: "story", label: "kioskStory", press: 1 },
    { name: "faster", label: "kioskFaster", press: 2 },
    { name: "matches", label: "kioskMatches", press: 3 },
    { name: "language", label: "kioskLanguage" },
];

/** The screen on which an exhibit is chosen. */
const choiceOfAll = () => new Choice(laboratory, drive, { files: exhibits, others: OTHERS, open: openChosen }, kioskSettings());

/**
 * What the address asks the kiosk for: an exhibit that it has in itself, one of the page's, the story of an example, or, where it names
 * none, the screen on which one is chosen.
 */
function exhibitAsked() {
    const { exhibit: file, example, offers } = asked;
    const own = file === null ? null : exhibitIn(file, (name) => examples.has(name));
    if (own?.wrong === null) return new Running(laboratory, drive, own.exhibit, kioskSettings());
    if (exhibits.has(example)) return new Running(laboratory, drive, exhibits.get(example), kioskSettings());
    return example === null && offers === null ? choiceOfAll() : storyOf(example, offers);
}

/** From now on this is at the kiosk. */
function turnKioskTo(made) {
    exhibit?.leave();
    exhibit = made;
    exhibit.addEventListener("change", show);
    layFor("kiosk-1");
}

/** Opens what was chosen; from its end it leads back to the choice. */
function openChosen(name) {
    if (name === "language") return kioskSettings().language();
    const home = () => { turnKioskTo(choiceOfAll()); return exhibit.attract(); };
    turnKioskTo(
        exhibits.has(name)
            ? new Running(laboratory, drive, exhibits.get(name), kioskSettings(home))
            : storyOf(name === "story" ? HALL_EXAMPLE : KIOSK.example, null, home)
    );
    return exhibit.press(OTHERS.find((other) => other.name === name)?.press ?? 1);
}

/** Begins the exhibit, which plays by itself until somebody takes over. */
async function beginExhibit() {
    await use("shown");
    turnKioskTo(exhibitAsked());
    const own = texts;
    const endWatch = watchIdle(
        asked.idleSeconds ?? KIOSK.idleSeconds,
        () => { if (!exhibit.isAttract || texts !== own) returnToBeginning(own); },
        ({ type, target }) => { if (type === "click" && target.closest("button") === null) exhibit.takeOver(); }
    );
    const endRefusing = refuseOthers();
    endExhibit = () => { endWatch(); endRefusing(); exhibit.leave(); exhibit = null; endExhibit = () => {}; };
    const wrong = asked.exhibit === null ? null : exhibitIn(asked.exhibit, (name) => examples.has(name)).wrong;
    // what is wrong stands until somebody presses a button: what plays would take it away
    await (wrong === null ? exhibit.attract() : laboratory.tell({ kind: "wrongExhibit", detail: wrong }));
}

/** Nobody has touched the kiosk for a while: it is as it was for the first visitor, in its own language and without sound. */
function returnToBeginning(own) {
    texts = own;
    if (sound.isOn) sound.switchTo(false);
    lay();
    exhibit.attract();
}

/** The kiosk of the example that is open, with a machine of its own. The address says so. */
function openKiosk() {
    const { example } = placeNow();
    history.pushState(null, "", addressOf({ kiosk: example ?? "" }, location));
    return followAddress();
}

/** Leaves the kiosk: the visitor's work is as it was. */
async function leaveKiosk() {
    endExhibit();
    // a page that was opened as a kiosk has nothing else
    if (works === null) return location.reload();
    isKiosk = false;
    texts = textsIn(asked.language ?? keeper.of("language") ?? texts.code);
    await use(door === "hall" ? "shown" : "own");
    layFor("kiosk");
    return door === "hall" ? openHall() : undefined;
}

/** Does what a key does anywhere in Work. Whether it does something. */
function onWorkKey(event) {
    const { card, run } = parts.source;
    const { sheet } = parts;
    const name = [event.ctrlKey ? "Ctrl" : "", event.shiftKey ? "Shift" : "", event.key].filter((part) => part !== "").join(" ");
    const action = {
        F1: card.toggle,
        "Ctrl Enter": () => run.click(),
        F10: () => drive.step(),
        "Shift F10": () => laboratory.back(1),
        F4: () => sheet.toggle(),
        ...(sheet.isUp ? { Escape: () => sheet.escape() }
            : card.isOpen() ? { Escape: card.close }
            : drive.pace === null ? {}
            : { Escape: () => drive.halt() }),
    }[name];
    if (action === undefined || event.defaultPrevented || event.target.closest("dialog") !== null) return false;
    event.preventDefault();
    action();
    return true;
}

function onKey(event) {
    if (isKiosk) {
        const number = Number(event.key);
        if (isLeaving(event)) { history.replaceState(null, "", addressOf(placeNow(), location)); followAddress(); }
        else if (parts.takeHome?.isOpen()) { if (number >= 1 && number <= 4) parts.takeHome.shut(); }
        else if (number >= 1 && number <= 4 && !event.repeat) exhibit?.press(number);
        return;
    }
    if (event.key === "Escape" && laboratory.progress?.of !== undefined) return drive.halt();
    if (placeNow().game !== null || parts.projector.onKey(event)) return;
    if (door === "work" && hasShortKeys && onWorkKey(event)) return;
    if (event.target.closest("input, .CodeMirror, select, dialog") || event.ctrlKey || event.altKey || event.metaKey) return;
    const go = (pace) => () => { drive.chosen = pace; drive.go(pace); };
    const [order, fast] = [go("order"), go("fast")];
    const action = {
        s: () => drive.step(), w: order, r: fast, h: () => drive.halt(), "[": () => laboratory.back(1), "]": () => laboratory.forward(1),
        1: order, 2: go("slow"), 3: go("own"), 4: fast,
    }[event.key];
    if (action !== undefined && hasShortKeys) action();
}

/** In the hall the drum turns, until it is stopped; where no motion is wanted it stands. */
async function openHall() {
    await setUpShown({ opens: HALL_EXAMPLE });
    if (!still.matches && door === "hall" && !isKiosk) drive.go("slow");
}

/** What of the address names nothing, as a notice; null where all is there. */
function wrongIn({ lesson, task, story, game, example, script }) {
    if (lesson !== null && !LESSONS.some(({ name }) => name === lesson)) return { kind: "noLesson", detail: lesson };
    if (task !== null && !parts.tasks.has(task)) return { kind: "noTask", detail: task, tasks: Object.keys(tasks.tasks) };
    if (story !== null && TALES[story - 1] === undefined) return { kind: "noStory", detail: story };
    if (game !== null && !PLACING_GAMES.has(game)) return { kind: "noGame", detail: game };
    const wrong = script === null ? null : unopened(script, (command) => laboratory.knows(command));
    if (wrong !== null) return { kind: "wrongSent", wrong: wrong === "fileTooLong" ? "tooLong" : "broken" };
    return script === null && example !== null && !examples.has(example) ? { kind: "noExample", detail: example } : null;
}

/** Opens what the address asks for behind its door. What it names and is not there is told. */
function openAsked() {
    if (asked.work !== null) return workInLink(asked.work, editionsOf).then((sent) => openSent(sent, pass));
    const wrong = wrongIn(asked);
    if (wrong !== null) return laboratory.tell(wrong);
    if (asked.lesson !== null || asked.task !== null) return parts.lesson.openAt(asked);
    if (asked.story !== null) return parts.tales.openAt(asked.story, asked.caption);
    if (asked.game !== null) return openGame(asked.game);
    if (asked.script !== null) return beginAnother(() => laboratory.openScript("#script", asked.script)).then(tellOpened);
    if (asked.example === null) return door === "hall" ? openHall() : beginTales();
    return beginAnother(() => laboratory.openScript(asked.example, exampleNamed(asked.example)));
}

/** Whether what the address asks for is there already. */
function isThere({ lesson, step, task, story, caption, game, script, work, example }) {
    const now = placeNow();
    if (game !== now.game) return false;
    if (story !== null) return now.story === story && now.caption === (caption ?? 1);
    if (lesson !== null) return now.lesson === lesson && now.step === (step ?? 1);
    return script === null
        && work === null
        && (now.task ?? null) === task
        && (now.lesson ?? null) === null
        && (example ?? null) === (now.example ?? null);
}

/** The address has changed: Back, Forward, or a link. The page goes there. */
function followAddress() {
    going = going.then(goWhereAsked);
    return going;
}

async function goWhereAsked() {
    const before = isKiosk;
    asked = askedIn(location);
    if (asked.isKiosk) {
        keepWork();
        endExhibit();
        isKiosk = true;
        return beginExhibit();
    }
    if (before) await leaveKiosk();
    if (asked.door !== door) await pass(asked.door, false);
    parts.projector?.show();
    if (door === "hall" || isThere(asked)) return undefined;
    // a door alone, without what was open behind it, leaves that as it is
    if (game !== null && asked.game === null) turnToGame(null);
    const isDoorAlone = ["lesson", "task", "story", "game", "script", "work", "example"].every((name) => asked[name] === null);
    return isDoorAlone ? undefined : openAsked();
}

const sessionStorageOf = () => {
    try {
        return sessionStorage;
    } catch {
        return null;
    }
};

/** Opens what is kept, and has the work at hand as it was where the page is loaded again. Gives that, or null. */
async function openKept() {
    const store = await openStore({ database: () => indexedDB, storage: () => localStorage });
    keeper = new Keeper(store);
    const tab = sessionStorageOf();
    const isAgain = ["reload", "back_forward"].includes(performance.getEntriesByType("navigation")[0]?.type);
    works = new Works(keeper, isAgain ? tab?.getItem(TAB) ?? null : null);
    sources = new Sources(keeper);
    for (const [name, value] of store.replaced) sources.replaced(name, value);
    if (typeof BroadcastChannel === "function") shareTasks(new BroadcastChannel("condugwa"), keeper, sources);
    takeOver(() => localStorage, keeper, works);
    tab?.setItem(TAB, works.id);
    return isAgain ? works.of(works.id) : null;
}

/** Goes on with a work where the page was loaded again, or with what the address asks for. A work that would take long is offered. */
async function goOnWith(work, isThereAgain) {
    if (work === null) return openAsked();
    isSettling = true;
    standAt(work);
    sources.open = asked.task ?? null;
    const isLong = work.performed > MOST_AGAIN;
    if (isLong) works.begin();
    else await visitors.restore(work);
    isSettling = false;
    isThereAgain();
    await layInTurns();
    if (isLong) offer(work);
    if (door === "hall") return openHall();
    return wrongIn(asked) === null
        && (isThere(asked) || asked.door === "work" && asked.example === null && asked.script === null && asked.work === null)
        ? parts.lesson.goOn()
        : openAsked();
}

/** Offers a work that is kept. */
const offer = (work) => makeOffer(work, texts, { open: openWork, forget: (id) => works.forget(id) });

/** Unpacks what the page has of the repository; lessons have their texts from their documents. */
function openTexts() {
    // the last text, after which what unpacks is given up
    const [packed] = globalThis.packedTexts;
    const { lessons, exhibits: files, ...kept } = JSON.parse(packed.replaceAll("\n", "\\n"));
    exhibits = new Map(Object.entries(files));
    ({ remarks, sources: exampleSources, sheets, drawings, tasks, licences } = kept);
    examples = new Map(Object.entries(kept.examples));
    for (const [code, named] of Object.entries(lessons)) LANGUAGES[code].lessons = named;
}

async function begin() {
    await turn();
    // the machines open beside what follows, and what goes wrong is told where they are used
    const shown = isKiosk || door === "hall" ? ["shown"] : [];
    for (const name of isKiosk ? shown : [...shown, "own"]) machineOf(name).catch(() => {});
    openTexts();
    await turn();
    if (!isKiosk) await openKept().then((work) => beginWith(work));
    else await beginWith(null);
    document.documentElement.dataset.ready = "true";
}

async function beginWith(work) {
    texts = textsIn(asked.language ?? keeper.of("language") ?? texts.code);
    await use(isKiosk || door === "hall" ? "shown" : "own");
    if (laboratory.panel === null) return globalThis.tellLacking(laboratory.notice.detail);
    hear();
    if (isKiosk) return beginExhibit();
    ({ laboratory: visitors } = await machineOf("own"));
    visitors.addEventListener("change", noteWork);
    visitors.addEventListener("left", ({ lines }) => {
        const work = workOf(visitors);
        works.keepBeside({ ...work, title: texts.text("laterPart", work), lines: lines.join("\n"), later: [] });
    });
    drafts.addEventListener("change", noteWork);
    const last = work === null ? works.all()[0] : undefined;
    isSettling = work !== null;
    let isThereAgain = () => {};
    if (work !== null) restored = new Promise((resolve) => { isThereAgain = resolve; });
    await layInTurns();
    if (last !== undefined) offer(last);
    if (!keeper.isKept) await laboratory.tell({ kind: "notKept" });
    return goOnWith(work, isThereAgain);
}

/** What the page hears. */
function hear() {
    thumbs = makeThumbs();
    still.addEventListener("change", () => { player.isStill = still.matches; });
    player.isStill = still.matches;
    hearDrops(() => !isKiosk, openDropped);
    shutBeside();
    addEventListener("keydown", onKey);
    addEventListener("popstate", followAddress);
    for (const kind of ["pagehide", "visibilitychange"]) addEventListener(kind, () => { keepWork(); keeper.leave(); });
    document.addEventListener("visibilitychange", () => sound.hide(document.hidden));
}

globalThis.laboratoryOfPage = () => laboratory;
if (document.getElementById("lacking").hidden) begin();
