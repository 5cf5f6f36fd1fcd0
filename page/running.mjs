// An exhibit of the kiosk that runs a program: it goes through the scenes of its file, does at the machine what they say, and tells what
// they tell when the machine has come to it. What it shows of the machine are replies
// asked now; a row that a caption waits for is looked for on the paper. Nothing here knows of a page.
import { WORD_TIME } from "./drive.mjs";
import { FIRST, scriptOfProgram } from "./exhibits.mjs";
import { signedOf } from "../libraries/javascript/replies.mjs";
import { Pieces, rowsOf, typedAgain } from "./pieces.mjs";

/**
 * How long a caption stands at least before the next one; how long each stands of those that take turns; how long a scene rests before the
 * next one; how often orders are asked for at a pace; and for how long a bit of a sum is seen. All in milliseconds.
 */
const [STANDS, TURNS, RESTS, PICTURE, BIT] = [5000, 9000, 3500, 100, 500];
/**
 * The orders of a portion where a row is waited for, and where nothing is; the word times that one is thought to take at first; the most
 * orders of one run; and how many are done before the machine is seen again.
 */
const [PORTION, LARGE, AVERAGE, MOST_ORDERS, AT_ONCE] = [100, 20_000, 75, 5_000_000, 1500];
/** How many orders may pass until a sum is in its place. */
const TO_SUM = 40;

/**
 * The pictures of a sum that is made bit by bit, from the last place on: each has its places of the sum up to there, and of the word before
 * it all others; `at` is the place, counted from the last one.
 */
export function picturesOf(before, after) {
    const changed = ((signedOf(before) ^ signedOf(after)) >>> 0).toString(2);
    const [first, end] = [changed.length - 1 - changed.lastIndexOf("1"), changed.length];
    const ones = (places) => 2 ** places - 1;
    const mixed = (places) => ((signedOf(after) & ones(places)) | (signedOf(before) & ~ones(places))) >>> 0;
    return before === after
        ? []
        : Array.from({ length: end - first }, (unused, place) => ({ value: mixed(first + place + 1), at: first + place }));
}

/** The goal of a run: how many orders at most may pass before it is looked for, and what looks whether it is there. */
function goalOf(to, laboratory, isPrinted, addressOf) {
    const began = laboratory.performed;
    if (to.row !== undefined) return { size: PORTION, isThere: () => isPrinted(to.row) };
    if (to.orders !== undefined) return { size: Math.min(to.orders, PORTION), isThere: () => laboratory.performed - began >= to.orders };
    if (to.place === undefined) return { size: LARGE, isThere: () => false };
    let [passes, last] = [0, laboratory.panel.clock];
    const count = ({ counter, clock }) => {
        passes += clock !== last && counter === addressOf(to.place) ? 1 : 0;
        last = clock;
    };
    return { size: 1, isThere: () => { count(laboratory.panel); return passes >= (to.times ?? 1); } };
}

/** An exhibit, its scene, and who is at it. Dispatches `change`. */
export class Running extends EventTarget {
    /**
     * The file; the scene by its name; what is told now; the answer to a bet, as the number of its button; and whether something is done.
     */
    exhibit;
    scene = FIRST;
    told = null;
    bet = null;
    isBusy = false;
    isHalted = false;
    /** Whether the paper was torn off in this scene: its rows are told after that alone. */
    isTorn = false;
    /**
     * The pace of the run under way, `fast`, `slow` or how many times faster than the machine, or null; and the word times that were passed
     * over at once in this scene.
     */
    pace = null;
    passedOver = 0;
    /** A sum that is made bit by bit, or null: its words before and after, its pictures, and how many of them are seen. */
    bits = null;
    /** What was torn off of the paper. */
    pieces;
    /** The name of the text that says what a touch does while it plays by itself. */
    hint = "kioskTouch";

    #laboratory;
    #drive;
    #settings;
    #round = 0;
    #tail = Promise.resolve();
    #opened = Promise.resolve();
    #isHurried = false;
    #isOpening = false;
    #since = 0;
    #seen = new Set();
    #counts = new Map();
    #waiting = [];
    #telling = null;
    #begun = { clock: 0n, at: 0 };
    #lastCounter = null;
    #hears = () => this.#look();

    /**
     * `settings` has `scriptOf`, which gives an example's text, `isStill`, `sleep` and `now`, `language`, which changes it, `chance`, a
     * whole number below another one, and `home`, which is called in place of the first scene where the exhibit was chosen on a screen
     * before it; or null.
     */
    constructor(laboratory, drive, exhibit, settings) {
        super();
        [this.#laboratory, this.#drive, this.exhibit] = [laboratory, drive, exhibit];
        this.#settings = { home: null, language: () => {}, chance: (below) => Math.floor(Math.random() * below), ...settings };
        let kept;
        this.pieces = new Pieces({ of: () => kept, keep: (text) => { kept = text; } });
        laboratory.questionsToo = [];
        laboratory.addEventListener("change", this.#hears);
    }

    /** The state for what shows a kiosk. */
    get state() {
        return this.isAttract ? "attract" : "running";
    }

    get isAttract() {
        return this.scene === FIRST;
    }

    get #scene() {
        return this.exhibit.scenes[this.scene];
    }

    /** Whether the paper is torn off in this scene. */
    get #tears() {
        return (this.#scene.do ?? []).some(({ tear }) => tear === true);
    }

    /** Whether the machine goes too fast for single orders to be seen. */
    get isFast() {
        return this.isBusy && this.pace !== null && this.pace !== "slow";
    }

    /** What stands beside the paper. */
    get beside() {
        return this.#scene.beside ?? null;
    }

    /** What the four buttons say: a text in each language, the name of a text of the page, or null. */
    get labels() {
        const names = { start: "kioskToStart", language: "kioskLanguage", halt: this.isHalted ? "goOn" : "halt" };
        return Array.from({ length: 4 }, (unused, place) => this.#scene.buttons[place] ?? null).map(
            (it) => (typeof it === "string" ? names[it] : it?.text ?? null)
        );
    }

    /** The number of the button that stands out, or null. */
    get main() {
        const place = this.#scene.buttons.findIndex((it) => it?.main === true);
        return place < 0 ? null : place + 1;
    }

    /** The word times of the machine since the first order of its program, and the milliseconds that have passed here since then. */
    get clocks() {
        return { machine: Number(this.#laboratory.panel.clock - this.#begun.clock), here: this.#settings.now() - this.#begun.at };
    }

    /** What of the paper is in the machine. */
    get paper() {
        return this.pieces.rest(this.#laboratory.printed.text, this.#laboratory.history.typed);
    }

    /** The captions of the scene that have come about. */
    get come() {
        return this.#scene.captions.filter((caption, at) => this.#isPlain(caption) || this.#seen.has(at));
    }

    /** What offers things beside this exhibit asks: nothing is. */
    offers() {
        return false;
    }

    /** Ends what plays by itself, and hears no more. */
    end() {
        this.#round += 1;
        this.isHalted = false;
        this.#isHurried = true;
        this.#drive.halt();
        this.#laboratory.stop();
    }

    /** Ends it for good. */
    leave() {
        this.end();
        this.#laboratory.removeEventListener("change", this.#hears);
    }

    #do(action) {
        const done = this.#tail.then(action);
        this.#tail = done.catch(() => {});
        return done;
    }

    #change() {
        this.dispatchEvent(new Event("change"));
    }

    /** Begins anew, or goes back to the screen on which the exhibit was chosen. Ends when its program is open. */
    attract() {
        if (this.#settings.home !== null) return this.#settings.home();
        this.enter(FIRST);
        return this.#opened;
    }

    /** Somebody has touched it beside its buttons: while it plays by itself that is the first of them. */
    takeOver() {
        return this.isAttract ? this.press(1) : undefined;
    }

    /** A button was pressed, by its number from 1 on. */
    press(number) {
        const wanted = this.#scene.buttons[number - 1] ?? null;
        if (wanted === null) return this.#tail;
        if (wanted === "start") return this.attract();
        if (wanted === "language") return this.#settings.language();
        if (wanted === "halt") return this.#halt();
        if (wanted.bits !== undefined) return this.#turnBits(wanted.bits);
        if (wanted.to === undefined) return this.#perform(wanted.do);
        return this.enter(wanted.to, wanted.bet === true ? number : this.bet, wanted.do);
    }

    /** Halts the run, or goes on with it. */
    #halt() {
        this.isHalted = this.isBusy && !this.isHalted;
        if (this.isHalted) this.#drive.halt();
        this.#change();
    }

    /** What a button does at the machine; while something else is still done, that goes to its end at once. */
    #perform(actions) {
        this.isHalted = false;
        if (this.isBusy) {
            this.#isHurried = true;
            this.#drive.halt();
            return this.#tail;
        }
        const round = this.#round;
        [this.isBusy, this.#isHurried] = [true, false];
        return this.#do(() => this.#all(actions, () => round === this.#round));
    }

    /** Goes to a scene, and does first what the button does that has led there. */
    enter(scene, bet = null, first = []) {
        this.end();
        const round = this.#round;
        const isOn = () => round === this.#round;
        // what follows the first scene begins with its program anew, unless it has one of its own
        const { [FIRST]: { program: given }, [scene]: { program = this.isAttract ? given : undefined, beside } } = this.exhibit.scenes;
        Object.assign(this, { scene, bet, told: null, bits: null, passedOver: 0, isBusy: true, isTorn: false });
        [this.#isOpening, this.#isHurried] = [true, false];
        [this.#waiting, this.#telling] = [[], null];
        // what another program was asked says nothing of this one
        if (program !== undefined) this.#laboratory.questionsToo = [];
        this.#change();
        this.#opened = this.#do(async () => {
            await this.#laboratory.settled();
            if (isOn()) await this.#open(program, beside);
        });
        return this.#do(async () => {
            if (isOn()) await this.#all([...first, ...this.#scene.do ?? []], isOn, true);
            if (isOn()) this.#goOn(isOn);
        });
    }

    /** After a scene: the first one is played again and again. */
    async #goOn(isOn) {
        const next = this.#scene.then ?? (this.isAttract ? FIRST : null);
        if (next === null) return;
        await this.#settings.sleep(RESTS);
        if (!isOn()) return;
        if (next === FIRST) this.again();
        else this.enter(next, this.bet);
    }

    /** The first scene has ended: it begins anew. */
    again() {
        return this.attract();
    }

    /** Opens the program of a scene, where it has one, and asks for what stands beside the paper. */
    async #open(program, beside = {}) {
        const [laboratory, { scriptOf, now }] = [this.#laboratory, this.#settings];
        if (program !== undefined) {
            await laboratory.openForShow(typeof program === "string" ? program : "#exhibit", scriptOfProgram(program, scriptOf));
            this.#begun = { clock: laboratory.panel.clock, at: now() };
            this.#lastCounter = null;
            this.pieces.anew();
        }
        const { bits, orders, words, count } = beside;
        laboratory.questionsToo = [
            ...(bits === undefined ? [] : [`words ${this.#addressOf(bits)} 1`]),
            ...(orders === undefined ? [] : [`words ${this.#addressOf(orders)} ${count}`]),
            ...(words === undefined ? [] : [`show ${this.#addressOf(words)} ${count}`]),
        ];
        await laboratory.settled();
    }

    /** The address of a label of the source, or an address as it is. */
    #addressOf(place) {
        return /^\d{4}$/.test(place) ? place : [...this.#laboratory.labels].find(([, names]) => names.includes(place))?.[0] ?? "0000";
    }

    /** Does actions one after another. What is told by then is told anew. */
    async #all(actions, isOn, isFirst = false) {
        [this.isBusy, this.#isOpening] = [true, false];
        this.#since = this.#laboratory.printed.text.length;
        this.#seen.clear();
        this.#counts.clear();
        [this.#waiting, this.#telling] = [[], null];
        this.#change();
        this.#tellTurns(isOn, isFirst);
        for (const action of actions) if (isOn()) await this.#act(action, isOn);
        if (!isOn()) return;
        Object.assign(this, { isBusy: false, pace: null });
        this.#look();
        this.#change();
    }

    async #act({ press, type, again, after, mount, tear, run, to, carry, rest }, isOn) {
        const laboratory = this.#laboratory;
        if (press !== undefined) await laboratory.command(`press ${press}`);
        else if (type !== undefined) await laboratory.command(`type ${type.replaceAll("#", () => String(this.#settings.chance(10)))}`);
        else if (again !== undefined) await this.#again(again, after, isOn);
        else if (mount !== undefined) await laboratory.command(`mount ${mount}`);
        else if (tear !== undefined) this.#tear();
        else if (rest !== undefined) await this.#rest(1000 * rest, isOn);
        else if (carry !== undefined) await this.#carry(isOn);
        else await this.#run(run, to ?? "stop", isOn);
    }

    async #rest(milliseconds, isOn) {
        for (let left = milliseconds; left > 0 && isOn() && !this.#isHurried; left -= PICTURE) await this.#settings.sleep(PICTURE);
    }

    #tear() {
        const { printed, history } = this.#laboratory;
        this.pieces.tear(printed.text, history.typed, "");
        this.#since = printed.text.length;
        this.isTorn = true;
        [this.#waiting, this.#telling] = [[], null];
        this.#seen.clear();
        this.#look();
        this.#change();
    }

    /**
     * Types the numbers of a printed row again, each with what comes after it; after each the machine runs until it waits for the next one.
     */
    async #again(row, after, isOn) {
        const laboratory = this.#laboratory;
        const all = rowsOf(laboratory.printed.text, []);
        const found = all.find(({ text }) => text.trimStart().startsWith(row));
        const numbers = found === undefined ? [] : typedAgain(found).map((keys) => keys.slice(0, -1));
        for (const [place, number] of numbers.entries()) {
            if (!isOn()) return;
            await laboratory.command(`type ${number}${after}`);
            if (place < numbers.length - 1) await this.#run(1, "keys", isOn);
        }
    }

    /** Whether a row was printed since the last action of the visitor: its line is whole, or the machine does not go on with it. */
    #isPrinted(row) {
        const { printed: { text }, way } = this.#laboratory;
        let end = 0;
        const lines = text.split("\n");
        return lines.some((line, place) => {
            end += line.length + 1;
            const isWhole = place < lines.length - 1 || way.kind !== "go";
            return isWhole && end > this.#since && line.trimStart().startsWith(row);
        });
    }

    // Runs.

    async #run(pace, to, isOn) {
        const laboratory = this.#laboratory;
        const goal = goalOf(to, laboratory, (row) => this.#isPrinted(row), (place) => this.#addressOf(place));
        this.pace = pace;
        this.#change();
        while (isOn() && laboratory.way.kind === "go" && !goal.isThere()) {
            if (this.isHalted) await this.#settings.sleep(PICTURE);
            else if (pace === "fast" || this.#isHurried) await this.#fast(goal, isOn);
            else if (pace === "slow") await this.#slow();
            else await this.#paced(pace, goal, isOn);
        }
        if (isOn()) this.#change();
    }

    /** At once. */
    async #fast(goal, isOn) {
        const { laboratory, clock } = { laboratory: this.#laboratory, clock: this.#laboratory.panel.clock };
        this.pace = "fast";
        this.#change();
        if (goal.size === 1) await laboratory.step(1, false);
        else await laboratory.runUntil(goal.isThere, goal.size, MOST_ORDERS);
        if (isOn()) this.passedOver += Number(laboratory.panel.clock - clock);
    }

    /** Order by order, each to be seen. */
    async #slow() {
        await this.#drive.go("slow", 1);
    }

    /** So many times faster than the machine: as many orders as there are word times due, again and again. */
    async #paced(times, goal, isOn) {
        const [laboratory, { now, sleep }] = [this.#laboratory, this.#settings];
        const [began, clock] = [now(), laboratory.panel.clock];
        let average = AVERAGE;
        while (isOn() && !this.#isHurried && !this.isHalted && laboratory.way.kind === "go") {
            const due = ((now() - began) * times) / WORD_TIME - Number(laboratory.panel.clock - clock);
            if (due <= 0) { await sleep(PICTURE); continue; }
            const [before, performed] = [laboratory.panel.clock, laboratory.performed];
            const orders = goal.size === 1 ? 1 : Math.max(1, Math.min(AT_ONCE, Math.round(due / average)));
            await laboratory.runUntil(goal.isThere, Math.min(goal.size, PORTION, orders), orders);
            if (laboratory.performed === performed) return;
            average = Number(laboratory.panel.clock - before) / (laboratory.performed - performed);
            if (goal.isThere()) return;
        }
    }

    /** Waits until the word beside has become another one, and shows the sum bit by bit. */
    async #carry(isOn) {
        const laboratory = this.#laboratory;
        const read = () => laboratory.answers[0]?.trim().split(" ")[1] ?? "00000000";
        const before = read();
        for (let left = TO_SUM; left > 0 && isOn() && read() === before && laboratory.way.kind === "go"; left -= 1) {
            await laboratory.step(1, false);
        }
        if (!isOn()) return;
        this.bits = { before, after: read(), pictures: picturesOf(before, read()), seen: 0, isByHand: false };
        while (isOn() && this.bits.seen < this.bits.pictures.length) {
            this.#change();
            await this.#rest(BIT, isOn);
            if (!isOn() || this.isHalted) continue;
            if (this.#isHurried) this.bits.seen = this.bits.pictures.length;
            else if (!this.bits.isByHand) this.bits.seen += 1;
        }
    }

    /** A bit of the sum on or back, or all of it. */
    #turnBits(by) {
        if (this.bits === null) return;
        const most = this.bits.pictures.length;
        this.bits.seen = by === "all" ? most : Math.max(0, Math.min(most, this.bits.seen + by));
        this.bits.isByHand = true;
        this.#change();
    }

    // What is told.

    /** The captions that hold at any moment take turns, as long as nothing else is told. */
    async #tellTurns(isOn, isFirst) {
        const all = this.#scene.captions.filter((caption) => this.#isPlain(caption));
        if (all.length === 0 || (!isFirst && this.told !== null)) return;
        this.told = all[0];
        this.#change();
        for (let place = 1; all.length > 1; place += 1) {
            await this.#settings.sleep(TURNS);
            if (!isOn() || !this.#isPlain(this.told ?? {})) return;
            this.told = all[place % all.length];
            this.#change();
        }
    }

    #isPlain({ row, place, order, when, bet }) {
        return [row, place, order, when].every((it) => it === undefined) && (bet === undefined || bet === this.bet);
    }

    /** Whether what a caption waits for is there now. */
    #holds({ row, place, times = 1, order, when, bet }, at) {
        const { way, lastTold } = this.#laboratory;
        if (bet !== undefined && bet !== this.bet) return false;
        if (row !== undefined) return this.isTorn === this.#tears && this.#isPrinted(row);
        if (when === "torn") return this.isTorn;
        if (place !== undefined) return (this.#counts.get(at) ?? 0) >= times;
        if (order !== undefined) return lastTold?.order.startsWith(order) ?? false;
        return when === "done" ? !this.isBusy : when === "keys" ? way.kind === "keys" : when === "stop" && way.kind === "start";
    }

    /** Looks whether something came about that has to be told. */
    #look() {
        const { panel } = this.#laboratory;
        if (panel === null || this.#isOpening) return;
        const isElsewhere = `${panel.counter} ${panel.clock}` !== this.#lastCounter;
        this.#lastCounter = `${panel.counter} ${panel.clock}`;
        for (const [at, caption] of this.#scene.captions.entries()) {
            if (isElsewhere && caption.place !== undefined && this.#addressOf(caption.place) === panel.counter) {
                this.#counts.set(at, (this.#counts.get(at) ?? 0) + 1);
            }
            if (this.#isPlain(caption) || this.#seen.has(at) || !this.#holds(caption, at)) continue;
            this.#seen.add(at);
            this.#waiting.push(caption);
        }
        if (this.#waiting.length > 0 && this.#telling === null) this.#tellOn();
    }

    /** Tells what has come about, one after another, each for a while; until something else is to be told. */
    async #tellOn() {
        const mine = {};
        this.#telling = mine;
        while (this.#waiting.length > 0 && this.#telling === mine) {
            this.told = this.#waiting.shift();
            this.#change();
            for (let left = STANDS; left > 0 && this.#telling === mine; left -= PICTURE) await this.#settings.sleep(PICTURE);
        }
        if (this.#telling === mine) this.#telling = null;
    }
}

/**
 * The screen on which an exhibit is chosen: the first scenes of all play one after another, and buttons lead to them, a page of them after
 * another.
 */
export class Choice extends Running {
    #files;
    hint = "kioskChoose";
    #page = 0;
    #entries;
    #open;

    /**
     * `files` are the exhibits by their names; `others` are offered after them, each its name and what its button says; and `open` opens
     * one by its name.
     */
    constructor(laboratory, drive, { files, others, open }, settings) {
        super(laboratory, drive, [...files.values()][0], settings);
        [this.#files, this.#open] = [[...files.values()], open];
        this.#entries = [...[...files].map(([name, { title }]) => ({ name, label: title })), ...others];
    }

    get labels() {
        const first = PER_PAGE * this.#page;
        const all = this.#entries.slice(first, first + PER_PAGE).map(({ label }) => label);
        return [...all, ...Array(PER_PAGE - all.length).fill(null), "kioskMore"];
    }

    get main() {
        return null;
    }

    get beside() {
        return null;
    }

    /** Begins with the first page. */
    attract() {
        this.#page = 0;
        return super.attract();
    }

    press(number) {
        const { name } = this.#entries[PER_PAGE * this.#page + number - 1] ?? {};
        if (number <= PER_PAGE) return name === undefined ? undefined : this.#open(name);
        this.#page = (this.#page + 1) % Math.ceil(this.#entries.length / PER_PAGE);
        return this.dispatchEvent(new Event("change"));
    }

    /** A touch opens what is seen. */
    takeOver() {
        return this.#open(this.#entries[this.#files.indexOf(this.exhibit)].name);
    }

    /** The next exhibit's first scene. */
    again() {
        this.exhibit = this.#files[(this.#files.indexOf(this.exhibit) + 1) % this.#files.length];
        return this.enter(FIRST);
    }
}

/** How many exhibits have a button at once; the last button leads to the others. */
const PER_PAGE = 3;
