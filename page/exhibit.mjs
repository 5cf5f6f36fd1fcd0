// The exhibit at the kiosk: a program that plays by itself until somebody touches it, a story of its first orders, an end that asks a
// question, and games; and four buttons in each of these
// states. Nothing here knows of a page.
import { SHOW } from "./drive.mjs";
import { KIOSK_GAMES, asksOf } from "./views/kiosk_game.mjs";

/**
 * The example that a kiosk shows where its address names none, and its game; the seconds without input after which it begins anew; how many
 * orders its story has; how long it rests at the end; and where nothing may move, how long a caption stands.
 */
export const KIOSK = {
    example: "message", game: "games/matches", idleSeconds: 90, orders: 8, restMilliseconds: 3500, captionMilliseconds: 8000,
};

/** What a kiosk can offer, in the order of its buttons. */
export const OFFERS = ["story", "faster", "matches"];

/** What the buttons say in each state, by the names of their texts; null is none. `has` says whether something is offered. */
const LABELS = {
    attract: (has) => (
        [has("story") ? "kioskBegin" : null, has("faster") ? "kioskFaster" : null, has("matches") ? "kioskMatches" : null, "kioskLanguage"]
    ),
    story: (has, isLast) => ["captionBack", isLast ? "kioskToEnd" : "captionNext", "kioskOnceMore", "kioskToStart"],
    show: (has) => ["kioskOnceMore", "kioskToEnd", has("matches") ? "kioskMatches" : has("faster") ? "kioskFaster" : null, "kioskToStart"],
    end: (has) => ["kioskOnceMore", has("faster") ? "kioskFaster" : null, has("matches") ? "kioskMatches" : null, "kioskLanguage"],
    matches: () => ["kioskTake1", "kioskTake2", "kioskTake3", "kioskToStart"],
};

/**
 * A program, its machine, and who is at it. What is done by buttons and what is done by itself come one after another. Dispatches `change`.
 */
export class Exhibit extends EventTarget {
    /** The state, by its name; how many orders of the story were done, and how many captions were shown where nothing may move. */
    state = "attract";
    at = 0;
    captions = 0;
    /** Whether a program is being opened: until that is done the machine is as it was left. */
    isOpening = false;
    /** The name of the program of the story. */
    name;

    #laboratory;
    #drive;
    #settings;
    #asked;
    #offers;
    #round = 0;
    #tail = Promise.resolve();
    #isBegun = false;
    #printing = new Map();

    /**
     * `asked` is the example that is wanted, or null. `settings` has `scriptOf`, which gives an example's text or undefined, `isStill`,
     * which says whether nothing may move, `sleep`, `language`, which changes it,
     * `offers`, the names of what is offered, or null for all that there is, and `views`: what the page opens beside the machine, by the
     * name of its offer, each with `press`, which is given the number of a button
     * and says whether it goes on, and `labels`, the names of the texts of its buttons; and `home`, which is called in place of the
     * beginning where this was chosen on a screen before it, or null.
     */
    constructor(laboratory, drive, asked, settings) {
        super();
        [
            this.#laboratory, this.#drive, this.#settings, this.#asked,
        ] = [laboratory, drive, { views: {}, language: () => {}, offers: null, home: null, ...settings }, asked];
        const isGame = KIOSK_GAMES.has(asked);
        this.name = asked !== null && !isGame && settings.scriptOf(asked) !== undefined ? asked : KIOSK.example;
        const there = OFFERS.filter((name) => name !== "faster" || "faster" in this.#settings.views);
        this.#offers = isGame ? ["matches"] : there.filter((name) => this.#settings.offers?.includes(name) ?? true);
        if (this.#offers.length === 0) this.#offers = there;
    }

    /** Whether it plays by itself. */
    get isAttract() {
        return this.state === "attract";
    }

    /** The game that is open, or undefined. */
    get game() {
        return this.state === "matches" ? KIOSK_GAMES.get(KIOSK.game) : undefined;
    }

    /** Whether something is offered here. */
    offers(name) {
        return this.#offers.includes(name);
    }

    /** The names of the texts of the four buttons; null where one does nothing here. */
    get labels() {
        const { views } = this.#settings;
        return views[this.state]?.labels ?? LABELS[this.state]((name) => this.offers(name), this.at >= KIOSK.orders);
    }

    /** Ends what plays by itself, and hears no more. */
    end() {
        this.#round += 1;
        this.#drive.halt();
    }

    /** Ends it for good. */
    leave() {
        this.end();
    }

    #do(action) {
        const done = this.#tail.then(action);
        this.#tail = done.catch(() => {});
        return done;
    }

    #change(state) {
        this.end();
        this.state = state;
        this.dispatchEvent(new Event("change"));
    }

    /** What plays by itself while it attracts: the program of the story, or, where that is not offered, the game. */
    get #shown() {
        return this.offers("story") || !this.offers("matches") ? this.name : KIOSK.game;
    }

    /** Opens a program, before its start. An example that is not there is told. */
    async #open(name) {
        const [laboratory, game] = [this.#laboratory, KIOSK_GAMES.get(name)];
        await laboratory.openForShow(name, this.#settings.scriptOf(name));
        this.#isBegun = false;
        this.at = 0;
        laboratory.questionsToo = game === undefined ? [] : asksOf(game, laboratory.labels);
        if (game !== undefined) await laboratory.command(...game.set);
        if (this.#asked !== null && this.#settings.scriptOf(this.#asked) === undefined) {
            await laboratory.tell({ kind: "noKioskExample", detail: this.#asked, shown: this.name });
        }
    }

    /** Opens a program for a show, which passes over what is long without a print where it prints at all: that is tried once. */
    async #openShow(name) {
        this.isOpening = true;
        if (!this.#printing.has(name) && !this.#settings.isStill()) {
            await this.#open(name);
            await this.#start(name);
            this.#printing.set(name, await this.#laboratory.runToPrint(SHOW.most) === true);
        }
        await this.#open(name);
        this.#drive.isSkipping = this.#printing.get(name) ?? false;
        this.isOpening = false;
        this.dispatchEvent(new Event("change"));
    }

    /**
     * Presses Start where the machine stands still. A program that has ended begins anew, since the words after its end are not part of it.
     */
    async #start(name) {
        if (this.#laboratory.way.kind === "start" && this.#isBegun) await this.#open(name);
        if (this.#laboratory.way.kind !== "start") return;
        this.#isBegun = true;
        await this.#laboratory.command("press start");
    }

    /**
     * Opens the program, and then plays it again and again, until somebody takes over. What has to be told first, or a wish for no motion,
     * leaves it standing.
     */
    async attract() {
        if (this.#settings.home !== null) return this.#settings.home();
        this.#change("attract");
        const round = this.#round;
        const isOn = () => this.isAttract && round === this.#round;
        await this.#do(() => (isOn() ? this.#openShow(this.#shown) : undefined));
        if (this.#settings.isStill()) this.#tellOn(isOn);
        else if (this.#laboratory.notice === null) this.#playOn(isOn);
        return undefined;
    }

    async #playOn(isOn) {
        while (isOn()) {
            await this.#do(() => (isOn() ? this.#start(this.#shown) : undefined));
            if (isOn()) await this.#drive.go("show");
            if (isOn()) await this.#settings.sleep(KIOSK.restMilliseconds);
            await this.#do(() => (isOn() ? this.#open(this.#shown) : undefined));
        }
    }

    async #tellOn(isOn) {
        while (isOn()) {
            await this.#settings.sleep(KIOSK.captionMilliseconds);
            this.captions += 1;
            this.dispatchEvent(new Event("change"));
        }
    }

    /** Somebody has touched it beside its buttons: while it plays by itself that is the first of them that does something. */
    takeOver() {
        if (this.isAttract) this.press(1 + this.labels.findIndex((label) => label !== null));
    }

    /** A button was pressed, by its number from 1 on. What is played ends with that. */
    press(number) {
        const { state, labels } = this;
        if (labels[number - 1] === null) return this.#tail;
        const { views } = this.#settings;
        if (state in views) return views[state].press(number) ? this.#tail : this.attract();
        return {
            attract: () => this.#chosen(number), end: () => this.#chosen(number), story: () => this.#turned(number),
            show: () => this.#ended(number), matches: () => this.#moved(number),
        }[state]();
    }

    /** A choice while it attracts, or at the end of the story. */
    #chosen(number) {
        if (number === 4) return this.#settings.language();
        if (number === 3) return this.#play();
        if (number === 1) return this.#begin();
        this.#change("faster");
        return this.#settings.views.faster.open();
    }

    /** Begins the story with its first order. */
    #begin() {
        this.#change("story");
        return this.#do(async () => {
            await this.#open(this.name);
            await this.#next();
        });
    }

    /** The next order of the story, played in slow motion; where nothing may move, its end. Where there is none the story has ended. */
    async #next() {
        const [laboratory, before] = [this.#laboratory, this.#laboratory.history.behind];
        if (!this.#isBegun) await this.#start(this.name);
        if (this.#settings.isStill()) await (laboratory.history.ahead > 0 ? laboratory.forward(1) : laboratory.step(1));
        else await this.#drive.step("tale");
        if (laboratory.history.behind > before) this.at += 1;
        else this.#change("end");
        this.dispatchEvent(new Event("change"));
    }

    /** A press in the story: an order back, the next one or the end, the same again, or the beginning. */
    #turned(number) {
        if (number === 4) return this.attract();
        this.#drive.halt();
        if (number === 2 && this.at >= KIOSK.orders) return this.#show();
        return this.#do(async () => {
            await this.#laboratory.settled();
            if (this.state !== "story") return;
            const back = number === 2 ? 0 : Math.min(1, this.at);
            if (back > 0) await this.#laboratory.back(1);
            this.at -= back;
            if (number !== 1) await this.#next();
            this.dispatchEvent(new Event("change"));
        });
    }

    /** Plays the program to its end, as a show. */
    #show() {
        this.#change("show");
        const round = this.#round;
        return this.#do(async () => {
            await this.#laboratory.settled();
            if (round !== this.#round) return;
            this.#drive.go("show").then(() => { if (round === this.#round && this.state === "show") this.#change("end"); });
        });
    }

    /** A press in the show: the story once more, to its end at once, a game, or to the beginning. */
    #ended(number) {
        if (number === 4) return this.attract();
        if (number === 1) return this.#begin();
        if (number === 3) return this.#chosen(this.offers("matches") ? 3 : 2);
        this.#change("end");
        return this.#do(async () => {
            await this.#laboratory.settled();
            if (this.#laboratory.way.kind === "go" && this.state === "end") await this.#drive.go("fast");
        });
    }

    /** Begins the game. */
    #play() {
        this.#change("matches");
        return this.#do(async () => {
            await this.#open(KIOSK.game);
            await this.#hurry();
        });
    }

    /** A move of the visitor's; where it is not the visitor's turn, the machine hurries up to there. */
    #moved(number) {
        if (number === 4) return this.attract();
        return this.#do(async () => {
            if (this.#drive.pace === null) await this.#laboratory.settled();
            if (this.state !== "matches") return undefined;
            if (this.#laboratory.way.kind !== "keys") return this.#hurry();
            this.#drive.halt();
            await this.#laboratory.command(this.game.moves[number - 1]);
            if (this.#drive.pace === null && this.#laboratory.way.kind === "go") this.#drive.go("own");
            return undefined;
        });
    }

    async #hurry() {
        await this.#start(KIOSK.game);
        this.#drive.go("fast");
    }
}
