// Make it faster: a game of two minutes with the drum. A loop goes round, and its words are carried to sectors where the machine waits
// less. What a placing costs are sums of the monitor's
// numbers; the line on the drum and the bars are drawn only where their sum is that.
import { SECTORS, inTwoDigits, sectorOf } from "../addresses.mjs";
import { positionOf, sectorAt } from "../machine.mjs";
import { timesOf } from "../placing.mjs";
import { PLACING_GAMES, PlacingGame } from "../placing_game.mjs";
import { counted, turnsOf } from "../words.mjs";
import { button, guarded, h, refill, s, showLive, tell } from "./dom.mjs";
import { PEN, makeKey, makePicture, passed } from "./drum.mjs";
import { makeGrips } from "./hand.mjs";
import { makeBar } from "./story.mjs";

/**
 * How many word times of a round that is watched pass in a second; without motion, how long each order is seen; and how far the line of a
 * round reaches inward.
 */
const [SPEED, PICTURE_MILLISECONDS, LINE] = [64, 1200, 100];

/** A number of word times saved, in words. */
export const savedText = (saved, texts) => (
    saved === 0 ? texts.text("asAtFirst") : texts.text(saved > 0 ? "turnsLess" : "turnsMore", { turns: turnsOf(Math.abs(saved), texts) })
);

/** What the words at the top say. */
function leadOf(game, texts) {
    const { text, code } = texts;
    const { placing, picked } = game;
    const saved = placing.saved(picked);
    const values = {
        word: game.nameOf(picked),
        turns: turnsOf(Math.abs(saved), texts),
        from: counted(placing.took, code),
        to: counted(placing.times, code),
        round: turnsOf(timesOf(game.round.map(({ account }) => account)), texts),
    };
    if (game.isShown) return text("fasterShown", values);
    if (game.isWon) {
        return text(
            placing.words.length === 1 ? "fasterWonOne" : "fasterWon",
            { ...values, turns: turnsOf(placing.took - placing.times, texts), count: placing.words.length }
        );
    }
    if (game.isWhy) return text("fasterWhy", values);
    if (placing.moved.length === 0) return text("fasterBegin", values);
    if (saved > 0) return text(placing.isBest(picked) ? "fasterGood" : "fasterSome", values);
    const miss = game.missOf(picked);
    return `${text(saved < 0 ? "fasterWorse" : "fasterBad", values)}${miss === null ? "" : ` ${missText(miss, texts)}`}`;
}

/** By how much a word misses an order. */
const missText = (miss, { text }) => text(
    miss.isEarly ? "missEarly" : "missLate", { ...miss, places: text(miss.places === 1 ? "onePlace" : "manyPlaces", { n: miss.places }) }
);

/**
 * All that the words at the top may say of a program, with its longest name and numbers: they take as much room as the longest of these, in
 * any font, so nothing moves when they change.
 */
function longestLeads(game, texts) {
    const { text, code } = texts;
    const { took, words: { length: count } } = game.placing;
    const [word] = game.program.words.map((address) => game.nameOf(address)).sort((one, other) => other.length - one.length);
    const values = {
        word,
        count,
        turns: turnsOf(took, texts),
        from: counted(took, code),
        to: counted(took, code),
        round: turnsOf(timesOf(game.round.map(({ account }) => account)), texts),
    };
    const misses = [true, false].map((isEarly) => missText({ isEarly, at: "0000", letter: "m", places: SECTORS }, texts));
    return [
        ...[
            "fasterBegin", "fasterGood", "fasterSome", "fasterWhy", "fasterShown", count === 1 ? "fasterWonOne" : "fasterWon",
        ].map((name) => text(name, values)),
        ...misses.map((miss) => `${text("fasterWorse", values)} ${miss}`),
    ];
}

/** The number that counts, and how far it is from the least. */
function makeScore(texts) {
    const { text, code } = texts;
    const [big, less, unit, fill, flag, first] = [h("div", { class: "big" }), h("b"), h("span"), h("i"), h("b"), h("span")];
    const goal = h("div", { class: "goal", "aria-hidden": "true" }, h("div", { class: "goal-line" }, fill), flag, first);
    const show = ({ took, times, least }) => {
        const low = least - 0.3 * (took - least);
        const share = (number) => `${Math.max(0, Math.min(100, (100 * (number - low)) / (took - low))).toFixed(1)}%`;
        tell(big, counted(times, code));
        tell(less, times === took ? "" : savedText(took - times, texts));
        less.classList.toggle("loss", times > took);
        tell(unit, text("wholeRun", { turns: turnsOf(times, texts) }));
        fill.style.width = share(times);
        flag.style.left = share(least);
        tell(flag, text("bestPossible", { times: counted(least, code) }));
        tell(first, counted(took, code));
    };
    return { node: h("div", { class: "score" }, big, h("p", {}, less, unit), goal), show };
}

/** The words that can be moved: where each is, and what that saves. A press takes it in hand. */
function makeWords(game, texts, focus) {
    const node = h("div", { class: "movable", role: "group", "aria-label": texts.text("movable") });
    let rows = [];
    const put = () => {
        rows = game.program.words.map((address) => {
            const [users, where, saved] = [h("span", { class: "users" }), h("span"), h("em")];
            const control = button("", () => focus(address), { "data-name": address });
            control.append(h("b", {}, game.nameOf(address)), h("small", {}, users, where), saved);
            return { address, control, users, where, saved };
        });
        node.replaceChildren(...rows.map(({ control }) => control));
    };
    const usersOf = (address) => game.round
        .map(({ account }) => account)
        .filter(({ word }) => word === address)
        .map(({ at, order }) => `${order[0]} ${texts.text("atPlace", { at })}`)
        .join(", ");
    const show = () => {
        const { placing, picked } = game;
        for (const { address, control, users, where, saved } of rows) {
            control.setAttribute("aria-pressed", String(address === picked));
            tell(users, texts.text("usedBy", { orders: usersOf(address) }));
            tell(where, texts.text("nowIn", { sector: inTwoDigits(placing.sectorOf(address)) }));
            const gained = placing.saved(address);
            saved.classList.toggle("loss", gained < 0);
            tell(saved, gained === 0 ? "–" : `${savedText(gained, texts)}${placing.isBest(address) ? " ✓" : ""}`);
        }
    };
    return { node, put, show };
}

/** The orders of a round, each with its bar, its word times, and how many fewer or more these are than at first. */
function makeRound(game, { text }) {
    const body = h("tbody");
    const signed = (more) => (more === 0 ? "" : more < 0 ? `−${-more}` : `+${more}`);
    const rowOf = ({ account, before }, most) => {
        const { word } = account;
        const bar = makeBar(account);
        bar.show(Infinity);
        const name = word === null ? account.order : `${account.order.slice(0, account.order.indexOf(" "))} ${game.nameOf(word)}`;
        return h(
            "tr",
            { class: word === game.picked ? "uses" : null, "data-at": account.at },
            h("th", { scope: "row" }, account.at),
            h("td", {}, name),
            h(
                "td",
                {},
                h("div", { class: "account-bar", style: `--times: ${account.sum}; --most: ${most}`, "aria-hidden": "true" }, ...bar.nodes)
            ),
            h("td", { class: "number" }, String(account.sum)),
            h("td", { class: account.sum > before ? "number loss" : "number" }, signed(account.sum - before))
        );
    };
    /** How many rows a narrow window shows of a word: those of its orders, and of what comes after each. */
    const rowsOf = (address) => (
        game.round.filter((unused, place) => [place, place - 1].some((at) => game.round[at]?.account.word === address)).length
    );
    const show = () => {
        const { round, program: { words } } = game;
        const most = Math.max(130, ...round.map(({ account, before }) => Math.max(account.sum, before)));
        node.style.setProperty("--rows", Math.max(...words.map(rowsOf)));
        refill(body, ...round.map((order) => rowOf(order, most)));
    };
    const mark = (at) => { for (const row of body.children) row.classList.toggle("now", row.dataset.at === at); };
    const node = h("div", { class: "rounds" }, h("table", { class: "round", "aria-label": text("roundOrders") }, body));
    return { node, show, mark };
}

/** The drum of the game: it stands still where a round has ended, with the round as a line; a round that is watched turns it. */
function makeGameDrum(game, texts, hands) {
    const { box, ring, trail, still } = makePicture(texts, () => { if (game.placing !== null) show(); });
    const grips = makeGrips(box, hands);
    box.setAttribute("role", "group");
    const frame = () => {
        const { round: orders } = game;
        const [round, first] = [orders.map(({ account }) => account), orders.reduce((sum, { before }) => sum + before, 0)];
        const [from, length] = [round[0]?.clock ?? 0n, timesOf(round)];
        const offset = game.watched ?? length;
        const position = Number(from % BigInt(SECTORS)) + offset;
        // as many turns as the round has at first fit in: what is saved makes the line shorter, and nothing else
        const pitch = Math.min(PEN.pitch, (LINE * SECTORS) / Math.max(SECTORS, first));
        const shape = {
            radius: PEN.radius, pitch, turns: 1 + length / SECTORS, waits: Math.min(PEN.waits, 0.4 * pitch),
            works: Math.min(PEN.works, 0.8 * pitch), faintest: 1,
        };
        ring.turn(position % SECTORS);
        trail.draw(passed(round, { clock: from, offset }, shape), false, shape);
        still.show(
            {
                next: null,
                operand: null,
                left: 0,
                phase: "round",
                count: round.length === 0 ? "–" : counted(length / SECTORS, texts.code),
                below: texts.text(length === SECTORS ? "turnUnit" : "turnsUnit"),
                clock: null,
                isReading: false,
            },
            position
        );
        const angles = grips.show(
            position,
            box.offsetWidth / 800,
            (address) => game.placing.saved(address) > 0 && game.placing.isBest(address),
            (box.parentElement.clientWidth - box.offsetWidth) / 2
        );
        const isFree = (side) => !angles.some((angle) => side * angle > 8 && side * angle < 62);
        box.dataset.arrow = isFree(-1) ? "left" : isFree(1) ? "right" : "away";
        return round.findLast(({ clock }) => Number(clock - from) <= offset)?.at ?? null;
    };
    const show = () => {
        const { placing, picked, program: { words } } = game;
        ring.write(game.digits);
        ring.light("laid", words.map((address) => placing.sectorOf(address)));
        ring.light("origin", placing.moved.map(sectorOf));
        ring.light("least", game.isWhy ? placing.bestOf(picked) : []);
        ring.trace(triesOf(game));
        box.dataset.drawn = String(timesOf(placing.drawn));
        box.setAttribute("aria-label", texts.text("gameDrum"));
        frame();
    };
    return {
        node: box,
        put: () => grips.put(game.program.words.map((address) => ({ address, name: game.nameOf(address) }))),
        show,
        frame,
        focus: grips.focus,
    };
}

/** The sectors that were tried for the picked word, each with its share of what the dearest costs. */
function triesOf({ placing, picked, tried }) {
    const costs = [...tried.get(picked) ?? []].map((sector) => ({ sector, cost: -placing.savedAt(picked, sector) }));
    const [least, most] = [-placing.words.find(({ address }) => address === picked).saved, Math.max(0, ...costs.map(({ cost }) => cost))];
    return costs.map(({ sector, cost }) => (
        { sector, share: 0.2 + (0.8 * (cost - least)) / Math.max(1, most - least), isBest: cost === least }
    ));
}

/**
 * The seconds that are left, as a ring. They begin with the first move, and nothing is lost when they are over. Where they have no end
 * there is nothing to count: what counted would hold a game that was left long ago.
 */
function makeTimer({ text }, seconds, over) {
    const [gone, told] = [
        s("circle", { class: "gone", cx: 30, cy: 30, r: 25, pathLength: 1, transform: "rotate(-90 30 30)" }), s("text", { x: 30, y: 31 }),
    ];
    const node = h(
        "div",
        { class: "seconds-left", role: "timer" },
        s("svg", { viewBox: "0 0 60 60", "aria-hidden": "true" }, s("circle", { cx: 30, cy: 30, r: 25 }), gone, told)
    );
    let [ends, timer] = [null, null];
    const leftNow = () => (ends === null ? seconds : Math.max(0, Math.ceil((ends - performance.now()) / 1000)));
    const show = () => {
        const left = leftNow();
        tell(told, `${Math.floor(left / 60)}:${inTwoDigits(left % 60)}`);
        gone.setAttribute("stroke-dasharray", `${left / seconds} 1`);
        node.setAttribute("aria-label", text("secondsLeft", { count: left }));
    };
    const tick = () => {
        show();
        if (leftNow() > 0) return;
        clearInterval(timer);
        over();
    };
    const start = () => {
        if (ends !== null || seconds === Infinity) return;
        ends = performance.now() + 1000 * seconds;
        timer = setInterval(tick, 250);
    };
    const reset = () => { clearInterval(timer); ends = null; show(); };
    return { node, start, reset, isOver: () => leftNow() === 0 };
}

/** Plays a round: the drum turns through it, or, where nothing may move, each order is seen for a while. Gives what ends that. */
function play(game, isStill, frame, ended) {
    const { round } = game;
    const [clock, length] = [round[0].account.clock, timesOf(round.map(({ account }) => account))];
    const ends = round.map(({ account }) => Number(account.clock - clock) + account.sum);
    const began = performance.now();
    const offsetAt = (passed) => (
        isStill() ? [0, ...ends][Math.floor(passed / PICTURE_MILLISECONDS)] ?? Infinity : (passed * SPEED) / 1000
    );
    let next = null;
    const tick = () => {
        game.watched = offsetAt(performance.now() - began);
        if (game.watched >= length) return ended();
        frame();
        next = requestAnimationFrame(tick);
        return undefined;
    };
    tick();
    return () => cancelAnimationFrame(next);
}

/**
 * The buttons below. Where the time is over the last one shows the best placing; where that is reached or shown, it leads to another
 * program.
 */
function makeFoot(game, { text }, timer, actions) {
    // they have their names before there is something to do
    const [why, back, watch] = [["why", "showWhy"], ["back", "asItWas"], ["watch", "watchRound"]].map(
        ([name, said]) => guarded(text(said), { id: `faster-${name}`, "aria-disabled": "true" }, actions[name])
    );
    const [best, another] = [
        button(text("showBest"), () => { actions.showBest(); back.focus(); }, { id: "faster-best" }),
        button(text("anotherProgram"), actions.another, { id: "faster-another", class: "primary" }),
    ];
    const last = h("div", { class: "last" });
    const show = () => {
        const { placing, isShown, isWon, isWhy, watched } = game;
        tell(why, text("showWhy"));
        why.setAttribute("aria-pressed", String(isWhy));
        tell(back, text(isShown ? "myPlacing" : "asItWas"));
        showLive(back, isShown || placing.moved.length > 0);
        tell(watch, text(watched === null ? "watchRound" : "halt"));
        for (const control of [why, watch]) showLive(control, true);
        refill(last, isShown || isWon ? another : timer.isOver() ? best : timer.node);
    };
    return { node: h("div", { class: "foot" }, why, back, watch, last), show };
}

/** The game: the drum, and beside it what is told. */
export class PlacingGameView {
    #texts;
    #settings;
    #game = new PlacingGame();
    #name = null;
    #round = 0;
    #endWatching = () => {};
    #elsewhere = h("div", { class: "line" });
    #lead = h("p", { class: "lead" });
    #leads = h("div", { class: "leads" }, this.#lead);
    #said = h("p", { class: "unseen", role: "status" });
    #timer;
    #drum;
    #words;
    #orders;
    #views;

    /**
     * `ask` runs a program in a laboratory of its own and gives what it took, or null; `kept` keeps where the player's words are; `seconds`
     * is how long the best is held back, and `others` gives the buttons that lead elsewhere from a game.
     */
    constructor(texts, settings) {
        [this.#texts, this.#settings] = [texts, settings];
        const game = this.#game;
        this.#timer = makeTimer(texts, settings.seconds, () => this.#show());
        this.#drum = makeGameDrum(game, texts, this.#hands());
        this.#words = makeWords(game, texts, (address) => this.#drum.focus(address));
        this.#orders = makeRound(game, texts);
        const [score, foot] = [makeScore(texts), makeFoot(game, texts, this.#timer, this.#actions())];
        this.#views = [{ show: () => score.show(game.placing) }, this.#words, this.#orders, this.#drum, foot];
        const cabinet = h(
            "div", { class: "cabinet" }, h("div", { class: "stand" }, this.#drum.node), makeKey((phase) => texts.text(`colour_${phase}`))
        );
        this.node = h("section", { class: "faster", "aria-label": texts.text("faster"), "aria-busy": "true" }, cabinet,
            h(
                "div", { class: "game" }, this.#elsewhere, this.#leads, this.#said, score.node, this.#words.node, this.#orders.node,
                foot.node
            ));
    }

    /** Begins a game with the program that was played last in it, unless it is there already. */
    begin(name) {
        if (name === this.#name) return undefined;
        this.#name = name;
        this.#elsewhere.replaceChildren(...this.#settings.others(name));
        const programs = PLACING_GAMES.get(name);
        return this.#open(programs.find((program) => program.name === this.#settings.kept.of()?.[name]) ?? programs[0]);
    }

    /** Ends the watching of a round. */
    stop() {
        this.#endWatching();
        this.#endWatching = () => {};
        this.#game.watched = null;
    }

    /** What the four buttons of a kiosk say, by the names of their texts. */
    labels = ["placeBack", "placeOn", "nextWord", "gameDone"];

    /** Begins anew, for the next visitor of a kiosk. */
    open() {
        this.#name = null;
        return this.begin("faster");
    }

    /**
     * A press of one of those buttons: a place back, a place on, the next word, or the end, where the best is shown first. Whether the game
     * goes on.
     */
    press(number) {
        const { placing, picked, program } = this.#game;
        if (placing === null) return number < 4;
        if (number === 3) {
            const next = program.words[(program.words.indexOf(picked) + 1) % program.words.length];
            this.#hands().pick(next);
            this.#drum.focus(next);
        }
        if (number < 3) this.#carry(number === 1 ? -1 : 1);
        if (number < 4) return true;
        if (this.#game.isWon || this.#game.isShown) return false;
        this.#actions().showBest();
        return true;
    }

    /** Moves the picked word by a number of places. */
    #carry(places) {
        const hands = this.#hands();
        const { picked } = this.#game;
        hands.move(picked, sectorAt(positionOf(hands.sectorOf(picked)) + places));
        hands.drop();
    }

    #hands() {
        const { text, code } = this.#texts;
        const game = this.#game;
        const move = (address, sector) => { this.stop(); game.move(address, sector); this.#timer.start(); this.#show(); };
        return {
            move,
            sectorOf: (address) => game.placing.sectorOf(address),
            back: (address) => move(address, sectorOf(address)),
            drop: () => this.#told(),
            says: (address) => text("gripSays", {
                sector: inTwoDigits(game.placing.sectorOf(address)),
                times: counted(game.placing.times, code),
                saved: savedText(game.placing.saved(address), this.#texts),
            }),
            pick: (address) => { if (address !== game.picked) { game.picked = address; this.#show(); } },
        };
    }

    /** What the buttons do. */
    #actions() {
        const game = this.#game;
        const changed = (action) => () => { this.stop(); action(); this.#show(); this.#told(); };
        return {
            why: changed(() => { game.isWhy = !game.isWhy; }),
            back: changed(() => (game.isShown ? game.showBest() : game.reset())),
            watch: () => this.#watch(),
            showBest: changed(() => game.showBest()),
            another: () => this.#another(),
        };
    }

    /** Says aloud what is told, and keeps where the words are. */
    #told() {
        tell(this.#said, leadOf(this.#game, this.#texts));
        const { program, kept } = this.#game;
        this.#settings.kept.keep({ ...this.#settings.kept.of(), [this.#name]: program.name, [program.name]: kept });
    }

    #show() {
        if (this.#game.placing === null) return;
        tell(this.#lead, leadOf(this.#game, this.#texts));
        for (const view of this.#views) view.show();
    }

    #watch() {
        const isOn = this.#game.watched !== null;
        this.stop();
        if (!isOn && this.#game.round.length > 0) {
            this.#endWatching = play(
                this.#game, this.#settings.isStill, () => this.#orders.mark(this.#drum.frame()), () => { this.stop(); this.#show(); }
            );
        }
        this.#show();
    }

    async #another() {
        const programs = PLACING_GAMES.get(this.#name);
        await this.#open(programs[(programs.indexOf(this.#game.program) + 1) % programs.length]);
        this.#drum.focus(this.#game.picked);
    }

    /** Opens a program, with its words where they were. */
    async #open(program) {
        this.stop();
        this.#round += 1;
        const mine = this.#round;
        this.node.setAttribute("aria-busy", "true");
        const told = await this.#settings.ask(program);
        if (mine !== this.#round) return;
        if (told === null) { tell(this.#lead, this.#texts.text("gameFails")); return; }
        this.#game.open(program, told);
        this.#game.kept = this.#settings.kept.of()?.[program.name] ?? this.#game.kept;
        this.#timer.reset();
        this.#leads.replaceChildren(
            this.#lead, ...longestLeads(this.#game, this.#texts).map((words) => h("p", { class: "room", "aria-hidden": "true" }, words))
        );
        for (const view of [this.#drum, this.#words]) view.put();
        this.#show();
        this.node.setAttribute("aria-busy", "false");
    }
}
