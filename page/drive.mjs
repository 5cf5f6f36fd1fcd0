// Drives the machine in a pace: what is asked of the laboratory, and when. An order is done at once, and then played from its account.
import { SECTORS } from "./addresses.mjs";
import { rewrittenBy } from "./views/says.mjs";

/**
 * How long a word time lasts, in milliseconds: 64 of them are a turn. It is a setting of the page, and what the page says in seconds comes
 * from it.
 */
export const WORD_TIME = 0.26;

/**
 * The paces by their names: word times a second, how many times faster an act of more than a turn passes, and the rest between two orders.
 * In a tale such an act passes as one turn.
 */
export const PACES = {
    order: { speed: 64, hurry: 4, rest: 2600 },
    slow: { speed: 32, hurry: 1, rest: 0 },
    tale: { speed: 32, rest: 0 },
    show: { rest: 0 },
    own: { speed: 1000 / WORD_TIME },
    fast: {},
};

/**
 * In a show each order has its own speed: the first ones and those that rewrite another one are slow, those that print are hurried while
 * they type, all else passes quickly.
 */
export function speedInShow(account, behind) {
    if (behind <= SHOWN_SLOWLY || rewrittenBy(account) !== null) return { speed: 32, hurry: 1 };
    return account.printed === null ? { speed: 96, hurry: 1 } : { speed: 48, hurry: 128 / 48 };
}
const SHOWN_SLOWLY = 3;

/**
 * In a show an order that has rewritten another one stands for this long, so that its caption can be read, and for this long after it none
 * does; where nothing was printed for so long, what leads to the next print is passed over, in this many orders at most.
 */
export const SHOW = { stands: 5000, apart: 20_000, silence: 10_000, most: 50_000 };

/** At its own pace: how often orders are asked for, at most how many at once, and how many word times one is thought to take at first. */
const STRETCH = { milliseconds: 100, orders: 200, average: 75 };

/** Goes on in a pace until it is halted, the machine rests, or a rule stops it. Dispatches `change` when the pace has changed. */
export class Drive extends EventTarget {
    /** The pace in which the machine goes on, or null; and the one in which it goes on when it is asked to. */
    pace = null;
    chosen = "fast";
    /** Whether the last order stands, so that what is told of it can be read. */
    isTelling = false;
    /** Whether in a show what is long without a print is passed over. */
    isSkipping = false;

    #laboratory;
    #player;
    #clocks;
    #wake = () => {};
    #since = null;
    #isGoing = false;
    #going = Promise.resolve();
    #left = Infinity;
    #stood = -Infinity;
    #heard = { codes: 0, at: 0 };

    /** `clocks` has `now`, milliseconds, and `sleep`. `run` does a run in portions. */
    constructor(laboratory, player, run, clocks) {
        super();
        this.#laboratory = laboratory;
        this.#player = player;
        this.#clocks = { ...clocks, run };
    }

    /** One order, played in a pace. Where one is played it ends first, and so does a pace. */
    async step(pace = "order") {
        this.#changeTo(null);
        await this.#order(pace);
    }

    /**
     * Goes on at a pace, for this number of orders where they are played. The same one again is a halt, but for the fastest, which goes on.
     */
    go(pace, orders = Infinity) {
        if (pace === "fast" && this.pace === "fast") return undefined;
        const wanted = this.pace === pace ? null : pace;
        this.#changeTo(wanted);
        this.#left = orders;
        if (wanted !== null && !this.#isGoing) this.#going = this.#goOn();
        return wanted === null ? undefined : this.#going;
    }

    /** Chooses a pace: where the machine goes on, it does so in that. */
    choose(pace) {
        this.chosen = pace;
        return this.pace === null ? this.dispatchEvent(new Event("change")) : this.go(pace);
    }

    /** Goes on in the chosen pace, or halts. */
    goOn() {
        return this.pace === null ? this.go(this.chosen) : this.halt();
    }

    /** Ends the pace and what is played; a run ends after its portion. */
    halt() {
        this.#changeTo(null);
    }

    /** The picture is where the clock is: what waited for it goes on. */
    played() {
        this.#wake();
    }

    #changeTo(pace) {
        if (this.pace === "fast" || pace === null) this.#laboratory.stop();
        this.#player.end();
        [this.pace, this.isTelling] = [pace, false];
        this.#since = null;
        this.#stood = -Infinity;
        this.#heard = { codes: this.#laboratory.printed?.count ?? 0, at: this.#clocks.now() };
        this.#wake();
        this.dispatchEvent(new Event("change"));
    }

    async #goOn() {
        this.#isGoing = true;
        try {
            for (let pace = this.pace; pace !== null; pace = this.pace) {
                const isOn = await this.#a(pace);
                if ((!isOn || this.#left <= 0) && this.pace === pace) this.#rest();
            }
        } finally {
            this.#isGoing = false;
        }
    }

    #rest() {
        this.pace = null;
        this.dispatchEvent(new Event("change"));
    }

    #a(pace) {
        if (pace === "fast") return this.#clocks.run().then(() => false);
        return pace === "own" ? this.#stretch() : this.#played(pace);
    }

    /** An order and, where the pace has one, the rest after it. Whether there is a next one. */
    async #played(pace) {
        const isOn = await this.#order(pace);
        this.#left -= 1;
        if (!isOn || this.#left <= 0 || this.pace !== pace) return isOn;
        if (pace === "show") await this.#shown();
        else await this.#until(PACES[pace].rest);
        return this.#isOn;
    }

    /** After an order of a show: it stands where it has rewritten another one, and what is long without a print is passed over. */
    async #shown() {
        const [laboratory, now] = [this.#laboratory, this.#clocks.now()];
        if (rewrittenBy(laboratory.accounts.at(-1)) !== null && now - this.#stood > SHOW.apart) {
            this.#tells(true);
            await this.#until(SHOW.stands);
            this.#tells(false);
            this.#stood = this.#clocks.now();
        }
        const { count } = laboratory.printed;
        if (count !== this.#heard.codes) this.#heard = { codes: count, at: now };
        if (!this.isSkipping || this.#clocks.now() - this.#heard.at <= SHOW.silence || this.pace !== "show") return;
        await laboratory.runToPrint(SHOW.most);
        this.#heard = { codes: laboratory.printed.count, at: this.#clocks.now() };
    }

    #tells(isTelling) {
        this.isTelling = isTelling;
        this.dispatchEvent(new Event("change"));
    }

    /** Whether an order was performed. It is played to its end, or to a halt, where the pace waits for it. */
    async #order(pace) {
        const asked = this.pace;
        let isPlayed = false;
        const performed = await this.#next((account) => {
            isPlayed = this.pace === asked;
            if (isPlayed) this.#play(account, pace);
        });
        if (isPlayed && asked !== null && this.pace === asked) await this.#until(Infinity);
        return Boolean(performed);
    }

    /** Performs the next order: where one was gone back over, that again. */
    #next(whenDone) {
        const { history } = this.#laboratory;
        return history.ahead > 0 ? this.#laboratory.forward(1, whenDone) : this.#laboratory.step(1, true, whenDone);
    }

    #play(account, pace) {
        const {
            speed, hurry = account.act / SECTORS,
        } = pace === "show" ? speedInShow(account, this.#laboratory.history.behind) : PACES[pace];
        Object.assign(this.#player, { pace: speed, hurry });
        this.#player.play(account);
        this.dispatchEvent(new Event("play"));
    }

    get #isOn() {
        const { notice, way } = this.#laboratory;
        return notice === null && way.kind === "go";
    }

    /** As many orders as there are word times due. Whether the machine can go on. */
    async #stretch() {
        const laboratory = this.#laboratory;
        const began = this.#clocks.now();
        this.#since ??= { at: began, clock: laboratory.panel.clock, average: STRETCH.average };
        const due = this.#due(began);
        const orders = Math.max(1, Math.min(STRETCH.orders, Math.round(due / this.#since.average)));
        if (due > 0 && !await this.#told(orders)) return false;
        if (this.pace === "own") {
            await this.#until(this.#due(this.#clocks.now()) > 0 ? 0 : STRETCH.milliseconds - (this.#clocks.now() - began));
        }
        return due <= 0 || this.#isOn;
    }

    #due(now) {
        return ((now - this.#since.at) * PACES.own.speed) / 1000 - Number(this.#laboratory.panel.clock - this.#since.clock);
    }

    async #told(orders) {
        const { clock } = this.#laboratory.panel;
        const performed = await this.#laboratory.step(orders, false);
        if (performed && this.#since !== null) this.#since.average = Number(this.#laboratory.panel.clock - clock) / performed;
        return Boolean(performed);
    }

    /** Waits so long, or until the picture has come where the clock is, or a halt. */
    #until(milliseconds) {
        return new Promise((resolve) => {
            this.#wake = resolve;
            if (milliseconds < Infinity) this.#clocks.sleep(Math.max(0, milliseconds)).then(resolve);
        });
    }
}
