// The drum turned by hand: time goes on and back, word time by word time within the order that was told last, and order by order at its
// ends. Nothing here knows of a page.

/** How many word times may be owed to a hand that is faster than the machine; and what counts as none. */
const [MOST, NONE] = [128, 1e-6];

/**
 * A hand at the drum of a laboratory. Dispatches `take` before it holds the machine, `turn` when it has turned within an order, `end` with
 * the way in which it cannot go on, and `rest` when all that was asked for is done.
 */
export class HandTurning extends EventTarget {
    #laboratory;
    #player;
    #drive;
    #left = 0;
    #isGoing = false;
    #tail = Promise.resolve();

    constructor(laboratory, player, drive) {
        super();
        [this.#laboratory, this.#player, this.#drive] = [laboratory, player, drive];
    }

    /** The order that the drum has turned through last and how far, or null where that is not told. */
    get #shown() {
        const { accounts, panel } = this.#laboratory;
        const account = accounts.at(-1);
        if (account === undefined || account.clock + BigInt(account.sum) !== panel.clock) return null;
        const at = this.#player.at();
        return { account, offset: at?.account === account ? at.offset : account.sum };
    }

    /** The clock, as far as the drum has turned. */
    get clock() {
        const shown = this.#shown;
        return shown === null ? Number(this.#laboratory.panel.clock) : Number(shown.account.clock) + shown.offset;
    }

    /** How many places there are to go until the order, or its word, is read; none where nothing is waited for. */
    get left() {
        const at = this.#player.at();
        return at === null || at.done ? 0 : at.left;
    }

    /** Takes the drum in hand: what is played stays where it is. */
    take() {
        const at = this.#player.at();
        this.dispatchEvent(new Event("take"));
        this.#drive.halt();
        if (at !== null && at.account === this.#laboratory.accounts.at(-1) && !at.done) this.#player.hold(at.account, at.offset);
    }

    /** Turns by a number of word times, back where they are below none. Ends when that is done. */
    turn(times) {
        this.#left = Math.max(-MOST, Math.min(MOST, this.#left + times));
        if (this.#isGoing) return this.#tail;
        this.#isGoing = true;
        return this.#do(() => this.#go());
    }

    /** Turns to the end of the order, or back to its beginning; where it is there already, through the next one. */
    order(way) {
        return this.#do(async () => {
            const room = () => {
                const shown = this.#shown;
                return shown === null ? 0 : way > 0 ? shown.account.sum - shown.offset : shown.offset;
            };
            if (room() === 0 && !(await this.#cross(way))) return this.#blocked(way);
            this.#within(way * room());
            return this.#rest();
        });
    }

    /** Lets the drum go, at a whole word time. */
    settle() {
        return this.#do(async () => {
            const shown = this.#shown;
            if (shown !== null) this.#within(Math.round(shown.offset) - shown.offset);
            await this.#rest();
        });
    }

    /** Does one thing after another. */
    #do(action) {
        this.#tail = this.#tail.then(action);
        return this.#tail;
    }

    async #go() {
        while (Math.abs(this.#left) > NONE) {
            const way = Math.sign(this.#left);
            this.#left -= this.#within(this.#left);
            if (Math.abs(this.#left) > NONE && !(await this.#cross(way))) this.#blocked(way);
            if (Math.abs(this.#left) <= NONE) await this.#rest();
        }
        this.#isGoing = false;
    }

    #blocked(way) {
        this.#left = 0;
        this.dispatchEvent(Object.assign(new Event("end"), { way }));
    }

    /** Turns within the order, as far as that goes. Gives how far. */
    #within(times) {
        const shown = this.#shown;
        if (shown === null || times === 0) return 0;
        const offset = Math.max(0, Math.min(shown.account.sum, shown.offset + times));
        this.#player.hold(shown.account, offset);
        this.dispatchEvent(new Event("turn"));
        return offset - shown.offset;
    }

    /** Where the drum stands between two orders the machine does so too: an order at whose beginning it is was not performed. */
    async #rest() {
        const shown = this.#shown;
        if (shown?.offset === 0) await this.#laboratory.back(1);
        if (shown === null || shown.offset === 0 || shown.offset === shown.account.sum) this.#player.end();
        this.dispatchEvent(new Event("rest"));
    }

    /** Goes on to the next order, at its beginning, or back to the end of the one before. Whether there is one. */
    #cross(way) {
        return way > 0 ? this.#next() : this.#before();
    }

    async #next() {
        const laboratory = this.#laboratory;
        const last = laboratory.accounts.at(-1);
        const begin = (account) => this.#player.hold(account, 0);
        if (laboratory.history.ahead > 0) await laboratory.forward(1);
        else await laboratory.step(1, true, begin);
        const account = laboratory.accounts.at(-1);
        if (account === undefined || account === last) return false;
        begin(account);
        return true;
    }

    async #before() {
        const laboratory = this.#laboratory;
        if (this.#shown !== null) await laboratory.back(1);
        this.#player.end();
        if (this.#shown !== null) return true;
        if (laboratory.history.behind === 0) {
            await laboratory.tell({ kind: "noneBehind" });
            return false;
        }
        // an order that was not told is performed again, with its account
        await laboratory.back(1);
        await laboratory.forward(1);
        return this.#shown !== null;
    }
}
