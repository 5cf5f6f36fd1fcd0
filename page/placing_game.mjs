// The game that makes a program faster: its programs, and what is played. Nothing here knows of a page.
import { SECTORS, sectorOf } from "./addresses.mjs";
import { Placing } from "./placing.mjs";

/**
 * The programs: the example of each, where its loop begins, and the words that are moved; their names, where the example has none for them.
 */
export const PROGRAMS = [
    { name: "sum", example: "self-modifying", loop: "0008", words: ["0021", "0022", "0024"], names: ["last", "one", "sum"] },
    { name: "root", example: "square-root", loop: "0000", words: ["0009", "0010", "0011"] },
    { name: "household", example: "drum/household", loop: "0110", words: ["0128", "0129", "0130", "0131", "0132"] },
];

/**
 * The games by their names in an address, each with the programs that it leads through: the one of the lesson begins with a single word.
 */
export const PLACING_GAMES = new Map([["faster", PROGRAMS], ["race", [{ ...PROGRAMS[2], name: "wage", words: ["0128"] }, PROGRAMS[2]]]]);

const BLANK = "00000000";

/** The last whole round of a loop: the places of its first order and of the one after its last. */
export function roundIn(accounts, loop) {
    const heads = [...accounts.keys()].filter((place) => accounts[place].at === loop);
    return heads.slice(-2);
}

/** What is played: the program, the words where they are, and what was tried. */
export class PlacingGame {
    program = null;
    placing = null;
    picked = null;
    /** Whether the free places of the picked word are lit, and the word times of the round that is watched which have passed, or null. */
    isWhy = false;
    watched = null;
    tried = new Map();

    #round = [0, 0];
    #left = null;
    #track = new Map();

    open(program, { accounts, words, track }) {
        Object.assign(
            this,
            { program, placing: new Placing(accounts, words), picked: program.words[0], isWhy: false, watched: null, tried: new Map() }
        );
        this.#round = roundIn(accounts, program.loop);
        this.#track = new Map(track.map(({ address, text }) => [sectorOf(address), text]));
        this.#left = null;
    }

    /** The orders of a round as they are now, each with what it took at first; none where their waits are not known. */
    get round() {
        const [from, to] = this.#round;
        return this.placing.drawn.slice(from, to).map((account, place) => ({ account, before: this.placing.accounts[from + place].sum }));
    }

    /** The words of the track, by their sectors, and those that are moved, where they are. */
    get digits() {
        const drawn = new Map(this.#track);
        for (const address of this.placing.moved) drawn.set(sectorOf(address), BLANK);
        for (const address of this.program.words) drawn.set(this.placing.sectorOf(address), this.#track.get(sectorOf(address)));
        return drawn;
    }

    /**
     * How a word misses an order that uses it, of the order that waits longest for it: by how many places it has gone by before the order
     * is taken, or comes after the next order has; null where that is not known.
     */
    missOf(address) {
        const { round } = this;
        const misses = round.flatMap(({ account }, place) => {
            const next = round[(place + 1) % round.length].account;
            if (account.word !== address) return [];
            const isEarly = account.seek >= next.find;
            return [{ isEarly, at: account.at, order: account.order, waits: Math.max(account.seek, next.find) }];
        });
        const [worst] = misses.sort((one, other) => other.waits - one.waits);
        return worst === undefined
            ? null
            : { isEarly: worst.isEarly, at: worst.at, letter: worst.order[0], places: Math.max(1, SECTORS + 1 - worst.waits) };
    }

    nameOf(address) {
        const place = this.program.words.indexOf(address);
        return place < 0 ? address : this.program.names?.[place] ?? this.placing.words[place].label ?? address;
    }

    move(address, sector) {
        Object.assign(this, { picked: address, watched: null });
        this.#left = null;
        this.placing.move(address, sector);
        this.tried.set(address, (this.tried.get(address) ?? new Set()).add(sector));
    }

    /** Puts all words back. */
    reset() {
        this.#left = null;
        this.placing.reset();
    }

    set kept({ picked, at }) {
        if (this.program.words.includes(picked)) this.picked = picked;
        for (const [address, sector] of at) if (this.program.words.includes(address)) this.placing.move(address, sector);
    }

    get isWon() {
        return this.placing.times === this.placing.least;
    }

    /** Whether the best placing is shown in place of the player's. */
    get isShown() {
        return this.#left !== null;
    }

    /** Shows the best placing, or again the player's own. */
    showBest() {
        const { placing, program: { words } } = this;
        const before = this.#left;
        this.#left = before === null ? words.map((address) => [address, placing.sectorOf(address)]) : null;
        for (const [address, sector] of before
            ?? words.map((it) => [it, placing.isBest(it) ? placing.sectorOf(it) : placing.bestOf(it)[0]])) {
            placing.move(address, sector);
        }
    }

    /** Where the player's words are, and which one is picked, to be kept; and what was kept. */
    get kept() {
        return { picked: this.picked, at: this.#left ?? this.placing.moved.map((address) => [address, this.placing.sectorOf(address)]) };
    }
}
