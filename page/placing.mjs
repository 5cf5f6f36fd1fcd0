// Words of a run at other sectors. What the same orders would then have taken are sums of the monitor's own numbers; how long each order
// alone would have waited is worked out to be drawn,
// and is right only where its sum is that number. Nothing here knows of a page.
import { PLACES, SECTORS, addressOf, numberOf, sectorOf } from "./addresses.mjs";
import { columnOf, tokensOf } from "./language.mjs";
import { linesIn } from "./lines.mjs";
import { elsewhere, isOfLoader } from "./machine.mjs";

/** The sum of the word times of accounts. */
export const timesOf = (accounts) => accounts.reduce((sum, account) => sum + account.sum, 0);

/** Words of a run, and at which sectors they are. */
export class Placing {
    #sectors = new Map();
    #times;

    /**
     * `accounts` are those of the run's orders, none where they are too many, and `words` what the monitor says of each word: what the
     * orders would have taken with it at each sector.
     */
    constructor(accounts, words) {
        Object.assign(this, { accounts, words });
        this.#times = new Map(words.map(({ address, sectors }) => [address, new Map(sectors.map(({ sector, times }) => [sector, times]))]));
    }

    /** What the orders took. */
    get took() {
        return this.words[0].times;
    }

    /** Where a word is now. */
    sectorOf(address) {
        return this.#sectors.get(address) ?? sectorOf(address);
    }

    /** The words that are not at their own sectors. */
    get moved() {
        return this.words.map(({ address }) => address).filter((address) => this.sectorOf(address) !== sectorOf(address));
    }

    move(address, sector) {
        this.#sectors.set(address, sector);
    }

    /** All words are at their own sectors again. */
    reset() {
        this.#sectors.clear();
    }

    /** How many word times fewer the orders would take with a word at a sector, wherever other words are; fewer than none are more. */
    savedAt(address, sector) {
        return this.took - this.#times.get(address).get(sector);
    }

    saved(address) {
        return this.savedAt(address, this.sectorOf(address));
    }

    /** The sectors at which a word costs least. */
    bestOf(address) {
        const most = this.words.find((word) => word.address === address).saved;
        return [...this.#times.get(address).keys()].filter((sector) => this.savedAt(address, sector) === most);
    }

    isBest(address) {
        return this.bestOf(address).includes(this.sectorOf(address));
    }

    /** What the orders would take with the words where they are, since what words save adds up. */
    get times() {
        return this.took - this.words.reduce((sum, { address }) => sum + this.saved(address), 0);
    }

    /** The least that they can take with these words elsewhere, since all of them save the sum of what each one saves. */
    get least() {
        return this.took - this.words.reduce((sum, { saved }) => sum + saved, 0);
    }

    /**
     * The orders with the words where they are, each with its waits; none where these are not known, or where their sum is not what the
     * orders would take.
     */
    get drawn() {
        const drawn = elsewhere(this.accounts, (address) => this.sectorOf(address));
        return timesOf(drawn) === this.times ? drawn : [];
    }
}

/** The first address of a sector that is none of these, and none of the loader's. */
export function freePlace(sector, taken) {
    const isFree = (number) => !taken.has(addressOf(number)) && !isOfLoader(number);
    for (let number = sector; number < PLACES; number += SECTORS) if (isFree(number)) return addressOf(number);
    return null;
}

const operationIn = (line) => tokensOf(line).find(({ kind }) => kind === "operation")?.text;

/**
 * A source with a word at another place: by an `org` before it, and one after it, so that the words after it stay where they are. `said` is
 * what a laboratory says of the source. An `org` that is there for this word alone is changed.
 */
export function withWordAt(source, said, address, place) {
    const lines = linesIn(source);
    const at = said.lineAt(address) - 1;
    const org = (where) => `${" ".repeat(Math.max(1, columnOf(lines[at])))}org ${where}`;
    const isOwn = tokensOf(lines[at - 1] ?? "").map(({ text }) => text).join(" ").startsWith(`org ${address}`);
    const after = operationIn(lines.slice(at + 1).find((line) => tokensOf(line).some(({ kind }) => kind !== "comment")) ?? "");
    const next = after === "org" || after === "end" || numberOf(address) + 1 === PLACES ? [] : [org(addressOf(numberOf(address) + 1))];
    const before = isOwn ? [...lines.slice(0, at - 1), lines[at - 1].replace(address, place)] : [...lines.slice(0, at), org(place)];
    return [...before, lines[at], ...next, ...lines.slice(at + 1)].join("\n");
}

/**
 * A source with a word at a free place of another sector, and that place; or what is wrong: it has faults, it has no line for the word or
 * for an order that names it, no place is free, or the order at an address does not name the word by its label. `checker` says what a
 * laboratory says of a source, and `accounts` are those of the orders that were performed.
 */
async function withOneMoved(checker, source, accounts, address, sector) {
    const said = await checker.ask(source);
    if (!said?.isRight) return { wrong: "faulty" };
    const users = accounts.filter(({ word }) => word === address).map(({ at }) => at);
    if ([address, ...users].some((at) => at === null || said.lineAt(at) === null)) return { wrong: "notInSource" };
    const words = linesIn(source).flatMap((unused, line) => said.wordOf(line + 1)?.place ?? []);
    const place = freePlace(sector, new Set([...words, ...accounts.map(({ word }) => word)]));
    if (place === null) return { wrong: "noFreePlace" };
    const text = withWordAt(source, said, address, place);
    const moved = await checker.ask(text);
    const digitsOf = (it, at) => it.wordOf(it.lineAt(at))?.digits;
    const unmoved = users.find((at) => digitsOf(said, at) === digitsOf(moved, at));
    return unmoved === undefined ? { text, place } : { wrong: "byNumber", unmoved };
}

/**
 * A source with words at free places of other sectors, one after another, and these words with their places; or the word with which
 * something is wrong, and what, with the line of an order that does not name it by its label. Each of the `words` has its `address` and the
 * `sector`.
 */
export async function movedSource(checker, source, accounts, words) {
    let [text, places] = [source, []];
    for (const it of words) {
        const { wrong, unmoved, ...moved } = await withOneMoved(checker, text, accounts, it.address, it.sector);
        if (wrong !== undefined) return { ...it, wrong, line: unmoved === undefined ? null : (await checker.ask(source)).lineAt(unmoved) };
        text = moved.text;
        places.push({ ...it, place: moved.place });
    }
    return { text, places };
}
