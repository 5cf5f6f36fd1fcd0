// What the page itself knows of the machine, to draw with: where sectors lie on the drum, how an order stands in a word, what an order's
// waits are elsewhere, and the places of the loader. The rules of the machine are the
// monitor's; a test holds all of this against what the monitor answers. Nothing here knows of a page.
import { SECTORS, addressOf, numberOf, sectorOf } from "./addresses.mjs";
import { signedOf } from "../libraries/javascript/replies.mjs";

/** Which of a word's 32 bits are the order's, and those of its address: from the first one on, and up to the last. */
export const FIELDS = { order: [12, 16], track: [18, 24], sector: [24, 30] };

/** The letters of the orders, by their numbers. */
export const LETTERS = "zbyridnmpeuthcas";

/** The bits of an order, and how much its word grows where its address grows by one. */
const [OF_AN_ORDER, PLACE] = [0x000f3ffc, 4];

const field = (value, [from, to]) => (value >>> (32 - to)) & (2 ** (to - from) - 1);

/** Whether a word is below zero. */
export const isNegative = (digits) => signedOf(digits) < 0;

/** The order that a word is, as it is written; null where it has other bits than those of one. */
export function orderIn(digits) {
    const value = signedOf(digits);
    const letter = LETTERS[field(value, FIELDS.order)];
    const isSigned = value < 0;
    if (((isSigned ? value ^ (1 << 31) : value) & ~OF_AN_ORDER) !== 0 || (isSigned && letter !== "t")) return null;
    return `${isSigned ? "-" : ""}${letter} ${addressOf(SECTORS * field(value, FIELDS.track) + field(value, FIELDS.sector))}`;
}

/** How many places on an address lies that a word is added to, or null where the word is no number of places. */
export const placesIn = (digits) => (signedOf(digits) % PLACE === 0 ? signedOf(digits) / PLACE : null);

/** The position of a sector on the drum's circle. */
export const positionOf = (sector) => (9 * sector) % SECTORS;

/** The sector at a position of that circle, of any turn. */
export const sectorAt = (position) => (57 * (((position % SECTORS) + SECTORS) % SECTORS)) % SECTORS;

/** How many word times it takes until the head has read a sector, from a clock on: the drum is read once at least. */
export const placesTo = (sector, clock) => ((positionOf(sector) - Number(clock % BigInt(SECTORS)) + 2 * SECTORS - 1) % SECTORS) + 1;

/**
 * The same orders with words at other sectors, one after another: each waits until it comes itself, and then its word; all else takes what
 * it took.
 */
export function elsewhere(accounts, sectorOfWord) {
    let clock = accounts[0]?.clock;
    return accounts.map((account) => {
        const { at, inRegister, word, take, act } = account;
        const find = inRegister || at === null ? account.find : placesTo(sectorOf(at), clock);
        const seek = word === null ? account.seek : placesTo(sectorOfWord(word), clock + BigInt(find + take));
        const moved = { ...account, clock, find, seek, sum: find + take + seek + act };
        clock += BigInt(moved.sum);
        return moved;
    });
}

/** The places of the loader. */
const LOADER = { first: numberOf("6300"), last: numberOf("6321") };

/** Whether the number of a place is one of the loader's. */
export const isOfLoader = (number) => number >= LOADER.first && number <= LOADER.last;
