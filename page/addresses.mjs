// Addresses as they are written: track and sector, two decimal digits each, in one count of 64 sectors a track.

/** How many words the drum has. */
export const PLACES = 4096;

/** How many sectors a track has, and so how many word times a turn takes. */
export const SECTORS = 64;

/** The number of an address. */
export const numberOf = (address) => SECTORS * Number(address.slice(0, 2)) + Number(address.slice(2));

/** The address of a number. */
export const addressOf = (number) => `${String(Math.floor(number / SECTORS)).padStart(2, "0")}${String(number % SECTORS).padStart(2, "0")}`;

/** The letter and the address of an order as it is written, such as `-t 0050 table`; null of a text that is none, such as a status. */
export function partsOfOrder(text) {
    const [letter, address] = (text.startsWith("-") ? text.slice(1) : text).split(" ");
    return letter.length === 1 ? { letter, address } : { letter: null, address: null };
}

/** An order as it is written without the label of its address; null where there is none. */
export const bareOrder = (order) => (order === null ? null : order.split(" ").slice(0, 2).join(" "));

/** The address in an order as it is written, or null. */
export const addressIn = (text) => partsOfOrder(text).address;

/** The addresses of a number of places from one on. */
export const addressesFrom = (first, count) => Array.from({ length: count }, (unused, place) => addressOf(numberOf(first) + place));

/** The addresses of the track of an address. */
export const trackOf = (address) => addressesFrom(`${address.slice(0, 2)}00`, SECTORS);

/** The first of a number of places that show an address, a few before it, of the drum or of the places of some addresses. */
export function windowAt(address, count, [first, last] = ["0000", "6363"]) {
    return addressOf(Math.max(numberOf(first), Math.min(numberOf(last) + 1 - count, numberOf(address) - Math.floor(count / 3))));
}

/** Whether an address is one of this many places from another one on. */
export function isAmong(address, first, count) {
    const distance = numberOf(address) - numberOf(first);
    return distance >= 0 && distance < count;
}

/** The sector of an address. */
export const sectorOf = (address) => Number(address.slice(2));

/** A sector as it is written. */
export const inTwoDigits = (sector) => String(sector).padStart(2, "0");
