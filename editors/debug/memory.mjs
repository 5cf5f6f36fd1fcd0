// @ts-check
// The drum as bytes, four for each word, the first digits first; and as instructions.
import { PLACES, SECTORS, addressOf, numberOf } from "../../page/addresses.mjs";
import { digitsOf, signedOf } from "../../libraries/javascript/replies.mjs";
import { Refused } from "./machine.mjs";

const [BYTES, ASKED] = [4, 64];

/** How many words there are from a place on, at most this number. */
const within = (place, count) => Math.max(0, Math.min(count, PLACES - place));

/** The track and the sector of an address, counted from 0. */
export const partsOf = (address) => ({ track: Math.floor(numberOf(address) / SECTORS), sector: numberOf(address) % SECTORS });

/** A reference and an offset in bytes as the monitor takes an address. */
export function addressAt(reference, offset = 0) {
    const words = Math.floor(offset / BYTES);
    return words === 0 ? reference : `${reference}${words < 0 ? "-" : "+"}${Math.abs(words)}`;
}

export class Memory {
    /** How many bytes the drum has. */
    static BYTES = BYTES * PLACES;
    #machine;

    constructor(machine) {
        this.#machine = machine;
    }

    /** The number of the place that a reference and an offset in bytes name. It may be off the drum. */
    #placeOf(reference, offset = 0) {
        return numberOf(this.#machine.word(reference).get("address")) + Math.floor(offset / BYTES);
    }

    /** The records of words from a place on. */
    #words(place, count) {
        const words = [];
        for (let at = 0; at < count; at += ASKED) words.push(...this.#machine.words(addressOf(place + at), Math.min(ASKED, count - at)));
        return words;
    }

    /** The words of a track as lines, one for each sector. */
    track(number) {
        return this.#words(SECTORS * number, SECTORS).map((word) => [
            word.get("address"), word.get("digits"), word.get("order"), word.get("label"),
        ].filter((it) => it !== undefined).join("  ")).join("\n");
    }

    #bytes(place, count) {
        const bytes = new Uint8Array(count * BYTES);
        const view = new DataView(bytes.buffer);
        for (const [at, word] of this.#words(place, count).entries()) view.setInt32(at * BYTES, signedOf(word.get("digits")));
        return bytes;
    }

    /** @param {import("@vscode/debugprotocol").DebugProtocol.ReadMemoryArguments} given */
    read({ memoryReference, offset = 0, count }) {
        const place = this.#placeOf(memoryReference, offset);
        const skipped = offset - BYTES * Math.floor(offset / BYTES);
        if (place < 0 || place >= PLACES) return { address: memoryReference, unreadableBytes: count };
        const bytes = this.#bytes(place, within(place, Math.ceil((count + skipped) / BYTES))).subarray(skipped, skipped + count);
        return {
            address: addressOf(place), data: btoa(String.fromCharCode(...bytes)),
            ...(bytes.length < count ? { unreadableBytes: count - bytes.length } : {})
        };
    }

    /** Puts the words that the bytes change. All of them are on the drum, or nothing is put. */
    write({ memoryReference, offset = 0, data }) {
        const written = Uint8Array.from(atob(data), (sign) => sign.charCodeAt(0));
        const place = this.#placeOf(memoryReference, offset);
        const skipped = offset - BYTES * Math.floor(offset / BYTES);
        const count = Math.ceil((written.length + skipped) / BYTES);
        if (place < 0 || within(place, count) < count) throw new Refused(
            `${written.length} bytes from ${memoryReference} on are not all on the drum`
        );
        const before = this.#bytes(place, count);
        const after = before.slice();
        after.set(written, skipped);
        this.#put(place, before, after);
        return { bytesWritten: written.length };
    }

    #put(place, before, after) {
        const [old, fresh] = [before, after].map((bytes) => Array.from(
            { length: bytes.length / BYTES }, (_, at) => digitsOf(new DataView(bytes.buffer).getInt32(at * BYTES))
        ));
        const changed = [...fresh.entries()].filter(([at, digits]) => digits !== old[at]);
        for (const [, digits] of changed) this.#machine.digitsOf(digits);
        this.#machine.atRest(() => changed.forEach(([at, digits]) => this.#machine.does(`put ${addressOf(place + at)} ${digits}`)));
    }

    /** Words as instructions; where there is no drum, ones that are none, since as many are wanted as were asked for. */
    disassembled({ memoryReference, offset = 0, instructionOffset = 0, instructionCount }, locationOf) {
        const first = this.#placeOf(memoryReference, offset) + instructionOffset;
        const from = Math.min(Math.max(first, 0), PLACES);
        const words = this.#words(from, within(from, Math.max(0, first + instructionCount - from)));
        return Array.from({ length: instructionCount }, (_, at) => {
            const word = words[first + at - from];
            return word === undefined ? this.#none(first + at) : this.#instruction(word, locationOf);
        });
    }

    #none(place) {
        return { address: String(place < 0 ? place : 10_000 + place), instruction: "not on the drum" };
    }

    #instruction(word, locationOf) {
        const [address, digits, label] = ["address", "digits", "label"].map((key) => word.get(key));
        return {
            address, instructionBytes: digits, instruction: word.get("order") ?? `word ${digits}`,
            ...(label === undefined ? {} : { symbol: label }), ...locationOf(address)
        };
    }
}
