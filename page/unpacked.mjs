// What packed.mjs has packed, as it was. No browser reads LZMA itself, so it is read here: bits of an arithmetic code say what comes next,
// a byte, or a
// copy of bytes that were there before, and each kind of bit has a chance that follows what it was before.

/** Bits of the byte before that choose the code of a byte. */
const BEFORE = 3;

/** How many states there are, chances of the slot of a distance, and chances of the length of a copy. */
const [STATES, SLOTS, LENGTHS] = [12, 64, 2 + 8 + 8 + 256];

/** Where the chances of each kind of bit begin: the first six kinds have one for each state. */
const [IS_COPY, IS_NEAR, IS_OTHER, IS_THIRD, IS_FOURTH, IS_LONG, SLOT] = Array.from({ length: 7 }, (unused, kind) => kind * STATES);
const MIDDLE = SLOT + 4 * SLOTS;
const LAST = MIDDLE + 128;
const LENGTH = LAST + 16;
const NEAR_LENGTH = LENGTH + LENGTHS;
const BYTE = NEAR_LENGTH + LENGTHS;
const ALL = BYTE + (0x300 << BEFORE);

/** Bits of an arithmetic code, each with the chance that it is 0, of 2048. */
class Coded {
    constructor(bytes) {
        this.bytes = bytes;
        this.place = 5;
        // how wide what is left of the code is, and where the code lies in it
        this.code = Uint32Array.of(0xffffffff, bytes.length < 5 ? 0 : new DataView(bytes.buffer).getUint32(1));
        this.chances = new Uint16Array(ALL).fill(1024);
    }

    /** The next bit; what it is changes its chance. */
    bit(of) {
        const { chances, code } = this;
        const chance = chances[of];
        const bound = Math.imul(code[0] >>> 11, chance) >>> 0;
        let bit = 0;
        if (code[1] < bound) {
            code[0] = bound;
            chances[of] = chance + ((2048 - chance) >> 5);
        } else {
            code[1] -= bound;
            code[0] -= bound;
            chances[of] = chance - (chance >> 5);
            bit = 1;
        }
        if (code[0] < 0x1000000) this.widen(code);
        return bit;
    }

    /** Takes eight more bits of the code in. */
    widen(code) {
        code[0] <<= 8;
        code[1] = (code[1] << 8) | this.bytes[this.place];
        this.place += 1;
    }

    /** Some bits, the highest first, each with a chance of its own for those before it. */
    number(of, count) {
        let found = 1;
        for (let at = 0; at < count; at += 1) found = (found << 1) | this.bit(of + found);
        return found - (1 << count);
    }

    /** The same, the lowest first. */
    turned(of, count) {
        let [found, place] = [0, 1];
        for (let at = 0; at < count; at += 1) {
            const bit = this.bit(of + place);
            place = (place << 1) | bit;
            found |= bit << at;
        }
        return found;
    }

    /** Bits whose chances are even. */
    even(count) {
        const { code } = this;
        let found = 0;
        for (let at = 0; at < count; at += 1) {
            code[0] >>>= 1;
            const bit = code[1] < code[0] ? 0 : 1;
            if (bit === 1) code[1] -= code[0];
            found = (found << 1) | bit;
            if (code[0] < 0x1000000) this.widen(code);
        }
        return found;
    }

    /** How many bytes are copied. */
    length(of) {
        if (this.bit(of) === 0) return 2 + this.number(of + 2, 3);
        if (this.bit(of + 1) === 0) return 10 + this.number(of + 10, 3);
        return 18 + this.number(of + 18, 8);
    }

    /** How far back the copied bytes lie, less one. */
    distance(length) {
        const slot = this.number(SLOT + SLOTS * Math.min(length - 2, 3), 6);
        if (slot < 4) return slot;
        const count = (slot >> 1) - 1;
        const high = 2 | (slot & 1);
        if (slot < 14) return (high << count) + this.turned(MIDDLE + (high << count) - slot, count);
        return (((high << (count - 4)) | this.even(count - 4)) << 4) + this.turned(LAST, 4);
    }

    /** A byte that is not copied; after a copy it is unlike the one that would have come next, of which -1 says that there is none. */
    byte(before, expected) {
        const of = BYTE + 0x300 * (before >> (8 - BEFORE));
        let [found, would] = [1, expected];
        while (would >= 0 && found < 256) {
            const [wouldBe, bit] = [(would >> 7) & 1, this.bit(of + 256 + 256 * ((would >> 7) & 1) + found)];
            found = (found << 1) | bit;
            would = bit === wouldBe ? would << 1 : -1;
        }
        while (found < 256) found = (found << 1) | this.bit(of + found);
        return found & 255;
    }
}

/** A copy: how many bytes it has, the distances that were used last then, its own first, and the state after it. */
function copyIn(coded, state, near) {
    if (coded.bit(IS_NEAR + state) === 0) {
        const length = coded.length(LENGTH);
        return { length, near: [coded.distance(length), near[0], near[1], near[2]], after: state < 7 ? 7 : 10 };
    }
    let which = 0;
    if (coded.bit(IS_OTHER + state) === 1) which = coded.bit(IS_THIRD + state) === 0 ? 1 : 2 + coded.bit(IS_FOURTH + state);
    else if (coded.bit(IS_LONG + state) === 0) return { length: 1, near, after: state < 7 ? 9 : 11 };
    return {
        length: coded.length(NEAR_LENGTH), near: [near[which], ...near.filter((unused, at) => at !== which)], after: state < 7 ? 8 : 11,
    };
}

/**
 * Reads bytes up to a place, or some more, and says where it goes on from. A state says which kinds came before: below 7 the last one was a
 * byte of its own.
 */
function read(coded, bytes, from, until) {
    let { at, state, near } = from;
    while (at < until) {
        if (coded.bit(IS_COPY + state) === 0) {
            bytes[at] = coded.byte(at === 0 ? 0 : bytes[at - 1], state < 7 ? -1 : bytes[at - near[0] - 1]);
            at += 1;
            state = state < 4 ? 0 : state - (state < 10 ? 3 : 6);
            continue;
        }
        const copy = copyIn(coded, state, near);
        ({ near, after: state } = copy);
        for (const end = at + copy.length; at < end; at += 1) bytes[at] = bytes[at - near[0] - 1];
    }
    return { at, state, near };
}

const START = { at: 0, state: 0, near: [0, 0, 0, 0] };

/** What was packed as a text: the code, and room for its bytes. */
function opened(text) {
    const [size, base64] = text.split(" ");
    const signs = atob(base64);
    const bytes = new Uint8Array(signs.length);
    for (let at = 0; at < bytes.length; at += 1) bytes[at] = signs.charCodeAt(at);
    return { coded: new Coded(bytes), bytes: new Uint8Array(Number(size)) };
}

/** The bytes that were packed as a text. */
export function unpacked(text) {
    const { coded, bytes } = opened(text);
    read(coded, bytes, START, bytes.length);
    return bytes;
}

/** The text that was packed. */
export const unpackedText = (text) => new TextDecoder().decode(unpacked(text));

/** The texts that were packed as one, with a zero between two; each is unpacked when it is asked for, and a little of what follows. */
export function* unpackedTexts(text) {
    const { coded, bytes } = opened(text);
    let [begun, from] = [0, START];
    while (begun <= bytes.length) {
        let [seen, end] = [begun, -1];
        for (;;) {
            end = bytes.subarray(0, from.at).indexOf(0, seen);
            if (end >= 0 || from.at >= bytes.length) break;
            seen = Math.max(seen, from.at);
            from = read(coded, bytes, from, Math.min(from.at + 4096, bytes.length));
        }
        if (end < 0) end = bytes.length;
        yield new TextDecoder().decode(bytes.subarray(begun, end));
        begun = end + 1;
    }
}
