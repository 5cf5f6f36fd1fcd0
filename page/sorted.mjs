// The module's bytes sorted by what they say, and back: alike ones compress better side by side. The numbers of locals, the constants of
// 64 bits and the places of words in memory stand in rows of their own, all else in the first row. In the place of a local stands how many
// others its function has named since.
const [REST, LOCALS, CONSTANTS, PLACES] = [0, 1, 2, 3];

/** The locals that a function may have, none of them named yet. */
const UNNAMED = Uint16Array.from({ length: 1024 }, (unused, local) => local);

/** What the section of functions is called, and how many bytes come before the sections. */
const [FUNCTIONS, BEGINNING] = [10, 8];

/** The orders that name a local, the one with a table of ways, and the long one, of which some copy or fill memory. */
const [GET, TEE, WAYS, LONG, COPY, FILL] = [0x20, 0x22, 0x0e, 0xfc, 10, 11];

/** From and to which order others are followed by numbers, and the rows of these. */
const NUMBERS = [
    [0x02, 0x04, [REST]], [0x0c, 0x0d, [REST]], [0x10, 0x10, [REST]], [0x11, 0x11, [REST, REST]], [0x23, 0x24, [REST]],
    [0x28, 0x3e, [REST, PLACES]], [0x3f, 0x41, [REST]], [0x42, 0x42, [CONSTANTS]],
];
const AFTER = Array.from({ length: 256 }, (unused, order) => (
    NUMBERS.find(([first, last]) => order >= first && order <= last)?.[2] ?? []
));

/** Goes through a module and copies each byte from its row to its row; on one of the two sides all four rows are the module itself. */
class Copied {
    constructor(from, to, isSorting) {
        Object.assign(this, { from, to, isSorting, module: (isSorting ? from : to)[REST] });
    }

    put(row, byte) {
        row.bytes[row.at] = byte;
        row.at += 1;
    }

    byte(of) {
        const row = this.from[of];
        const other = this.to[of];
        const byte = row.bytes[row.at];
        other.bytes[other.at] = byte;
        row.at += 1;
        other.at += 1;
        return byte;
    }

    /** A number, seven bits in each of its bytes. */
    number(of) {
        let number = 0;
        for (let shift = 0; ; shift += 7) {
            const byte = this.byte(of);
            number |= (byte & 127) << shift;
            if ((byte & 128) === 0) return number;
        }
    }

    /** A local; those that were named last come first in `named`. */
    local(named) {
        const row = this.to[LOCALS];
        const { at } = row;
        const told = this.number(LOCALS);
        const local = this.isSorting ? told : named[told];
        const place = this.isSorting ? named.indexOf(told) : told;
        for (let after = place; after > 0; after -= 1) named[after] = named[after - 1];
        named[0] = local;
        row.at = at;
        let left = this.isSorting ? place : local;
        for (; left > 127; left >>= 7) this.put(row, 128 | (left & 127));
        this.put(row, left);
    }

    numbers(count) {
        for (let left = count; left > 0; left -= 1) this.number(REST);
    }

    order(named) {
        const order = this.byte(REST);
        const rows = AFTER[order];
        for (let at = 0; at < rows.length; at += 1) this.number(rows[at]);
        if (order >= GET && order <= TEE) this.local(named);
        if (order === WAYS) this.numbers(this.number(REST) + 1);
        if (order === LONG) this.numbers({ [COPY]: 2, [FILL]: 1 }[this.number(REST)] ?? 0);
    }

    aFunction() {
        const end = this.number(REST) + this.module.at;
        this.numbers(2 * this.number(REST));
        const named = UNNAMED.slice();
        while (this.module.at < end) this.order(named);
    }

    section() {
        const name = this.byte(REST);
        const end = this.number(REST) + this.module.at;
        if (name === FUNCTIONS) for (let left = this.number(REST); left > 0; left -= 1) this.aFunction();
        while (this.module.at < end) this.byte(REST);
    }

    all(size) {
        while (this.module.at < Math.min(BEGINNING, size)) this.byte(REST);
        while (this.module.at < size) this.section();
    }
}

/** A module's bytes, sorted: before the rows it is written how long the module is, and each row but the first. */
export function sorted(module) {
    const [from, to] = [{ bytes: module, at: 0 }, [[], [], [], []].map((bytes) => ({ bytes, at: 0 }))];
    new Copied(to.map(() => from), to, true).all(module.length);
    const sizes = Uint32Array.from(to, ({ bytes }, of) => (of === REST ? module.length : bytes.length));
    return Uint8Array.from([...new Uint8Array(sizes.buffer), ...to.flatMap(({ bytes }) => bytes)]);
}

/** The module's bytes that were sorted. */
export function unsorted(bytes) {
    const sizes = new Uint32Array(bytes.slice(0, 16).buffer);
    const module = { bytes: new Uint8Array(sizes[REST]), at: 0 };
    let end = bytes.length;
    const rows = [PLACES, CONSTANTS, LOCALS].map((of) => ({ bytes, at: end -= sizes[of] }));
    new Copied([{ bytes, at: sizes.byteLength }, ...rows.reverse()], [module, module, module, module], false).all(module.bytes.length);
    return module.bytes;
}
