// @ts-check
// What the module's scripts use of node's Buffer, for a browser: texts of which each sign is a byte.

export class Buffer extends Uint8Array {
    static from(from, coding) {
        return coding === "latin1" ? super.from(from, (/** @type {any} */ sign) => sign.charCodeAt(0)) : super.from(from);
    }

    toString() {
        let text = "";
        for (let at = 0; at < this.length; at += 4096) text += String.fromCharCode(...this.subarray(at, at + 4096));
        return text;
    }
}
