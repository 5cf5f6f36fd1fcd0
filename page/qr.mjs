// A text as a code for a camera. The library makes the code; here it becomes a drawing.
import qrcode from "qrcode-generator/qrcode.js";

/**
 * The most bytes of a code: as many as its version 25 has at the lowest level of correction. A larger one has dots that a camera cannot
 * tell apart on a screen.
 */
const MOST = 1273;

/** The edge around a code that its standard asks for, in dots. */
const EDGE = 4;

/**
 * A text as a drawing: how wide it is, in dots with its edge, and the path of its dark ones, row by row; null where the text is too long.
 */
export function codeOf(text) {
    if (text.length > MOST) return null;
    const code = qrcode(0, "L");
    code.addData(text);
    code.make();
    const count = code.getModuleCount();
    const rowOf = (row) => Array.from({ length: count }, (unused, column) => (code.isDark(row, column) ? "1" : "0")).join("");
    const path = Array.from(
        { length: count },
        (unused, row) => [...rowOf(row).matchAll(/1+/g)].map(({ index, 0: { length } }) => (
            `M${index + EDGE} ${row + EDGE}h${length}v1h-${length}z`
        )).join("")
    );
    return { width: count + 2 * EDGE, path: path.join("") };
}
