// Texts and the module's bytes, packed for the page: compressed in the format LZMA by xz, with what unpacked.mjs expects, and written in
// base 64, after their size. A page's way through a network compresses base 64 nearly to what it stands for.
import { spawnSync } from "node:child_process";
import { sorted, unsorted } from "./sorted.mjs";

/** Bytes, packed as a text. */
export function packed(bytes) {
    const { status, stdout, stderr } = spawnSync(
        "xz", ["--format=raw", "--lzma1=preset=9e,lc=3,lp=0,pb=0,nice=112", "--stdout"], { input: bytes, maxBuffer: 1 << 28 }
    );
    if (status !== 0) throw new Error(`xz (Debian package xz-utils) has not packed: ${stderr ?? "it is not there"}`);
    return `${bytes.length} ${stdout.toString("base64")}`;
}

/** A text, packed. */
export const packedText = (text) => packed(new TextEncoder().encode(text));

/** A module's bytes, sorted and packed. */
export function packedModule(bytes) {
    const rows = sorted(bytes);
    if (Buffer.compare(unsorted(rows), bytes) !== 0) throw new Error("page/sorted.mjs lacks an order of the module: it would not come back");
    return packed(rows);
}
