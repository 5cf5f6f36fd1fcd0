// Files by their names, which are bytes: read whole, and kept whole.
import { closeSync, fchmodSync, lstatSync, openSync, readSync, readlinkSync, renameSync, statSync, unlinkSync, writeSync } from "node:fs";
import { dirname, resolve } from "node:path";
import { bytesFrom, textFrom } from "./lines.mjs";

const FILE_LIMIT = 16_777_216;
const PORTION = 65_536;
const ENDINGS = [".new", ".new1", ".new2", ".new3"];

/** Why a file is refused, in words and as a desk is told of it. */
export class FileTrouble extends Error {
    constructor(what, message) {
        super(message);
        this.what = what;
    }
}

/** What the system says where something cannot be read or kept, in words. */
const REASONS = {
    ENOSPC: "the disk is full",
    EDQUOT: "no more may be kept on this disk",
    EFBIG: "a file may not be longer",
    EACCES: "this user may not do that there",
    EPERM: "this user may not do that there",
    EROFS: "this disk cannot be written",
    ENOTDIR: "a file is in the place of a folder",
    ENOENT: "the folder cannot be made",
    EISDIR: "a folder is in the place of a file", EIO: "the disk does not answer",
};

/** Why the system has refused something, in words where they are known. */
export const reasonOf = ({ code, message }) => REASONS[code] ?? message;

const isText = (name) => {
    try {
        new TextDecoder("utf-8", { fatal: true }).decode(bytesFrom(name));
        return true;
    } catch {
        return false;
    }
};

/** All that can still be read, as bytes. Where more than a limit is there, that and some more. */
export function readAll(descriptor, limit = Infinity) {
    const pieces = [];
    for (let length = 0; length <= limit; ) {
        const piece = Buffer.alloc(PORTION);
        const count = readSome(descriptor, piece);
        if (count === 0) break;
        pieces.push(piece.subarray(0, count));
        length += count;
    }
    return Buffer.concat(pieces);
}

/** Reads some bytes, and waits for them; how many they are, 0 at the end. */
export function readSome(descriptor, into) {
    return patiently(() => {
        try {
            return readSync(descriptor, into);
        } catch (failure) {
            if (failure.code === "EOF") return 0;
            throw failure;
        }
    });
}

/** Writes all bytes. */
export function writeAll(descriptor, bytes) {
    for (let at = 0; at < bytes.length; ) at += patiently(() => writeSync(descriptor, bytes, at));
}

/** What a call gives that is made again where a pipe is not ready. */
function patiently(call) {
    for (;;) {
        try {
            return call();
        } catch (failure) {
            if (failure.code !== "EAGAIN") throw failure;
            Atomics.wait(new Int32Array(new SharedArrayBuffer(4)), 0, 0, 5);
        }
    }
}

/** The bytes of a file. */
export function readFile(name) {
    if (!isText(name)) throw new FileTrouble("notNamed");
    let descriptor;
    try {
        descriptor = openSync(bytesFrom(name), "r");
    } catch {
        throw new FileTrouble("notOpened");
    }
    try {
        return readWithin(descriptor);
    } finally {
        closeSync(descriptor);
    }
}

function readWithin(descriptor) {
    let bytes;
    try {
        bytes = readAll(descriptor, FILE_LIMIT);
    } catch {
        throw new FileTrouble("notRead");
    }
    if (bytes.length > FILE_LIMIT) throw new FileTrouble("tooLong");
    return bytes;
}

/** How many links are followed, one after another. */
const MOST_LINKS = 40;

/** The name of the file to which the links of a name lead, whether it is there or not. */
function linkedFrom(name) {
    let path = name;
    for (let links = 0; links < MOST_LINKS; links++) {
        if (!lstatSync(bytesFrom(path), { throwIfNoEntry: false })?.isSymbolicLink()) return path;
        path = resolve(dirname(path), textFrom(readlinkSync(bytesFrom(path), "buffer")));
    }
    throw new Error("its links lead in a circle");
}

/** What stands under a name, links followed; undefined where nothing does. */
const foundAt = (name) => statSync(bytesFrom(name), { throwIfNoEntry: false });

/** A new file beside another one, which it may use the mode of: its own name and its descriptor. */
function fileBeside(name, mode) {
    for (const ending of ENDINGS) {
        const beside = bytesFrom(name + ending);
        try {
            const descriptor = openSync(beside, "wx");
            if (mode !== undefined) fchmodSync(descriptor, mode & 0o7777);
            return { beside, descriptor };
        } catch (failure) {
            if (failure.code !== "EEXIST") throw failure;
        }
    }
    throw new Error("there is no name for a new file");
}

/** Which files a session has written, by what the system calls them: a file that is written is a new one in the place of the old one. */
export class Written {
    #known = new Set();

    /** What the system calls the file of a name; where it cannot say, the line that writes the file is refused for that. */
    #identity(name) {
        const { dev, ino } = this.#found(name) ?? {};
        return `${dev} ${ino}`;
    }

    #found(name) {
        try {
            return foundAt(name);
        } catch (failure) {
            if (failure.code === undefined) throw failure;
            return undefined;
        }
    }

    /** Whether a name has a file that the session has not written, so that somebody might miss it. */
    isOthers(name) {
        const found = this.#found(name);
        return found?.isFile() === true && found.size > 0 && !this.#known.has(this.#identity(name));
    }

    /** Does a work that may write the file of a name. */
    async by(name, work) {
        const before = this.#identity(name);
        await work();
        if (this.#identity(name) !== before) this.#known.add(this.#identity(name));
    }
}

/** Keeps bytes in the file of a name. What was there stays where this fails; what is no regular file is never replaced. */
export function keepFile(name, bytes) {
    try {
        if (!isText(name)) throw new Error("this is not a file name");
        const found = foundAt(name);
        if (found !== undefined && !found.isFile()) throw new Error("this is not a regular file");
        const linked = linkedFrom(name);
        const { beside, descriptor } = fileBeside(linked, found?.mode);
        try {
            writeAll(descriptor, bytes);
            renameSync(beside, bytesFrom(linked));
        } catch (failure) {
            unlinkSync(beside);
            throw failure;
        } finally {
            closeSync(descriptor);
        }
    } catch {
        throw new FileTrouble("notKept", "it cannot be written, and is unchanged");
    }
}
