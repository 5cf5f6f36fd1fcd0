// Calls of the proved module: a session, which answers one line of the monitor after another, and whole scripts.
//
// The module is crates/lgp_c_region, linked for wasm64 and lowered to a memory of 32 bits; libraries/c/lgp30.h describes its functions.
// They take addresses and lengths as BigInts. Its memory is laid out here after what the module itself uses:
//
//     session | outcome | memory to hand over | text | region, handed over for good | room for replies, which grows

const PAGE = 65_536;
const LINE = 4097;
const FIRST_ROOM = 2 ** 20;
// a source of as many faulty lines as it may have has a shorter reply
const LAST_ROOM = 2 ** 25;
const WELL = 0;
const QUESTIONS = 1;
const MEMORY = "there is not enough memory";
const FUNCTIONS = [
    "lgp_open_in", "lgp_answer_in", "lgp_reply_in", "lgp_close_in", "lgp_run_script_in", "lgp_source_in", "lgp_tell_in", "lgp_show_in",
    "lgp_wish_in", "lgp_manner_in", "lgp_leave_in",
];
// by their places: the numbers of libraries/c/lgp30.h
const TOLD = ["typed", "first", "onward", "found", "notOpened", "notRead", "tooLong", "notNamed", "kept", "notKept"];
const SHOWN = ["prompt", "name", "made"];
const WISHES = ["line", "onward", "file", "kept", "nothing"];
const WANTED = ["asm", "tape", "run"];
const MANNERS = ["bare", "prompting", "echo", "json"];

/** How many bytes a session has, where nothing else is said. */
export const REGION = 2 ** 26;

const NO_BYTES = new Uint8Array();
/** A page without anything. */
const EMPTY = new Uint8Array(PAGE);

/** There was not enough memory. A session is closed then. */
export class NoMemory extends Error {}

/** The module cannot be had: the bytes are none, or this browser takes none. */
export class NoModule extends Error {}

/** The bytes of a text; bytes are themselves. */
export const bytesOf = (text) => (typeof text === "string" ? new TextEncoder().encode(text) : text);

/** The text of bytes. */
export const textOf = (bytes) => new TextDecoder("utf-8", { ignoreBOM: true }).decode(bytes);

const aligned = (address) => Math.ceil(address / 16) * 16;

/** The compiled module of these bytes; a compiled one is itself. */
export function compiled(bytes) {
    if (typeof WebAssembly !== "object" || typeof BigInt !== "function") throw new NoModule("there is no WebAssembly here, or no BigInt");
    if (bytes instanceof WebAssembly.Module) return checked(bytes);
    try {
        return checked(new WebAssembly.Module(bytes));
    } catch (failure) {
        if (failure instanceof NoModule) throw failure;
        throw new NoModule(`these bytes are not a module that can be used here: ${failure.message}`);
    }
}

function checked(module) {
    const names = WebAssembly.Module.exports(module).map(({ name }) => name);
    const missing = FUNCTIONS.find((name) => !names.includes(name));
    if (missing !== undefined) throw new NoModule(`this module is not the laboratory's: it has no ${missing}`);
    return module;
}

/** An instance of the module, its memory laid out for a text of a given size and a region. */
class Instance {
    #exports;
    #room;
    #textLength;

    constructor(module, textLength, region, room = FIRST_ROOM) {
        this.#textLength = textLength;
        const code = compiled(module);
        this.#exports = new WebAssembly.Instance(code, {}).exports;
        this.session = aligned(Number(this.#exports.__heap_base.value));
        this.outcome = this.session + 64;
        this.handed = this.outcome + 16;
        this.text = this.handed + 16;
        const start = aligned(this.text + textLength);
        this.room = start + region;
        this.#grow(room);
        this.#pair(this.handed).set([BigInt(start), BigInt(region)]);
    }

    #pair(address) {
        return new BigUint64Array(this.#exports.memory.buffer, address, 2);
    }

    /** Calls a function of the module; numbers are addresses and lengths, and one in a list is a number of 32 bits. */
    call(name, ...numbers) {
        return this.#exports[name](...numbers.map((number) => (Array.isArray(number) ? number[0] : BigInt(number))));
    }

    /** Calls one that writes a reply, and gives its status. */
    asks(name, ...numbers) {
        return this.call(name, ...numbers, this.room, this.#room, this.outcome);
    }

    /**
     * Writes a text where the module reads it, and gives its place and length. A text for which that place is too small stands after the
     * room for replies.
     */
    write(text) {
        const place = text.length <= this.#textLength ? this.text : this.room + this.#room;
        this.#reach(place + text.length);
        new Uint8Array(this.#exports.memory.buffer, place, text.length).set(text);
        return [place, text.length];
    }

    /** How many lines or replies of the last call are refusals, and how many bytes all replies have. */
    get told() {
        return [...this.#pair(this.outcome)].map(Number);
    }

    /** Whether the last reply has more bytes than there was room for. Then there is room now. */
    isCut() {
        const [, length] = this.told;
        const wasCut = length > this.#room;
        if (wasCut) this.#grow(length);
        return wasCut;
    }

    /** The bytes of the last reply. */
    get reply() {
        return new Uint8Array(this.#exports.memory.buffer, this.room, this.told[1]).slice();
    }

    /** Makes a room of a number of bytes. */
    #grow(room) {
        this.#reach(this.room + room);
        this.#room = room;
    }

    /** Makes the memory reach up to an address. */
    #reach(end) {
        const { memory } = this.#exports;
        const missing = end - memory.buffer.byteLength;
        try {
            if (missing > 0) memory.grow(Math.ceil(missing / PAGE));
        } catch (refusal) {
            if (refusal instanceof RangeError) throw new NoMemory(`${MEMORY}: ${refusal.message}`);
            throw refusal;
        }
    }

    /** What its memory holds below the room for replies: the pages that are not all zeros, each with its place. */
    get image() {
        return this.#pages()
            .filter((page) => !page.equals(EMPTY.subarray(0, page.length)))
            .map((page) => ({ at: page.byteOffset, bytes: Uint8Array.from(page) }));
    }

    /** Makes its memory what an image holds, of an instance laid out alike. */
    restore(image) {
        const kept = new Map(image.map(({ at, bytes }) => [at, bytes]));
        for (const page of this.#pages()) {
            if (kept.has(page.byteOffset)) page.set(kept.get(page.byteOffset));
            else if (!page.equals(EMPTY.subarray(0, page.length))) page.fill(0);
        }
    }

    #pages() {
        const { buffer } = this.#exports.memory;
        return Array.from(
            { length: Math.ceil(this.room / PAGE) }, (unused, at) => Buffer.from(buffer, at * PAGE, Math.min(PAGE, this.room - at * PAGE))
        );
    }

    /** Makes room for the longest reply to an end. */
    widen() {
        if (this.#room < LAST_ROOM) this.#grow(LAST_ROOM);
    }
}

/** A laboratory that stays between lines. One that ran out of memory is closed for good. */
export class Session {
    #instance;

    /** Opens a session in a new instance of a module. */
    constructor(module, region = REGION) {
        this.#instance = new Instance(module, LINE, region);
        if (this.#instance.call("lgp_open_in", this.#instance.handed, this.#instance.session) !== WELL) {
            throw new NoMemory(`${MEMORY} to open a laboratory`);
        }
    }

    /** Answers a line, in bytes without a line feed: the bytes of its reply, and whether it is refused. Throws NoMemory. */
    bytesFor(line) {
        return this.#given("lgp_answer_in", ...this.#instance.write(line.subarray(0, LINE)));
    }

    /** The reply of a call that may have to be given once more. */
    #given(name, ...numbers) {
        const status = this.#instance.asks(name, this.#instance.session, ...numbers);
        if (status > QUESTIONS) throw new NoMemory(`${MEMORY} for this line`);
        if (this.#instance.isCut()) this.#instance.asks("lgp_reply_in", this.#instance.session);
        return { reply: this.#instance.reply, isRefused: status === QUESTIONS };
    }

    /**
     * Tells its desk something, with the bytes that belong to it: the bytes that are to be written, and whether they are a refusal. Throws
     * NoMemory.
     */
    tell(what, bytes = NO_BYTES) {
        return this.#given("lgp_tell_in", [TOLD.indexOf(what)], ...this.#instance.write(bytes));
    }

    /** What its desk shows: the bytes of the prompt, of the name of a file, or of what is to be kept there. Throws NoMemory. */
    show(what) {
        return this.#given("lgp_show_in", [SHOWN.indexOf(what)]).reply;
    }

    /** What its desk wishes for. */
    get wish() {
        return WISHES[this.#instance.call("lgp_wish_in", this.#instance.session)];
    }

    /** Sets how its desk writes replies. */
    setManner(manner) {
        this.#instance.call("lgp_manner_in", this.#instance.session, [MANNERS.indexOf(manner)]);
    }

    /** Answers a line: its reply, with a line feed after each of its lines. */
    answer(line) {
        return textOf(this.bytesFor(bytesOf(line)).reply);
    }

    /** What it is between two lines, for a session of the same module and region. Only where there are buffers, as in node. */
    get image() {
        return this.#instance.image;
    }

    restore(image) {
        this.#instance.restore(image);
    }

    /** Ends the session: the same of the reply to a source that was open; otherwise that is empty. */
    close() {
        return this.#ended("lgp_close_in");
    }

    /** Ends the session of a desk: the bytes that are to be written then, and whether they are a refusal. */
    leave() {
        return this.#ended("lgp_leave_in");
    }

    #ended(name) {
        this.#instance.widen();
        const status = this.#instance.asks(name, this.#instance.session);
        if (status > QUESTIONS || this.#instance.isCut()) throw new NoMemory(`${MEMORY} for the end`);
        return { reply: this.#instance.reply, isRefused: status === QUESTIONS };
    }
}

/** Calls a function over a whole text, once more with enough room where its answer is long: the bytes of the answer, and its questions. */
function answerText(module, text, region, call) {
    const run = (room) => {
        const instance = new Instance(module, text.length, region, room);
        const status = call(instance, ...instance.write(text));
        if (status > QUESTIONS) throw new NoMemory(`${MEMORY} for this text`);
        return instance;
    };
    const first = run(FIRST_ROOM);
    const [questions, length] = first.told;
    return { replies: (length > FIRST_ROOM ? run(length) : first).reply, questions };
}

/**
 * Answers a whole script, in bytes, from a machine in its opening state: the bytes of the replies, and how many begin with a question mark.
 */
export function answerScript(module, script, region = REGION) {
    return answerText(module, script, region, (instance, ...text) => instance.asks("lgp_run_script_in", instance.handed, ...text));
}

/**
 * What is wanted of a source, in bytes: with "asm" its listing, with "tape" its tape, with "run" what a run of at most `limit` orders
 * prints, and the panel; or its faults, and then `questions` is 1.
 */
export function answerSource(module, wanted, source, limit = 0, region = REGION) {
    return answerText(module, source, region, (instance, ...text) => (
        instance.asks("lgp_source_in", instance.handed, [WANTED.indexOf(wanted)], limit, ...text)
    ));
}
