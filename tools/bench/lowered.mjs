// Answers scripts by the module as the proofs leave it and by the lowered one, and compares: the status, the length of the replies, and the
// room for them byte for byte, up to its end and some bytes beyond. Each line of standard input is a case of tools/bench/lowered.py, in
// JSON: the script, the
// bytes of the room for replies and those of the memory handed over, and perhaps the replies that another program gives.
//
//     node --experimental-wasm-memory64 tools/bench/lowered.mjs page/lgp_c_region64.wasm libraries/javascript/lgp_c_region.wasm < cases
import { readFileSync } from "node:fs";
import { createInterface } from "node:readline";
import "./wide_memory.mjs";

const MOST = { script: 1 << 20, room: 4 << 20, region: 16 << 20 };
const PAGE = 65536;
const MARGIN = 64;
const UNTOUCHED = 0xaa;
const NO_MEMORY = 3;

const aligned = (address) => (address + 15) & ~15;

/** A module with its memory laid out. */
class Side {
    constructor(path) {
        this.exports = new WebAssembly.Instance(new WebAssembly.Module(readFileSync(path)), {}).exports;
        this.session = aligned(Number(this.exports.__heap_base.value));
        this.outcome = this.session + 64;
        this.handed = this.outcome + 16;
        this.script = this.handed + 16;
        this.room = aligned(this.script + MOST.script);
        this.region = aligned(this.room + MOST.room + MARGIN);
        const { memory } = this.exports;
        memory.grow(Math.ceil((this.region + MOST.region - memory.buffer.byteLength) / PAGE));
        this.bytes = new Uint8Array(memory.buffer);
        this.bytes.fill(UNTOUCHED, this.room, this.region);
    }

    /** Hands memory over anew. */
    #hand(region) {
        this.bytes.fill(0, this.session, this.script);
        new BigUint64Array(this.bytes.buffer, this.handed, 2).set([BigInt(this.region), BigInt(region)]);
    }

    /** Calls a function of the module that writes a reply, and says what it has left. */
    #left(name, room, ...words) {
        const status = this.exports[name](...words.map(BigInt), BigInt(this.room), BigInt(room), BigInt(this.outcome));
        const outcome = [...new BigUint64Array(this.bytes.buffer, this.outcome, 2)];
        const end = this.room + Math.min(Number(outcome[1]), room) + MARGIN;
        const written = Buffer.from(this.bytes.slice(this.room, end));
        this.bytes.fill(UNTOUCHED, this.room, end);
        return { status, outcome, written, isCut: outcome[1] > BigInt(room) };
    }

    #write(text) {
        this.bytes.set(text, this.script);
        return [this.script, text.length];
    }

    /** A whole script in one call. */
    whole(script, room, region) {
        this.#hand(region);
        return this.#left("lgp_run_script_in", room, this.handed, ...this.#write(script));
    }

    /** A script line by line in a session, each reply given twice. */
    * lines(script, room, region) {
        this.#hand(region);
        yield {
            status: this.exports.lgp_open_in(BigInt(this.handed), BigInt(this.session)),
            outcome: [],
            written: Buffer.alloc(0),
            isCut: false,
        };
        for (const line of script.toString("latin1").split("\n")) {
            yield this.#left("lgp_answer_in", room, this.session, ...this.#write(Buffer.from(line.slice(0, 4097), "latin1")));
            yield this.#left("lgp_reply_in", room, this.session);
        }
        yield this.#left("lgp_close_in", room, this.session);
    }
}

const isSame = (one, other) => (
    one.status === other.status && String(one.outcome) === String(other.outcome) && one.written.equals(other.written)
);
const [wide, lowered] = process.argv.slice(2).map((path) => new Side(path));
const count = { cases: 0, lines: 0, roomEnds: 0, memoryEnds: 0, differ: 0 };

/** Compares what both have left, and gives it. */
function compare(one, other, script) {
    count.roomEnds += one.status < NO_MEMORY && one.isCut;
    count.memoryEnds += one.status === NO_MEMORY;
    if (isSame(one, other)) return;
    count.differ += 1;
    if (count.differ <= 5) {
        console.error(
            `tools/bench/lowered: status ${one.status} and ${other.status}, outcome ${one.outcome} and ${other.outcome}: ${JSON.stringify(
                script.toString("latin1").slice(0, 300)
            )}`
        );
    }
}

for await (const text of createInterface({ input: process.stdin })) {
    const { script, room, region, replies } = JSON.parse(text);
    const bytes = Buffer.from(script, "base64");
    const whole = lowered.whole(bytes, room, region);
    compare(wide.whole(bytes, room, region), whole, bytes);
    if (replies !== undefined) {
        compare({ ...whole, written: Buffer.concat([Buffer.from(replies, "base64"), Buffer.alloc(MARGIN, UNTOUCHED)]) }, whole, bytes);
    }
    const other = lowered.lines(bytes, room, region);
    for (const one of wide.lines(bytes, room, region)) {
        count.lines += 1;
        compare(one, other.next().value, bytes);
    }
    count.cases += 1;
}
console.log(
    `${count.cases} scripts, ${count.lines} calls of sessions, ${count.roomEnds} replies cut off by the room's end, ${count.memoryEnds} by memory's end: ${count.differ} differ`
);
process.exitCode = count.differ === 0 && count.roomEnds > 0 && count.memoryEnds > 0 ? 0 : 1;
