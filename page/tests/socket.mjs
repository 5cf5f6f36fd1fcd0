// A web socket to a program on this machine, for messages of text. Later versions of node have one of their own.
import { randomBytes } from "node:crypto";
import { request } from "node:http";

const TEXT = 0x81;
const MASKED = 0x80;
const KINDS = { more: 0, text: 1, end: 8, ping: 9 };

/** The beginning of a frame with this many bytes of text, which says their number in as few bytes as may be. */
function headOf(length) {
    if (length < 126) return Buffer.of(TEXT, MASKED | length);
    const isShort = length < 1 << 16;
    const head = Buffer.alloc(isShort ? 4 : 10);
    head.set([TEXT, MASKED | (isShort ? 126 : 127)]);
    if (isShort) head.writeUInt16BE(length, 2);
    else head.writeBigUInt64BE(BigInt(length), 2);
    return head;
}

/** A frame with a text, as a client sends it. */
function frameOf(text) {
    const bytes = Buffer.from(text);
    const mask = randomBytes(4);
    return Buffer.concat([headOf(bytes.length), mask, bytes.map((byte, place) => byte ^ mask[place % 4])]);
}

/**
 * The first frame in some bytes: its kind, whether it is the last of its message, what it holds and what comes after it; null where it is
 * not whole.
 */
function firstFrame(bytes) {
    if (bytes.length < 2) return null;
    const short = bytes[1] & 0x7f;
    const start = { 126: 4, 127: 10 }[short] ?? 2;
    if (bytes.length < start) return null;
    const length = { 126: () => bytes.readUInt16BE(2), 127: () => Number(bytes.readBigUInt64BE(2)) }[short]?.() ?? short;
    if (bytes.length < start + length) return null;
    return {
        kind: bytes[0] & 0x0f, isLast: bytes[0] >= 0x80, held: bytes.subarray(start, start + length), rest: bytes.subarray(start + length),
    };
}

/** Opens a socket at an address `ws://..`; each message that comes is told. Gives a function that sends one. */
export function openSocket(address, told) {
    return new Promise((resolve, reject) => {
        const headers = {
            Connection: "Upgrade",
            Upgrade: "websocket",
            "Sec-WebSocket-Version": "13",
            "Sec-WebSocket-Key": randomBytes(16).toString("base64"),
        };
        const asked = request(address.replace(/^ws/, "http"), { headers });
        asked.on("error", reject).on("response", ({ statusCode }) => reject(new Error(`no socket at ${address}: ${statusCode}`)));
        asked.on("upgrade", (unused, socket, first) => {
            let pieces = [first];
            let message = [];
            const read = () => {
                let bytes = Buffer.concat(pieces);
                for (let frame = firstFrame(bytes); frame !== null; frame = firstFrame(bytes)) {
                    bytes = frame.rest;
                    if (frame.kind !== KINDS.text && frame.kind !== KINDS.more) continue;
                    message.push(frame.held);
                    if (!frame.isLast) continue;
                    told(Buffer.concat(message).toString());
                    message = [];
                }
                pieces = [bytes];
            };
            socket.on("data", (piece) => { pieces.push(piece); read(); }).on("error", () => {});
            resolve((text) => socket.write(frameOf(text)));
        }).end();
    });
}
