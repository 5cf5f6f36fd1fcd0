// @ts-check
// Messages as both protocols frame them: a header that says how many bytes of JSON come, an empty line, and these.

const [HEADER_LIMIT, MESSAGE_LIMIT] = [4096, 2 ** 26];
const LINE_END = "\r\n";
/** A line of a header, and one that has begun. */
const [FIELD, BEGUN] = [/^[\w-]+:[^\r\n]*$/, /^(?:[\w-]+(?::[^\r\n]*)?\r?)?$/];
const LENGTH = /^Content-Length: *(\d{1,9}) *$/i;
const WANTED = "a header is Content-Length, a number of bytes and two line ends";

/** The bytes of a message. */
export function framed(message) {
    const body = Buffer.from(JSON.stringify(message));
    return Buffer.concat([Buffer.from(`Content-Length: ${body.length}${LINE_END}${LINE_END}`), body]);
}

/** How many bytes a header takes and says, as far as it has come: null where more of it is to come. Throws why it is none. */
function headerOf(text) {
    const lines = text.split(LINE_END);
    const begun = lines.pop() ?? "";
    const end = lines.indexOf("");
    const wrong = lines.slice(0, end < 0 ? lines.length : end).find((line) => !FIELD.test(line)) ?? (
        end < 0 && !BEGUN.test(begun) ? begun : undefined
    );
    if (wrong !== undefined) throw new Error(`${JSON.stringify(wrong.slice(0, 40))} is no line of a header`);
    if (end < 0 && text.length > HEADER_LIMIT) throw new Error(`it has more than ${HEADER_LIMIT} bytes`);
    if (end < 0) return null;
    const length = lines.slice(0, end).map((line) => LENGTH.exec(line)).find((found) => found !== null);
    if (length === undefined || length === null) throw new Error("it has no Content-Length");
    if (Number(length[1]) > MESSAGE_LIMIT) throw new Error(`a message has at most ${MESSAGE_LIMIT} bytes`);
    return { taken: lines.slice(0, end + 1).reduce((sum, line) => sum + line.length + LINE_END.length, 0), length: Number(length[1]) };
}

export class Framing {
    /** @type {Uint8Array[]} */
    #pieces = [];
    #length = 0;
    /** @type {number | null} */
    #wanted = null;
    #isBroken = false;
    #take;
    #refuse;
    #break;

    /**
     * What is called with each message, with why the bytes of one are no JSON, and with why they are no messages any more: after that
     * nothing is taken.
     */
    constructor(take, refuse, breakOff = refuse) {
        this.#take = take;
        this.#refuse = refuse;
        this.#break = breakOff;
    }

    /** Takes bytes as they come. */
    push(bytes) {
        this.#pieces.push(bytes);
        this.#length += bytes.length;
        while (!this.#isBroken && this.#length >= (this.#wanted ?? 1)) {
            const all = Buffer.concat(this.#pieces);
            const rest = this.#wanted === null ? this.#afterHeader(all) : this.#afterBody(all, this.#wanted);
            this.#pieces = [rest];
            this.#length = rest.length;
            if (this.#wanted === null && rest.length === all.length) return;
        }
    }

    /** What comes after the header, once that is whole. Where it is wrong nobody knows where the next message begins. */
    #afterHeader(all) {
        try {
            const header = headerOf(all.subarray(0, HEADER_LIMIT + 1).toString("latin1"));
            if (header === null) return all;
            this.#wanted = header.length;
            return all.subarray(header.taken);
        } catch (failure) {
            this.#isBroken = true;
            this.#break(`these bytes are no message: ${failure.message}; ${WANTED}`);
            return all;
        }
    }

    #afterBody(all, length) {
        const body = all.subarray(0, length).toString();
        const rest = all.subarray(length);
        this.#wanted = null;
        let message;
        try {
            message = JSON.parse(body);
        } catch (failure) {
            this.#refuse(`a message is no JSON: ${failure.message}`);
            return rest;
        }
        this.#take(message);
        return rest;
    }
}
