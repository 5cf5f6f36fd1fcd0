// What lies ahead of a place that a session has gone back to: the lines of the session that was left, as long as nothing else is done.
import { isRefusal, lastOf, linesOf, orderOf } from "./replies.mjs";

/** The commands that go back. */
const BACK = ["back", "last", "to"];

export const goesBack = (command) => BACK.includes(command);

/** Where a line has gone: a number of orders back, or to the order of a number; null where it has gone nowhere. */
function goneBy(command, operands, reply) {
    if (isRefusal(reply)) return null;
    if (command === "to") return { order: orderOf(reply) };
    return { back: command === "back" ? Number(operands[0]) : lastOf(reply).orders };
}

export class Ahead {
    /** The transcript of the session that was left, and the one at the place that was gone to; null where nothing was gone back over. */
    #left = null;
    #here = null;
    /** The place: a number of orders back, or the number of an order. One that was gone to in both ways has neither. */
    #place = null;

    /** A line has been answered before which the transcript was another. */
    answered(command, operands, reply, before, now) {
        const gone = goneBy(command, operands, reply);
        if (gone === null || before === now) return;
        const isOn = before === this.#here;
        const isSame = !isOn || (this.#place !== null && Object.keys(gone)[0] === Object.keys(this.#place)[0]);
        const back = isOn && isSame && gone.back !== undefined ? { back: this.#place.back + gone.back } : gone;
        if (!isOn) this.#left = before;
        this.#here = now;
        this.#place = isSame ? back : null;
    }

    /** Why there is nothing to go forward to, at a transcript; null where there is. */
    refusalAt(transcript, orders) {
        if (this.#here === null) return "nothing was gone back over: back, last and to go back";
        if (transcript !== this.#here) {
            const [line] = transcript.startsWith(this.#here) ? linesOf(transcript.slice(this.#here.length)) : [];
            return `something else was done since then${line === undefined ? "" : `: ${line}`}`;
        }
        return orders !== null && this.#place === null ? "back and to were both used: forward alone goes to where the session was" : null;
    }

    /** The lines of the session that was left, and one that goes back to a number of orders from here; null where all are meant. */
    way(orders) {
        const { back = 0, order = 0 } = this.#place ?? {};
        const isByNumber = this.#place?.order !== undefined;
        const isAll = orders === null || (!isByNumber && orders >= back);
        return { lines: linesOf(this.#left), line: isAll ? null : isByNumber ? `to ${order + orders}` : `back ${back - orders}` };
    }

    /** The session is at a transcript, some orders further, or all that there were. */
    went(transcript, orders) {
        this.#here = transcript;
        if (orders === null) this.#place = null;
        else if (this.#place.order === undefined) this.#place = { back: Math.max(0, this.#place.back - orders) };
        else this.#place = { order: this.#place.order + orders };
        if (transcript === this.#left) this.#here = null;
    }
}
