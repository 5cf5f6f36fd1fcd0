// The Worker that holds the session. The first message brings the module's bytes, sorted and packed as a text; each later one is some
// lines, and is answered by their replies, one after the other, or by why there are none. A message `anew` ends the session and opens
// another one.
// Before this script stands shared.mjs, which unpacks.
import { NoMemory, Session, compiled } from "../libraries/javascript/session.mjs";
import { unsorted } from "./sorted.mjs";

let code;
let session;

function answered({ module, anew, lines }) {
    if (module !== undefined) code = compiled(unsorted(self.unpacked(module)));
    if (module !== undefined || anew) {
        session = new Session(code);
        return { reply: "" };
    }
    return { reply: lines.map((line) => session.answer(line)).join("") };
}

self.onmessage = ({ data }) => {
    try {
        self.postMessage(answered(data));
    } catch (failure) {
        self.postMessage({ failure: String(failure.message), noMemory: failure instanceof NoMemory });
    }
};
