// Answers each line of standard input in a session of the module that is named, and writes its reply. Ends with 1 where one was refused.
//
//     node ask_lines.mjs ../libraries/javascript/lgp_c_region.wasm < ../examples/first-run.txt
import { readFileSync, writeFileSync } from "node:fs";
import { Session, compiled } from "../libraries/javascript/session.mjs";

const LINE_FEED = 10;
const CARRIAGE_RETURN = 13;

/** The lines of a text, without their line feeds and a carriage return before that. */
function* linesOf(text) {
    for (let start = 0; start < text.length; ) {
        const feed = text.indexOf(LINE_FEED, start);
        const end = feed < 0 ? text.length : feed;
        yield text.subarray(start, feed > start && text[end - 1] === CARRIAGE_RETURN ? end - 1 : end);
        start = end + 1;
    }
}

const session = new Session(compiled(readFileSync(process.argv[2])));
let isAnyRefused = false;

function write({ reply, isRefused }) {
    writeFileSync(1, reply);
    isAnyRefused ||= isRefused;
}

for (const line of linesOf(readFileSync(0))) write(session.bytesFor(line));
write(session.close());
process.exitCode = isAnyRefused ? 1 : 0;
