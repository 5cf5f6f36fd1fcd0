// @ts-check
// A server of messages at standard input and output.
import { bytes } from "#module";
import { Framing, framed } from "./framing.mjs";
import { Session, compiled } from "../libraries/javascript/session.mjs";

const OPTIONS = `
  --stdio          the default: messages on standard input and output
  -h, --help       this help
  -V, --version    the version
`;
const VERSION = "0.1.0";

/** Says what the words of a command line ask for, and whether that is all. */
function isAnswered(name, does, words) {
    const [word] = words.filter((it) => it !== "--stdio");
    if (word === undefined) return false;
    if (["--version", "-V"].includes(word)) process.stdout.write(`${name} ${VERSION}\n`);
    else if (["--help", "-h"].includes(word)) process.stdout.write(
        `${name} ${does}\n${OPTIONS}`
    );
    else {
        process.stderr.write(`${name}: ${word} is not an option of this program; --help lists them\n`);
        process.exitCode = 64;
    }
    return true;
}

/** Serves what `make` makes of the opening of sessions and of the sending of messages, until the input ends. */
export function serve(name, does, make) {
    if (isAnswered(name, does, process.argv.slice(2))) return;
    // compiled when it is first asked, so that the first answer does not wait for it
    let module = null;
    const server = make(
        () => new Session(module ??= compiled(bytes)), (message) => process.stdout.write(framed(message)), (status) => process.exit(status)
    );
    /** Ends where nobody knows any more where a message begins: an editor starts a server again that has ended. */
    const breakOff = (why) => {
        server.refuse(why);
        process.stderr.write(`${name}: ${why}\n`);
        process.stdin.pause();
        server.keep?.();
        process.stdout.write("", () => process.exit(1));
    };
    const framing = new Framing((message) => server.take(message), (why) => server.refuse(why), breakOff);
    process.stdin.on("data", (piece) => framing.push(piece));
    process.stdin.on("end", () => server.end());
    // an editor that has gone away takes no more messages
    process.stdout.on("error", () => server.end());
}
