// A person at a terminal with an engine: the module's session, or the native program.
//
//     node sitting.mjs PROGRAM FILES..      sits at the native program, which types the files first
import { fileURLToPath } from "node:url";
import { Aliases } from "./aliases.mjs";
import { Completion } from "./completion.mjs";
import { fileNames } from "./file_names.mjs";
import { ProgramEngine } from "./engines.mjs";
import { Front } from "./front.mjs";
import { Keyboard } from "./keyboard.mjs";
import { bytesFrom } from "./lines.mjs";
import { writeAll } from "./files.mjs";
import { OWN } from "./own.mjs";
import { NoMemory } from "./session.mjs";
import { Shelf } from "./shelf.mjs";

/** Whether the terminal can move its cursor; one in an editor cannot, and gets the replies alone. */
const isPlain = process.env.TERM === "dumb";
const hasColour = process.stdout.isTTY && (process.env.NO_COLOR ?? "") === "" && !isPlain;

const write = (text) => writeAll(1, bytesFrom(text));

const KEPT = "The session up to this line was saved; at the next start, resume continues it";

/** Sits at a terminal with an engine until the person leaves. */
export async function sitWith(engine) {
    const [shelf, aliases] = [new Shelf(), new Aliases()];
    const completion = new Completion((line) => engine.ask(line), OWN, fileNames);
    const keyboard = new Keyboard({ completer: (line) => completion.at(line), history: shelf.history(), isPlain });
    try {
        const front = new Front({
            engine, keyboard, shelf, aliases, write, hasColour, isPlain, columns: () => process.stdout.columns || 80,
        });
        completion.openSource = () => front.openSource;
        completion.shortNames = () => [...aliases.all.keys()];
        await front.sit();
        await engine.close();
    } catch (failure) {
        if (failure instanceof NoMemory) {
            write(
                `there was not enough memory for this line. ${shelf.trouble === null
                    ? KEPT
                    : `Nothing of the session could be kept ${shelf.trouble}`}\n`
            );
        }
        await engine.end();
        throw failure;
    } finally {
        keyboard.close();
    }
}

if (process.argv[1] === fileURLToPath(import.meta.url)) {
    const [path, ...names] = process.argv.slice(2);
    const engine = new ProgramEngine(path, names);
    write(await engine.begin());
    await sitWith(engine);
}
