// Short names of a user's own for lines, kept in a file of his configuration: on each line a name, and after a blank what it stands for.
//
//     $XDG_CONFIG_HOME/condugwa/aliases      ~/.config/condugwa/aliases where that is not set
import { existsSync, mkdirSync, readFileSync } from "node:fs";
import { homedir } from "node:os";
import { dirname, join } from "node:path";
import { keepFile } from "./files.mjs";
import { bytesFrom, linesIn, textFrom, wordsOf } from "./lines.mjs";

export const NAME = /^[a-z][a-z0-9-]*$/;

/** The user's file of short names. */
export function aliasFile(environment = process.env) {
    const { XDG_CONFIG_HOME: home } = environment;
    return join(home?.startsWith("/") ? home : join(environment.HOME ?? homedir(), ".config"), "condugwa", "aliases");
}

const partsOf = (line) => /^ *(\S+) +(.*)$/.exec(line)?.slice(1) ?? null;

export class Aliases {
    #file;

    constructor(file = aliasFile()) {
        this.#file = file;
    }

    /** Each name with the line that it stands for, as the file has them now: another session may have changed it. */
    get all() {
        try {
            const lines = existsSync(this.#file) ? linesIn(textFrom(readFileSync(this.#file))) : [];
            return new Map(lines.map(partsOf).filter((parts) => parts !== null && NAME.test(parts[0])));
        } catch (failure) {
            if (failure.syscall === undefined) throw failure;
            return new Map();
        }
    }

    /** Makes a name stand for a line. Throws FileTrouble where that cannot be kept. */
    set(name, line) {
        this.#keep(new Map([...this.all, [name, line]]));
    }

    /** Forgets a name; whether there was one. */
    forget(name) {
        const all = this.all;
        const wasThere = all.delete(name);
        if (wasThere) this.#keep(all);
        return wasThere;
    }

    #keep(all) {
        try {
            mkdirSync(dirname(this.#file), { recursive: true, mode: 0o700 });
        } catch (failure) {
            if (failure.syscall === undefined) throw failure;
        }
        keepFile(textFrom(Buffer.from(this.#file)), bytesFrom([...all].map(([name, line]) => `${name} ${line}\n`).join("")));
    }

    /** The line that a typed line stands for. A name stands for nothing within what it stands for itself. */
    expanded(line, names = new Set()) {
        const [name] = wordsOf(line);
        const meant = name === undefined || names.has(name) ? undefined : this.all.get(name);
        if (meant === undefined) return line;
        return this.expanded(meant + line.slice(line.indexOf(name) + name.length), new Set([...names, name]));
    }
}
