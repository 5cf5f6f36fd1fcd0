// The names of files, as the Tab key completes them.
import { readdirSync, statSync } from "node:fs";
import { homedir } from "node:os";
import { dirname, join } from "node:path";

/** A name of a file whose first part is the user's home, where that is written as in a shell. */
export const fromHome = (name) => (/^~(\/|$)/.test(name) ? homedir() + name.slice(1) : name);

/** The names of files that begin so; a folder has a stroke after it. */
export function fileNames(begun) {
    const folder = begun.endsWith("/") ? begun : dirname(begun);
    const front = begun.includes("/") ? (begun.endsWith("/") ? begun : `${folder === "/" ? "" : folder}/`) : "";
    const place = fromHome(folder);
    try {
        return readdirSync(place === "" ? "." : place)
            .filter((name) => !name.startsWith(".") || begun.slice(front.length).startsWith("."))
            .map((name) => front + name + (statSync(join(place, name), { throwIfNoEntry: false })?.isDirectory() ? "/" : ""));
    } catch {
        return [];
    }
}
