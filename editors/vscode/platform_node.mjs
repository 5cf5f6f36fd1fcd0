// @ts-check
// What the extension uses of node, on a desktop.
import { realpathSync } from "node:fs";
import { Worker } from "node:worker_threads";

/** A worker that runs a script; `hear` is called with its messages, and `fail` with why it has ended. */
export function startedWorker(script, hear, fail) {
    const worker = new Worker(script.fsPath);
    worker.on("message", hear);
    worker.on("error", (failure) => fail(failure.message));
    return worker;
}

/** What is the same of all paths of a file, as the system means them. */
export function identityOf(uri) {
    if (uri.scheme !== "file") return uri.toString();
    try {
        return realpathSync.native(uri.fsPath);
    } catch {
        return uri.fsPath;
    }
}
