// @ts-check
// What the extension uses of a browser.

/** A worker that runs a script; `hear` is called with its messages, and `fail` with why it has ended. */
export function startedWorker(script, hear, fail) {
    const worker = new Worker(script.toString(true));
    worker.addEventListener("message", ({ data }) => hear(data));
    worker.addEventListener("error", ({ message }) => fail(message));
    return worker;
}

/** What is the same of all addresses of a file. */
export const identityOf = (uri) => uri.toString();
