// @ts-check
// How a worker is spoken to: in a browser, and in node. A message is any value that can be copied.

/** @typedef {{ postMessage(message: any): void }} Port */

/**
 * The port of this worker to whoever started it; `hear` is called with each message.
 * @param {(message: any) => void} hear
 * @returns {Port}
 */
export function portToStarter(hear) {
    if (typeof importScripts === "function") {
        self.addEventListener("message", (event) => hear(event.data));
        return /** @type {any} */ (self);
    }
    const { parentPort } = require("node:worker_threads");
    parentPort.on("message", hear);
    return parentPort;
}
