// A session of the module in a thread of its own, for thread_engine.mjs: while a line is answered the terminal's keys are heard.
import { parentPort, workerData } from "node:worker_threads";
import { ModuleEngine } from "./engines.mjs";
import { NoMemory, Session } from "./session.mjs";

const { module, region, image } = workerData;
const session = new Session(module, region);
if (image !== null) session.restore(image);
const engine = new ModuleEngine(session);

/** What came of a call, with what the terminal has to know before the next one. */
async function answered({ call, operand, isLong }) {
    if (isLong) parentPort.postMessage({ image: session.image });
    try {
        const said = await engine[call](operand);
        // a session that has ended is asked nothing
        const hasEnded = call === "close";
        return { said, isSourceOpen: !hasEnded && engine.isSourceOpen, hasLeft: hasEnded || engine.hasLeft };
    } catch (failure) {
        return { failure: failure.message, isMemory: failure instanceof NoMemory };
    }
}

parentPort.on("message", async (asked) => parentPort.postMessage(await answered(asked)));
