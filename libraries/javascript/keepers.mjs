// Which process keeps a file: its number, and when it began, since numbers are used again after a restart or in a container.
import { execFileSync } from "node:child_process";
import { readFileSync } from "node:fs";

/** The place of the start among the fields that stand after a process's name. */
const START = 19;

/** When a process of Linux began: the computer's start by its name, and the time since then. */
function startInLinux(process_) {
    const fields = readFileSync(`/proc/${process_}/stat`, "utf8").split(") ").at(-1).split(" ");
    const boot = readFileSync("/proc/sys/kernel/random/boot_id", "utf8").slice(0, 8);
    return `${boot}.${Number(fields[START]).toString(36)}`;
}

/** When a process began, as a word without a hyphen; null where it is not running. */
export function startOf(process_) {
    try {
        process.kill(process_, 0);
    } catch (failure) {
        if (failure.code !== "EPERM") return null;
    }
    try {
        return startInLinux(process_);
    } catch {
        return startElsewhere(process_);
    }
}

function startElsewhere(process_) {
    try {
        const words = ["-o", "lstart=", "-p", String(process_)];
        const told = execFileSync("ps", words, { encoding: "utf8", stdio: ["ignore", "pipe", "ignore"] });
        return told.replace(/\W+/g, "");
    } catch {
        return "unknown";
    }
}

const OWN = `${startOf(process.pid)}-${process.pid}`;

/** The name of a new file of this process, after those that were made before it. */
let made = 0;
export const newName = () => `${new Date().toISOString().replace(/[-:.]/g, "")}-${OWN}-${made++}`;

/** Whether another process that is running keeps a file, by the file's name. */
export function isKeptElsewhere(name) {
    const [, start, number, more] = name.split("-");
    return more !== undefined && `${start}-${number}` !== OWN && /^\d+$/.test(number) && startOf(Number(number)) === start;
}
