// ./check_task: checks pupils' files against a task, and says in words what is missing. teaching/tasks/README.md has the form of a task.
//
//     node check_task.mjs [--language LANGUAGE] TASK FILE..
//
// Statuses: 0 where all files are right, 1 where one is not, 64 where the words are wrong, 70 where the task or the laboratory fails.
import { closeSync, existsSync, openSync, readFileSync, readSync, readdirSync, statSync, writeSync } from "node:fs";
import { dirname, join } from "node:path";
import { fileURLToPath } from "node:url";
import { ModuleLink } from "./module_link.mjs";
import { NoMemory } from "../libraries/javascript/session.mjs";
import { TaskFault, checked, sentencesIn, speaker, taskIn } from "./task.mjs";

const [RIGHT, NOT_RIGHT, WRONG_WORDS, UNABLE] = [0, 1, 64, 70];
/** A longer file is longer than any source may be. */
const SOURCE_BYTES = 1_100_000;

const top = join(dirname(fileURLToPath(import.meta.url)), "..");
const tasksFolder = join(top, "teaching/tasks");
const languages = readdirSync(join(tasksFolder, "language")).sort();
const taskNames = readdirSync(tasksFolder).filter((name) => existsSync(join(tasksFolder, name, "task"))).sort();

/** The sentences in English, and over them those of the language. */
const sentencesOf = (code) => (
    Object.assign({}, ...["en", code].map((name) => sentencesIn(readFileSync(join(tasksFolder, "language", name), "utf8"))))
);

/** A call that ends here: a status, and the lines that say why. */
class Ending extends Error {
    constructor(status, ...lines) {
        super(lines.join("\n"));
        Object.assign(this, { status, lines });
    }
}

/** The language that the environment asks for, where it is there. */
function languageHere({ LC_ALL, LC_MESSAGES, LANG }) {
    const code = (LC_ALL || LC_MESSAGES || LANG || "en").replace(/[_.@].*/, "");
    return languages.includes(code) ? code : "en";
}

/** What the words of a call name: a language, a task's folder, and files. */
function asked(words) {
    const isNamed = words[0] === "--language";
    const code = isNamed ? words[1] : languageHere(process.env);
    if (!languages.includes(code)) {
        throw new Ending(WRONG_WORDS, speaker(sentencesOf("en"))("no-language", code ?? "", languages.join(" ")));
    }
    const sentences = sentencesOf(code);
    const say = speaker(sentences);
    const [task, ...files] = isNamed ? words.slice(2) : words;
    if (task === "--help") return { help: say("usage") };
    if (task === undefined || files.length === 0) throw new Ending(WRONG_WORDS, say("usage"), say("tasks-are", taskNames.join(" ")));
    const folder = task.includes("/") ? task : join(tasksFolder, task);
    if (task === "" || !existsSync(join(folder, "task"))) throw new Ending(WRONG_WORDS, say("no-task", task, taskNames.join(" ")));
    return { code, sentences, say, folder, files };
}

/** The front of a file, as long as a source may be and more. */
function frontOf(file) {
    const descriptor = openSync(file, "r");
    try {
        const bytes = Buffer.alloc(SOURCE_BYTES);
        return bytes.subarray(0, readSync(descriptor, bytes, 0, SOURCE_BYTES, 0));
    } finally {
        closeSync(descriptor);
    }
}

/** The source in a file, or the name of the sentence that says why there is none. */
function sourceIn(file) {
    if (!existsSync(file)) return { why: "no-file" };
    if (statSync(file).isDirectory()) return { why: "folder" };
    try {
        return { source: frontOf(file).toString() };
    } catch {
        return { why: "unreadable" };
    }
}

async function verdictOn(file, task, link, { code, sentences, say }) {
    const { source, why } = sourceIn(file);
    if (why !== undefined) return { isRight: false, verdict: say("wrong", file), missing: [say(why)] };
    return checked(link, task, source, { file, sentences, code });
}

/** Checks files one after another, and writes what is said of each; the status. */
async function checkAll({ folder, files, ...language }) {
    const { say } = language;
    try {
        const task = taskIn(readFileSync(join(folder, "task"), "utf8"));
        const link = new ModuleLink(join(top, "libraries/javascript/lgp_c_region.wasm"));
        const verdicts = [];
        for (const file of files) verdicts.push(await verdictOn(file, task, link, language));
        const lines = verdicts.flatMap(({ verdict, missing }) => [verdict, ...missing.map((sentence) => `    ${sentence}`)]);
        writeSync(1, lines.map((line) => `${line}\n`).join(""));
        return verdicts.every(({ isRight }) => isRight) ? RIGHT : NOT_RIGHT;
    } catch (failure) {
        if (failure instanceof TaskFault) throw new Ending(UNABLE, say(failure.sentence, `${folder}/task`, ...failure.words));
        if (failure instanceof NoMemory) throw new Ending(UNABLE, say("lab-failed", failure.message));
        throw failure;
    }
}

try {
    const call = asked(process.argv.slice(2));
    if (call.help !== undefined) process.stdout.write(`${call.help}\n`);
    else process.exitCode = await checkAll(call);
} catch (ending) {
    if (!(ending instanceof Ending)) throw ending;
    for (const line of ending.lines) process.stderr.write(`check_task: ${line}\n`);
    process.exitCode = ending.status;
}
