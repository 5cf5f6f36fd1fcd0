// What the words of a command line ask for, by the tables that both programs print as their help.

/** The commands of lgp_lab, and what comes after each. */
const COMMANDS = { asm: ["<FILE>"], tape: ["<FILE>"], run: ["<FILE>", "<LIMIT>"], script: ["<FILE>"], batch: ["<FILE>..."] };
/** What says how the monitor's replies are written. */
const MANNERS = { "--json": "json", "--echo": "echo" };
const MOST_ORDERS = 4_294_967_295;

/** Words that ask for nothing; the text says why. */
export class MistakenWords extends Error {
    constructor(why, usage) {
        super(`error: ${why}\n\nUsage: ${usage}\n\nFor more information, try '--help'.\n`);
    }
}

/** Words that are no text. */
export class UnreadWords extends Error {
    constructor() {
        super("error: the words of the command line are not UTF-8 text\n");
    }
}

// node reads bytes that are no text as this sign
const readable = (words) => {
    if (words.some((word) => word.includes("\ufffd"))) throw new UnreadWords();
    return words;
};

/** The words that are no flags, and which flags there are; after `--` no word is one. */
function parted(words, flags, usage) {
    const end = words.includes("--") ? words.indexOf("--") : words.length;
    const [front, rest] = [words.slice(0, end), words.slice(end + 1)];
    const set = front.filter((word) => word.startsWith("-") && word !== "-");
    for (const [at, flag] of set.entries()) {
        if (!flags.includes(flag)) throw new MistakenWords(`unexpected argument '${flag}' found`, usage);
        if (set.indexOf(flag) < at) throw new MistakenWords(`the argument '${flag}' cannot be used multiple times`, usage);
    }
    return { set, names: [...front.filter((word) => !set.includes(word)), ...rest] };
}

/** The words after a command, each checked. */
function operandsOf(command, words) {
    const wanted = COMMANDS[command];
    const usage = `lgp_lab ${[command, ...wanted].join(" ")}`;
    const { names } = parted(words, [], usage);
    const most = command === "batch" ? Infinity : wanted.length;
    if (names.length > most) throw new MistakenWords(`unexpected argument '${names[most]}' found`, usage);
    const missing = wanted.slice(names.length);
    if (missing.length > 0) {
        throw new MistakenWords(
            `the following required arguments were not provided:\n${missing.map((each) => `  ${each}`).join("\n")}`, usage
        );
    }
    const [, limit] = names;
    if (command === "run" && !(/^\+?\d+$/.test(limit) && Number(limit) <= MOST_ORDERS)) {
        throw new MistakenWords(`invalid value '${limit}' for '<LIMIT>': it is a number from 0 to ${MOST_ORDERS}`, usage);
    }
    return names;
}

/** What the words of lgp_lab ask for: a command, `stdin` where there is none, its files, and the limit of a run. */
export function taskOf(words) {
    const [command, ...rest] = readable(words);
    if (command === undefined) return { command: "stdin", files: [] };
    if (!Object.hasOwn(COMMANDS, command)) {
        throw new MistakenWords(
            `${command.startsWith("-") ? "unexpected argument" : "unrecognized subcommand"} '${command}'`, "lgp_lab [COMMAND]"
        );
    }
    const operands = operandsOf(command, rest);
    return command === "run" ? { command, files: [operands[0]], limit: Number(operands[1]) } : { command, files: operands };
}

/** What the words of lgp_monitor ask for: the files that are typed first, and how replies are written. */
export function sittingOf(words) {
    const { set, names } = parted(readable(words), Object.keys(MANNERS), "lgp_monitor [OPTIONS] [FILE]...");
    // where both are asked for, each reply is an object
    const manner = Object.keys(MANNERS).find((flag) => set.includes(flag));
    return { names, manner: MANNERS[manner] ?? "bare" };
}
