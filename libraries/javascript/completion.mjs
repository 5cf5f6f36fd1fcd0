// What the Tab key puts at the end of a line: commands, buttons and switches, labels, addresses at hand, names of files; in a source
// operations and labels.
import { wordsOf } from "./lines.mjs";
import { SWITCHES, commandsOf, liveOf, recordsOf } from "./replies.mjs";

const POSITIONS = ["up", "down"];
/** What may be waited for beside what is at an address. */
const COUNTED = ["changed ", "clock ", "printed ", "rows "];

/** `back`, and its short name. */
const BACK = ["back", "b"];

export class Completion {
    #ask;
    #own;
    #fileNames;

    /** What gives the lines of the source that is open; null where none is. */
    openSource = () => null;
    /** What gives the user's short names. */
    shortNames = () => [];

    /**
     * With what answers a line that only asks, the commands of the terminal's own with what their operands are, and what gives the names of
     * files that begin so.
     */
    constructor(ask, own, fileNames) {
        this.#ask = ask;
        this.#own = own;
        this.#fileNames = fileNames;
    }

    /** What may stand at the end of a line, and what stands there. */
    async at(line) {
        const begun = /[^ ]*$/.exec(line)[0];
        const before = wordsOf(line.slice(0, line.length - begun.length));
        const source = this.openSource();
        const words = source === null
            ? await this.#words(before, begun)
            : await this.#inSource(source, line.slice(0, line.length - begun.length));
        return [[...new Set(words)].filter((word) => word.startsWith(begun)).sort(), begun];
    }

    /** What may stand at a place of a source's line: nothing where a label begins, an operation, or a label of the source. */
    async #inSource(source, before) {
        if (before === "") return [];
        const count = wordsOf(before).length - (before.startsWith(" ") ? 0 : 1);
        if (count === 0) return recordsOf(await this.#ask("json operations-data")).map((record) => `${record.get("operation")} `);
        return source.map((line) => /^[a-z][a-z0-9]*/.exec(line)?.[0]).filter((label) => label !== undefined);
    }

    /** The commands that are for programs. */
    async #forPrograms() {
        const records = recordsOf(await this.#ask("json commands-data"));
        return records.filter((record) => record.get("group") === "programs" && record.get("command") !== "json").map(
            (record) => `${record.get("command")} `
        );
    }

    async #words(before, begun) {
        if (before[0] === "json") return before.length === 1 ? this.#forPrograms() : this.#words(before.slice(1), begun);
        if (before[0] === "at") return before.length === 1 ? [] : this.#words(before.slice(2), begun);
        const commands = new Map([...commandsOf(await this.#ask("commands")), ...this.#own]);
        if (before.length === 0 || (before.length === 1 && before[0] === "help")) {
            return [...commands.keys(), ...this.shortNames()].map((word) => `${word} `);
        }
        if (before[0] === "run" && before.length === 2) return ["until "];
        if (before[0] === "to" && before.length === 1) return ["first ", "last "];
        if (before[0] === "paper") return before.length === 1 ? ["typed"] : [];
        if (BACK.includes(before[0]) && before.length < 3) return before.length === 1 ? ["to "] : ["why "];
        if (["until", "when", "to"].includes(before[0]) || before[2] === "until") return [...COUNTED, ...(await this.#places())];
        switch (commands.get(before[0])?.takes) {
            case "file":
            case "source":
                return before.length === 1 ? this.#fileNames(begun) : [];
            case "button":
                return before.length === 1 ? this.#keys() : POSITIONS;
            default:
                return this.#places();
        }
    }

    /** The buttons that do something now, and the switches. */
    async #keys() {
        const { live } = liveOf(await this.#ask("json state-data"));
        return [...live, ...SWITCHES];
    }

    /** The labels of the last source with their addresses, the addresses of the rules, and the counter. */
    async #places() {
        const records = async (line) => recordsOf(await this.#ask(`json ${line}`));
        const labels = (await records("labels-data")).flatMap((label) => (
            [label.get("name"), ...(label.has("place") ? [label.get("place")] : [])]
        ));
        const rules = (await records("rules-data")).map((rule) => rule.get("label") ?? rule.get("address"));
        const [panel] = await records("panel-data");
        return [...labels, ...rules, panel.get("counter")];
    }
}
