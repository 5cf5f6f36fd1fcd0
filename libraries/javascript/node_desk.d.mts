/**
 * A desk at which lines are typed to a monitor of its own, in node. It does what `lgp_monitor` does: `do`, `source`, `tape`, `save` and the other
 * commands that name files read and keep them. A refusal is not thrown; its text is among what is written.
 */
export class Desk {
    /** Opens one over the package's own module. Throws RangeError for another manner. */
    static open(manner?: "bare" | "prompting" | "echo" | "json"): Promise<Desk>;
    /** Whether `quit` was typed. */
    readonly hasLeft: boolean;
    /** Whether a reply was a refusal. */
    readonly isRefused: boolean;
    /** The prompt in front of the next line; empty unless the manner is "prompting". */
    readonly prompt: string;
    /** What is written for a line and for those of the files that it names. */
    type(line: string): string;
    /** What is written for the lines of a file. */
    typeFile(name: string): string;
    /** What is written when no line is typed any more. The desk is closed then. */
    leave(): string;
}
