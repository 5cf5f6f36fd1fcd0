// The terminal's own commands, and those of the monitor for which it does more: what completes after them, their operands, what they do,
// what else is to be known, when they are refused, and an example with what is typed before it.

/** `takes` is what the monitor says of its own commands, and `most` is how many words may come after a command. */
export const OWN = new Map([
    ["look", { takes: "alone", operands: "", most: 0, does: "shows the panel in a few lines", example: "look" }],
    ["around", { takes: "range", operands: "nothing, or ttss, ttss NUMBER", most: 2,
        does: "shows the words around the counter, or around an address", example: "around value 3" }],
    ["step", { takes: "number", operands: "nothing, or NUMBER", most: 1,
        does: "performs one order, or several, and shows what each did; s is short for step, c for run, b for back and ? for help",
        example: "step" }],
    ["until", { takes: "address", most: Infinity,
        operands: "ttss, or ttss WORD, ttss = NUMBER, ttss < NUMBER, changed ttss, printed NUMBER, rows NUMBER, clock NUMBER, NUMBER times CONDITION",
        does: "runs until the machine comes to an address, a word is as asked, or as much is printed as asked; a rule, rest or Ctrl-C stops it first",
        example: "until printed 2" }],
    ["when", { takes: "address", operands: "nothing, or CONDITION, NUMBER times CONDITION, none", most: Infinity,
        does: "makes each run end where a condition is met, as until does once",
        note: "Conditions are those of until, which goes by its own. By itself when says which it is, and when none forgets it.",
        example: "when printed 2" }],
    ["finish", { takes: "alone", operands: "", most: 0,
        does: "runs until the subroutine that is under way returns",
        note: "It returns to the address that the last r has stored, if no u at that word was performed since then. A rule, rest or Ctrl-C "
            + "stops it first.",
        refused: "if no r was performed since the last load, or each of those subroutines has returned", example: "finish" }],
    ["change", { takes: "address", operands: "ttss WORD, and each other form of put", most: Infinity,
        does: "puts in a word even while the machine is going, as an operator does: manual, the word, normal and start, each shown",
        example: "change value int 6 30" }],
    ["display", { takes: "address", operands: "nothing, or ttss", most: 1,
        does: "shows a word as digits, number, fraction and order after each move; without an address it shows all that were asked for",
        example: "display value" }],
    ["undisplay", { takes: "address", operands: "nothing, or ttss", most: 1,
        does: "no longer shows a word after each move, or any word", example: "undisplay" }],
    ["put-listing", { takes: "address", operands: "ttss WORD, and the rest of the line, as in a listing", most: Infinity,
        does: "puts in the word from a line of a listing", example: "put-listing 0012 000f0010  u loop" }],
    ["edit", { takes: "file", operands: "nothing, or NUMBER, FILE", most: Infinity,
        does: "edits the last source, a line of it, or the source in a file, with $VISUAL, $EDITOR or line by line; then it is assembled",
        example: "edit 2" }],
    ["sessions", { takes: "alone", operands: "", most: 0,
        does: "lists the sessions that were saved, the last one first", example: "sessions" }],
    ["resume", { takes: "alone", operands: "nothing, or NUMBER", most: 1,
        does: "continues the last session that was saved, or the one of a number", example: "resume" }],
    ["paper", { takes: "alone", operands: "nothing, or typed", most: 1,
        does: "shows the typewriter's paper; with typed, also what was typed",
        note: "What was typed is between < and >, or in red; a code that is typed is on the paper when the machine has taken it.",
        example: "paper" }],
    ["why", { takes: "address", operands: "ttss", most: 1,
        does: "says which order of the session, or which line, put a word where it is, and what was there before",
        refused: "if there is no such address", example: "why value" }],
    ["back", { takes: "number", operands: "nothing, or NUMBER, to why ttss", most: 3,
        does: "goes back an order, NUMBER orders, or to the order that put a word where it is, also beyond the kept steps; Ctrl-C stops it",
        refused: "if fewer orders led here since the session began, or no order put the word there", example: "back 1" }],
    ["past", { takes: "alone", operands: "", most: 0,
        does: "says how many orders there were since the session began",
        example: "past" }],
    ["forward", { takes: "number", operands: "nothing, or NUMBER", most: 1,
        does: "goes forward again over what back, last or to went back over",
        example: "forward" }],
    ["transcript", { takes: "file", operands: "nothing, or FILE", most: Infinity,
        does: "shows the script that leads here, or writes it to a file", example: "transcript mine.txt" }],
    ["alias", { takes: "alone", operands: "nothing, or NAME, NAME LINE", most: Infinity,
        does: "lists the short names, shows one, or makes NAME stand for LINE", note: "Later sessions know it too.",
        example: "alias go1 trace 1" }],
    ["unalias", { takes: "alone", operands: "NAME", most: 1, does: "forgets a short name", example: "unalias go1" }],
    ["exit", { takes: "alone", operands: "", most: 0,
        does: "ends the program, as quit and Ctrl-D do", example: "exit" }],
]);

const OPERANDS = /, (?:or )?/;

/** The forms of a command by what is said of its operands, each as it is typed. */
export function formsIn(command, operands = "") {
    if (operands === "") return [command];
    return operands.split(OPERANDS).map((form) => (form === "nothing" ? command : form.startsWith("and ") ? form : `${command} ${form}`));
}

/** The forms of an own command, as a refusal names them. */
export const formsOf = (command) => formsIn(command, OWN.get(command).operands).join(" or ").replaceAll(" or and ", ", and ");
