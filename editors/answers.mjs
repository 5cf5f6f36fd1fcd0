// @ts-check
// What the monitor's records say with a word.

/** Whether a value of a record says yes: objects of JSON have it as a word or as true. */
export const isYes = (value) => value === true || value === "yes";
