// What tests do with the monitor's replies.

/** Replies as a script has them: what a refusal has in a session alone is its reason, after a colon. */
export const withoutReasons = (replies) => replies.replace(/^(\? \d+ \w+(?: \d+)?): .*$/gm, "$1");
