// The tokens of a text, as a grammar for TextMate has them. Of such grammars only what ours has is understood: `match`, `begin` and `end`
// within a line, captures and includes.

/** The patterns, each include replaced by what it names. */
const patternsOf = (grammar, patterns) => patterns.map((pattern) => (
    pattern.include === undefined ? pattern : grammar.repository[pattern.include.slice(1)]
));

/** The first match of some patterns from a column on. */
function firstOf(patterns, line, from) {
    const found = patterns.map((pattern) => (
        { pattern, match: matched(pattern.match ?? pattern.begin, line, from) }
    )).filter(({ match }) => match !== null);
    return found.reduce((best, each) => (best === null || each.match.index < best.match.index ? each : best), null);
}

function matched(expression, line, from) {
    const pattern = new RegExp(expression, "dg");
    pattern.lastIndex = from;
    return pattern.exec(line);
}

const tokenOf = ([from, to], name) => ({ from, length: to - from, name });

function tokensIn(grammar, line) {
    const tokens = [];
    let patterns = patternsOf(grammar, grammar.patterns);
    for (let at = 0; at < line.length; ) {
        const found = firstOf(patterns, line, at);
        if (found === null) break;
        const { pattern, match } = found;
        if (pattern.match !== undefined) tokens.push(tokenOf(match.indices[0], pattern.name));
        else {
            for (const [group, { name }] of Object.entries(pattern.beginCaptures)) {
                if (match.indices[group] !== undefined) tokens.push(tokenOf(match.indices[group], name));
            }
            patterns = patternsOf(grammar, pattern.patterns);
        }
        at = match.indices[0][1];
    }
    return tokens;
}

/** A row for each token: its line, column, length and name. */
export const textMateTokens = (grammar, text) => text.split("\n").flatMap((line, at) => tokensIn(grammar, line).map(
    ({ from, length, name }) => `${at + 1} ${from} ${length} ${name}`
));
