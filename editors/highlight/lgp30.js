// Sources of the LGP-30 for highlight.js: hljs.registerLanguage("lgp30", lgp30).
function lgp30(hljs) {
    // the words below are written by editors/grammars.mjs
    const named = ["end", "-t", "a", "b", "c", "d", "e", "h", "i", "m", "n", "p", "r", "s", "t", "u", "y", "z"];
    const others = ["frac", "word", "int", "org"];
    // the words above are written by editors/grammars.mjs
    const comment = { className: "comment", begin: /;/, end: /$/, relevance: 0 };
    const blank = { begin: /[ \t]+/, relevance: 0 };
    const number = { className: "number", begin: /[^ \t\r\n;][^ \t\r\n]*/, relevance: 0 };
    const name = { className: "variable", begin: /[a-z][^ \t\r\n]*/, relevance: 0 };
    const statement = (words, operands) => ({
        begin: new RegExp("(?:" + words.join("|") + ")(?=[ \\t\\r\\n]|$)"),
        returnBegin: true,
        end: /$/,
        contains: [{ className: "keyword", begin: /[^ \t\r\n]+/, starts: { end: /$/, contains: [blank, comment].concat(operands, number) } }],
    });
    return {
        name: "LGP-30",
        aliases: ["lgp"],
        contains: [
            { className: "comment", begin: /^;/, end: /$/ },
            { className: "title", begin: /^[^ \t;\r\n][^ \t\r\n]*/ },
            blank, comment, statement(named, name), statement(others, []),
        ],
    };
}

if (typeof module === "object") module.exports = lgp30;
