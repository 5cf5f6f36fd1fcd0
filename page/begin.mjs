// Begins the page: unpacks its style and its scripts, and puts them into their places. Before it stand what is told where a browser lacks
// something
// (lacking.js), and what unpacks (shared.mjs), with which the Worker begins as well.
const put = (kind, text) => document.head.append(Object.assign(document.createElement(kind), { textContent: text }));

// the last of the texts is left to the script, which asks for it later
globalThis.packedTexts = globalThis.unpackedTexts(document.getElementById("parts").textContent);
const [main, worker, style] = [1, 2, 3].map(() => globalThis.packedTexts.next().value);
put("style", style);
document.getElementById("worker").textContent = document.getElementById("shared").textContent + worker;
// a task of its own, so that the browser can hear in between what was pressed
setTimeout(() => put("script", main));
