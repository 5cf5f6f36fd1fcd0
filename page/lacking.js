// Tells in a sentence that this browser cannot open the laboratory. It stands in a script of its own, in the language of the oldest browsers
// (ES5), since those read no line of the page's main script.

/** Shows the sentence, and below it what the browser has said, where it has said something. */
function tellLacking(detail) {
    document.getElementById("lacking").hidden = false;
    document.getElementById("lacking-detail").textContent = detail || "";
    document.getElementById("page").hidden = true;
}

window.onerror = function (message) {
    // that a part of the page has changed its size once more is no trouble
    if (document.documentElement.getAttribute("data-ready") === null && String(message).indexOf("ResizeObserver") !== 0) tellLacking(message);
};
if (typeof WebAssembly !== "object" || typeof BigInt !== "function") tellLacking("");
