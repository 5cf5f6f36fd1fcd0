// Opening a file, by a button or dropped on the page.
import { dropped } from "../class_check.mjs";
import { isOfSimh, scriptOfSimh, unopened } from "../files.mjs";
import { button, h } from "./dom.mjs";

/**
 * Opens a file of the reader's as a script; so is a drum that SIMH has written. One that is none is told, and nothing is changed. What
 * begins as JSON does, an exhibit of the kiosk or a work that was sent, another action opens.
 */
export async function openFile(file, laboratory, action, openObject) {
    const text = await file.text();
    if (/^\s*\{/.test(text)) return openObject(text);
    const { script = text, wrong } = isOfSimh(text) ? scriptOfSimh(text) : {};
    const kind = wrong === undefined ? unopened(script, (command) => laboratory.knows(command)) : "fileOfSimh";
    if (kind !== null) return laboratory.tell({ kind, detail: file.name, line: wrong });
    return action(file.name, script);
}

/** The button that opens a file. */
export function makeOpen({ text }, opened) {
    const choice = h("input", {
        type: "file",
        hidden: true,
        "aria-label": text("open"),
        onchange: () => { if (choice.files.length > 0) opened([{ file: choice.files[0] }], false); choice.value = ""; },
    });
    return h("span", {}, button(text("open"), () => choice.click(), { id: "open", title: text("openHint") }), choice);
}

/**
 * What is dropped on the page is handed on, where that is wanted: its files, and whether a folder was among them. The browser does not go
 * to it.
 */
export function hearDrops(isWanted, opened) {
    document.addEventListener("dragover", (event) => event.preventDefault());
    document.addEventListener("drop", (event) => {
        event.preventDefault();
        const { files, isFolder } = dropped(event.dataTransfer);
        if (isWanted()) files.then((found) => { if (found.length > 0) opened(found, isFolder); });
    });
}
