// Names of properties that CodeMirror has for itself alone, as terser takes them to shorten: no file of the page or its tests names them,
// nor does a text of CodeMirror's own, by which a property could be reached. terser itself leaves those alone that a browser's objects have.
// node inner_names.mjs LIBRARY, in the folder of the page, writes them with bars between them.
import { readFileSync, readdirSync } from "node:fs";
import { join } from "node:path";

const FOLDERS = [".", "views", "tests", "../libraries/javascript"];
/** Shorter ones would gain nothing; one with a capital letter first may be a browser's. */
const LONG = /^[a-z_]\w{5,}$/;

const [library] = process.argv.slice(2);
const fileOf = (...path) => readFileSync(join(...path), "utf8");
const scriptsIn = (folder) => readdirSync(folder).filter((name) => /\.(mjs|js|css)$/.test(name)).map((name) => fileOf(folder, name));
const namesIn = (text) => text.match(/[A-Za-z_$][\w$]*/g) ?? [];

/** CodeMirror with what the editor has of it, without comments. */
const parts = [...fileOf("views", "editor.mjs").matchAll(/"(codemirror\/[^"]+\.js)"/g)].map(([, name]) => name);
const editor = [...parts, "codemirror/addon/search/searchcursor.js"].map((name) => fileOf(library, name)).join("\n")
    .replaceAll(/\/\*[^]*?\*\/|\/\/[^\n]*/g, "");
const texts = [...editor.matchAll(/"([^"\n]*)"|'([^'\n]*)'/g)].map(([, double, single]) => double ?? single);
const known = new Set([...FOLDERS.flatMap(scriptsIn), fileOf(library, "qrcode-generator/qrcode.js"), ...texts].flatMap(namesIn));
const properties = new Set([...editor.matchAll(/\.([A-Za-z_$][\w$]*)/g)].map(([, name]) => name));

process.stdout.write([...properties].filter((name) => LONG.test(name) && !known.has(name)).sort().join("|"));
