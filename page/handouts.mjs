// Makes the sheets of the lessons: node handouts.mjs FOLDER. Each is one HTML file of two printed pages: to fill in, and with its
// solutions. Questions, steps and tables are
// those of the document; the solutions of the steps are what the module answers, and so are the bars of the ring.
import { readFileSync, writeFileSync } from "node:fs";
import { dirname, join } from "node:path";
import { fileURLToPath } from "node:url";
import { SECTORS } from "./addresses.mjs";
import { documentOf, lackingIn } from "./documents.mjs";
import { solveLesson } from "./lesson_solver.mjs";
import { lessonIn } from "./lessons.mjs";
import { positionOf } from "./machine.mjs";
import { LANGUAGES } from "./words.mjs";

const documents = join(dirname(fileURLToPath(import.meta.url)), "../teaching/lessons");

/**
 * What of each document is on its sheet, where the parts of a document are numbered from 0: which parts each page has; the part with the
 * circle of sectors, and how wide that is in
 * millimetres; the tables by part and place, each with the columns that are left to the pupil and the share of the width that they have
 * together, or for teams; the parts whose first
 * block is shown; the millimetres for an answer; and the word whose ring is drawn. Steps and questions are there in any case.
 */
const SHEETS = {
    "a-computer-on-a-drum": {
        pages: [[2, 3, 4, 5]],
        line: 5.5,
        circle: { part: 3, width: 95 },
        tables: {
            "3.0": { leaves: [2], share: 20 }, "4.0": { leaves: [1, 2], share: 70 }, "5.0": { leaves: [1, 2, 3, 4, 5, 6], share: 80 },
        },
    },
    "rewriting": {
        pages: [[2, 3, 4], [5, 6, 7]],
        line: 7,
        circle: { part: 5, width: 110 },
        tables: { "3.0": { leaves: [], share: 0 }, "3.1": { leaves: [1, 2], share: 60 } },
    },
    "reading-a-listing": {
        pages: [[2, 3], [4, 5, 6]],
        line: 14,
        tables: { "2.0": { leaves: [2, 3], share: 65 }, "4.0": { leaves: [2, 3, 4, 5, 6], share: 70 }, "5.0": { leaves: [1], share: 55 } },
        blocks: [2],
    },
    "where-a-word-costs-least": {
        pages: [[2], [3, 4]], line: 8, circle: { part: 2, width: 144 }, tables: { "4.0": "teams" }, ringOf: "0128",
    },
    "what-can-a-forecast-know": {
        pages: [[2, 3], [4, 5, 6]], line: 16, tables: { "3.0": { leaves: [], share: 0 }, "5.0": { leaves: [0, 1, 2], share: 100 } },
    },
};

/** How many rows of a table are left to a team. */
const ROWS = 5;

const TEXTS = {
    en: {
        name: "Name",
        solutions: "Solutions",
        question: /^\*\*Question\.\*\* ([^]*?) \*Answer\.\* ([^]*)$/,
        ring: "The ring of costs for the wage: shade the outer field of each sector in which it would cost least.",
        team: "team",
    },
    de: {
        name: "Name",
        solutions: "Lösungen",
        question: /^\*\*Frage\.\*\* ([^]*?) \*Antwort\.\* ([^]*)$/,
        ring: "Der Ring der Kosten für den Lohn: Fülle das äußere Feld jedes Sektors aus, in dem er am wenigsten kostete.",
        team: "Gruppe",
    },
};

const STYLE = `@page { size: A4; margin: 12mm 14mm; }
body { font: 9.2pt/1.25 "Century Schoolbook", C059, Georgia, serif; margin: 0 auto; max-width: 182mm; color: black; background: white; }
section { break-after: page; } section:last-of-type { break-after: auto; } h1 { font-size: 15pt; margin: 0 0 2mm; } h2 { font-size: 11pt; margin: 2mm 0 1mm; break-after: avoid; } li, table, tr { break-inside: avoid; } p { margin: 0 0 1.2mm; } pre { margin: 1mm 0 1mm 6mm; font-size: 9pt; } code, li > b { white-space: nowrap; }
header { display: flex; justify-content: space-between; align-items: baseline; } ol, ul { margin: 0 0 1.5mm; padding-left: 6mm; } li { margin-bottom: 0.8mm; } .to-fill { border-bottom: 0.2mm solid black; } .answer { font-style: italic; }
svg { display: block; margin: 1mm auto; } svg.beside { float: right; margin: 0 0 1mm 4mm; } table { border-collapse: collapse; width: 100%; } td, th { border: 0.2mm solid black; padding: 0.3mm 2mm; text-align: left; height: 5mm; } table { margin-bottom: 1.5mm; } .flow { display: flow-root; }
.blank { display: inline-block; min-width: 20mm; border-bottom: 0.2mm solid black; } @media screen { body { padding: 8mm; } section + section { margin-top: 12mm; } }`;

const escaped = (text) => text.replace(/&/g, "&amp;")
    .replace(/</g, "&lt;")
    .replace(/\[([^\]]*)\]\([^)]*\)/g, "$1")
    .replace(/`([^`]*)`/g, "<code>$1</code>")
    .replace(/\*\*([^*]+)\*\*/g, "<b>$1</b>")
    .replace(/\*([^*]+)\*/g, "<em>$1</em>");

/** The cells of a table's row in a document. */
const cellsOf = (line) => line.split("|").slice(1, -1).map((cell) => cell.trim());

/**
 * The parts of a document: of each its heading, and as pieces, in their order, its tables, its blocks of lines, and its other lines in
 * paragraphs.
 */
function partsOf(document) {
    return document.split(/^## /m).slice(1).map((part) => {
        const [heading, ...lines] = part.split("\n");
        const pieces = [];
        for (const line of lines) {
            const kind = line.startsWith("|") ? "table" : line.startsWith("    ") ? "block" : line === "" ? null : "text";
            if (kind === null || pieces.at(-1)?.kind !== kind) pieces.push({ kind, lines: [] });
            pieces.at(-1).lines.push(line);
        }
        return { heading, pieces: pieces.filter(({ kind }) => kind !== null) };
    });
}

/** The circle of sectors, the head above: inside their numbers, outside a field for each, which the costs fill where they are given. */
function circle(costs, width, isBeside) {
    const at = (turn, radius) => (
        [radius * Math.sin(2 * Math.PI * turn), -radius * Math.cos(2 * Math.PI * turn)].map((it) => it.toFixed(1)).join(" ")
    );
    const path = (turn, radius) => at(turn, radius).replace(" -", "-");
    const field = (sector, from, to, fill) => {
        const [begin, end] = [positionOf(sector) - 0.5, positionOf(sector) + 0.5].map((place) => place / SECTORS);
        const [sides, back] = [`M${path(begin, from)}L${path(begin, to)}A${to} ${to} 0 0 1 ${path(end, to)}L${path(end, from)}`, path(begin, from)];
        return `<path d="${sides}A${from} ${from} 0 0 0 ${back}Z" fill="${fill}" stroke="black" stroke-width="0.4"/>`;
    };
    const least = Math.min(...(costs?.sectors ?? []).map(({ times }) => times));
    const isGood = new Set((costs?.sectors ?? []).filter(({ times }) => times === least).map(({ sector }) => sector));
    const sectors = Array.from({ length: SECTORS }, (unused, sector) => {
        const [x, y] = at(positionOf(sector) / SECTORS, 125).split(" ");
        return `${field(sector, 112, 138, "none")}${field(
            sector, 138, 160, isGood.has(sector) ? "#999" : "none"
        )}<text x="${x}" y="${(Number(y)
            + 2.7).toFixed(1)}" font-size="7.6" text-anchor="middle" font-family="sans-serif">${String(sector).padStart(2, "0")}</text>`;
    });
    return `<svg${isBeside
        ? ' class="beside"'
        : ""} viewBox="-165 -178 330 343" width="${width}mm" height="${(width * 343 / 330).toFixed(1)}mm"><path d="M-9 -177h18l-9 14z"/>${sectors.join("")}</svg>`;
}

/** A question with its answer, or with a line for one. */
const questionOf =
    ([, asked, answer], isSolved, line) => `<li>${escaped(asked)}${isSolved
        ? ` <span class="answer">${escaped(answer)}</span>`
        : `<div class="to-fill" style="height: ${line}mm"></div>`}</li>`;

/** A step with its answer, or with room for one, where it asks for one. */
function stepOf({ text }, place, answer, isSolved) {
    const blank = answer === null ? "" : isSolved ? ` <b>${answer}</b>` : ' <span class="blank">&nbsp;</span>';
    return `<li value="${place + 1}">${escaped(text)}${blank}</li>`;
}

/** A table whose cells in some columns, or whose rows, are left to the pupil. */
function tableOf(lines, wanted, { team }, isSolved) {
    const [head, unused, ...rows] = lines.map(cellsOf);
    const row = (name, cells) => `<tr>${cells.map((cell) => `<${name}>${escaped(cell)}</${name}>`).join("")}</tr>`;
    if (wanted === "teams" && !isSolved) {
        return `<table>${row("th", [team, ...head])}\n${row("td", ["", ...rows[0]])}\n${Array(ROWS)
            .fill(row("td", ["", ...head.map(() => "")]))
            .join("\n")}</table>`;
    }
    const { leaves = [], share = 0 } = isSolved ? {} : wanted;
    const heads = head.map((cell, column) => (
        `<th${leaves.includes(column) ? ` style="width: ${Math.round(share / leaves.length)}%"` : ""}>${escaped(cell)}</th>`
    ));
    return `<table><tr>${heads.join("")}</tr>\n${rows.map((cells) => (
        row("td", cells.map((cell, column) => (leaves.includes(column) ? "" : cell)))
    )).join("\n")}</table>`;
}

/** Neighbours of one list in one list. */
function inLists(items) {
    const lists = [];
    for (const { list, html } of items) {
        if (list === null || lists.at(-1)?.list !== list) lists.push({ list, html: [] });
        lists.at(-1).html.push(html);
    }
    return lists.map(({ list, html }) => (list === null ? html.join("\n") : `<${list}>${html.join("\n")}</${list}>`)).join("\n");
}

/** A part of a sheet: its tables, steps and questions, in the order in which the document has them. */
function partOf({ heading, pieces }, place, sheet, texts, { lesson, answers, costs }, isSolved) {
    let [tables, hasBlock] = [0, false];
    const items = pieces.flatMap(({ kind, lines }) => {
        if (kind === "table") {
            const wanted = sheet.tables[`${place}.${tables++}`];
            return wanted === undefined ? [] : [{ list: null, html: tableOf(lines, wanted, texts, isSolved) }];
        }
        if (kind === "block") {
            const isShown = (sheet.blocks ?? []).includes(place) && !hasBlock;
            hasBlock = true;
            return isShown ? [{ list: null, html: `<pre>${escaped(lines.map((line) => line.slice(4)).join("\n"))}</pre>` }] : [];
        }
        const question = texts.question.exec(lines.join(" "));
        if (question !== null) return [{ list: "ul", html: questionOf(question, isSolved, sheet.line) }];
        return lines.map((line) => (
            lesson.steps.findIndex(({ text }, number) => line === `${number + 1}. ${text}`)
        )).filter((number) => number >= 0)
            .map((number) => ({ list: "ol", html: stepOf(lesson.steps[number], number, answers[number], isSolved) }));
    });
    const drum = sheet.circle?.part !== place
        ? ""
        : `${circle(isSolved ? costs : null, sheet.circle.width, costs === null)}${costs === null ? "" : `<p>${texts.ring}</p>`}`;
    return items.length === 0 ? "" : `<h2>${escaped(heading)}</h2>${drum}${inLists(items)}`;
}

/** A sheet of a lesson in a language. */
function sheetOf(name, document, code, { answers, costs }, isSolved) {
    const [sheet, texts, lesson, parts] = [SHEETS[name], TEXTS[code], lessonIn(document), partsOf(document)];
    const heading = `<header><h1>${escaped(lesson.title)}</h1><span>${isSolved
        ? texts.solutions
        : `${texts.name}: <span class="blank" style="min-width: 60mm">&nbsp;</span>`}</span></header>`;
    const pageOf =
        (places) => places.map((place) => (
            `<div class="flow">${partOf(parts[place], place, sheet, texts, { lesson, answers, costs }, isSolved)}</div>`
        )).join("\n");
    const pages = sheet.pages.map((places, page) => `<section>${page === 0 ? heading : ""}${pageOf(places)}</section>`);
    return `<!DOCTYPE html>\n<html lang="${code}">\n<head><meta charset="utf-8"><title>${escaped(lesson.title)}</title><style>\n${STYLE}\n</style></head>\n<body>\n${pages.join("\n")}\n</body>\n</html>\n`;
}

/** Writes all sheets into a folder. */
async function writeSheets(folder) {
    for (const [name, { ringOf }] of Object.entries(SHEETS)) {
        const { answers, laboratory } = await solveLesson(name);
        if (ringOf !== undefined) await laboratory.askCosts(ringOf);
        for (const code of Object.keys(LANGUAGES).filter((code) => !lackingIn(documents, code).includes(name))) {
            const document = readFileSync(documentOf(documents, name, code), "utf8");
            const ending = code === "en" ? ".html" : `.${code}.html`;
            const costs = ringOf === undefined ? null : laboratory.costs;
            for (const isSolved of [false, true]) {
                writeFileSync(
                    join(folder, `${name}${isSolved ? "-solutions" : ""}${ending}`),
                    sheetOf(name, document, code, { answers, costs }, isSolved)
                );
            }
        }
    }
}

if (process.argv[1] === fileURLToPath(import.meta.url)) await writeSheets(process.argv[2]);
