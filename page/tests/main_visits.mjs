// The visits that are made in every engine: those where a browser's own behaviour can matter, and one at each door. Chromium makes all;
// Firefox and WebKit make these, and all where VISITS is `all`.

/** Why the visits of a group are made in every engine, and their names. */
export const MAIN_VISITS = [
    ["what a browser lacks", ["withoutWebAssembly", "cannotOpen"]],
    ["each door, to its end", ["doors", "look", "stories", "lesson", "firstLetter", "source", "tasks"]],
    ["lessons from first step to last", ["lessonOfADrum", "lessonOfRewriting", "lessonOfAListing", "lessonOfWeather", "lessonOfCosts"]],
    ["addresses, reloading and going back", ["addresses", "places", "stepsByAddress"]],
    ["files and what is saved", ["saved", "notLost", "taskClass", "teachers"]],
    ["what a browser keeps", ["undo", "tenWorks", "newAfterReload", "languageKept", "taskSources", "kioskKeepsNothing"]],
    ["keys and the focus", ["byKeys", "focusStays", "oneStopEach", "projectorKeys", "card", "paceRow", "cursorAndEscape", "pulledUp"]],
    ["writing and pasting", ["writing", "editing", "pasting"]],
    ["mouse and finger", ["touch", "carried", "turnedByDrag", "drumMap", "dragged"]],
    ["the kiosk", ["kiosk", "kioskSeen", "kioskLetters", "kioskReturns", "fasterKiosk", "game"]],
    [
        "exhibits that run a program, each to its end",
        ["loopByKeys", "formulaByTouches", "twentyOneByKeys", "exhibitsChosen", "exhibitOfOnesOwn"],
    ],
    ["what is sent to others", ["sent", "sentWrong"]],
    ["letters and sizes: what is cut, covered or moved", [
        "oneWindow", "seenWhole", "nothingMoves", "nothingClipped", "noticesWhole", "lookTogether", "taskForAll", "zoomed", "fasterSizes",
    ]],
    ["telephones", ["widths", "smallTelephone", "fasterTelephone", "kioskUpright"]],
    ["a worker and the module: long runs, paces and memory", ["longRun", "paces", "endlessPrint", "lastOrders"]],
    ["pictures while something moves", ["hallDrum", "stillness", "scope"]],
    ["sound", ["sound"]],
    ["printing", ["struckKeys"]],
    ["what is read out", ["readOut"]],
];

/** The names of all groups, each once; where a group names a visit that there is not, or that another has named, that is told. */
export function mainVisits(all, groups = MAIN_VISITS) {
    const names = groups.flatMap(([, visits]) => visits);
    const unknown = names.filter((name) => !all.includes(name));
    if (unknown.length > 0) throw new Error(`main_visits.mjs names visits that there are not: ${unknown.join(", ")}`);
    const twice = names.filter((name, place) => names.indexOf(name) !== place);
    if (twice.length > 0) throw new Error(`main_visits.mjs names visits twice: ${twice.join(", ")}`);
    return names;
}

/** Which visits are made: those that `named` names, all where it is `all`, and where it names none all of them or the main ones; without
 * those that are left out. */
export function wantedVisits(all, { named, isMain, left }) {
    const main = mainVisits(all);
    if (named !== undefined && named !== "all") {
        const names = named.split(" ").filter((name) => name !== "");
        const unknown = names.filter((name) => !all.includes(name));
        if (unknown.length > 0) throw new Error(`VISITS names visits that there are not: ${unknown.join(", ")}`);
        return names;
    }
    return all.filter((name) => !left.includes(name) && (named === "all" || !isMain || main.includes(name)));
}
