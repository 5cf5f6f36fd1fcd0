// A game at the kiosk: its buttons stand for keys, switches and conditional stop, over the program of the example. What a button sends are
// lines
// of its script; the heap is what the machine's words say, and whose turn it is and who has won what it has printed.
import { h, s } from "./dom.mjs";

/**
 * The games by their examples: the lines that set the switches, those of the moves, the labels of the heap and of its number at first with
 * the place of their point, and what the paper says.
 */
export const KIOSK_GAMES = new Map([["games/matches", {
    set: ["press bp8 down"], moves: ["type 1'", "type 2'", "type 3'"], heap: { labels: ["left", "matches"], point: 29 },
    says: { won: /^you win$/, lost: /^i win$/, took: /i take (\d)$/ },
}]]);

/** The lines that ask for the heap and its number at first, by the labels of the source. */
export const asksOf = ({ heap: { labels, point } }, byAddress) => (
    labels.map((label) => `numbers ${[...byAddress].find(([, names]) => names.includes(label))[0]} 1 ${point}`)
);

/** The number at the end of a reply of `numbers`. */
export const numberIn = (reply) => Number(reply.trimEnd().split(" ").at(-1)) || 0;

/** What the last line of the paper that is whole says: that a side has won, or how many the machine took. */
export function saidOn({ says }, paper) {
    const line = paper.split("\n").at(-2) ?? "";
    const kind = Object.keys(says).find((name) => says[name].test(line)) ?? null;
    return { kind, took: kind === "took" ? Number(says.took.exec(line)[1]) : null };
}

/** The text at the top: what the machine does, or what the visitor can do. */
export const standsIn = (game, laboratory, { text }, drive) => () => {
    const { way: { kind }, printed, history } = laboratory;
    if (drive.pace !== null) return text("gameRuns");
    const said = saidOn(game, printed.text);
    if (kind === "keys") return [...(said.took === null ? [] : [text("gameTook", { took: said.took })]), text("gameYours")].join(" ");
    if (kind === "go") return text("gameGoing");
    return text(history.behind === 0 ? "gameIntro" : { won: "gameWon", lost: "gameLost" }[said.kind] ?? "gameIntro");
};

/** The heap as a drawing: what is left, and the places of what was taken. */
export function makeHeap(laboratory, { text }) {
    const node = h("div", { class: "heap" });
    let shown = null;
    const show = () => {
        const [left = 0, most = 0] = laboratory.answers.map(numberIn);
        if (shown === `${left} ${most}`) return;
        shown = `${left} ${most}`;
        const match = (unused, place) => s(
            "g",
            { class: place < left ? "match" : "taken", transform: `translate(${16 * place} 0)` },
            s("rect", { x: 5, y: 14, width: 6, height: 82 }),
            s("ellipse", { cx: 8, cy: 12, rx: 6, ry: 9 })
        );
        const places = Math.min(100, Math.max(left, most));
        node.replaceChildren(
            s(
                "svg",
                { viewBox: `0 0 ${16 * places} 100`, role: "img", "aria-label": text("gameHeap", { count: left }) },
                ...Array.from({ length: places }, match)
            ),
            h("p", { "aria-hidden": "true" }, text("gameHeap", { count: left }))
        );
    };
    return { node, show };
}
