// The words around the counter: the order under way lit, and what comes after it marked; changed words in colour with an arrow from the
// order that wrote them.
import { wholeAt } from "../kinds.mjs";
import { button, h, memoized, oneStop, part, refill, s, tell, unseen } from "./dom.mjs";
import { counted } from "../words.mjs";
import { letterOf, rewrittenBy } from "./says.mjs";
import { keepWhole } from "./scrolling.mjs";

/** What is told of the order that changed a word, if there was one. */
const toldOf = (writer, text) => (
    writer === null ? "" : text("changed", { order: writer.order, at: writer.at ?? "–", clock: writer.clock })
);

/** For how many orders it stands beside the words that the program has rewritten itself. */
const REWRITTEN_ORDERS = 3;

/** What the script says of the word at a place, as long as the script's word stands there, or what an order has made of it. */
function commentOf({ address, origin }, digits, comments) {
    const put = comments.get(address);
    return put !== undefined && (put.digits === digits || origin?.order != null) ? put.comment : "";
}

/** What a row shows. The word that an order stores that is played stands there as it was. */
function shownIn(word, { labels, comments, kinds }, { writer, stored, isNew, code }) {
    const isHeld = word.address === stored?.address;
    const { digits, order } = isHeld ? stored.before : word;
    return {
        comment: commentOf(word, digits, comments),
        address: word.address,
        digits,
        order: wholeAt(kinds, word.address, digits, code) ?? order ?? `word ${digits}`,
        writer: isHeld ? null : writer,
        isNew,
        labels: labels.get(word.address) ?? [],
    };
}

function row({ address, digits, order, writer, isNew, labels, comment }, { text, table }, ask) {
    const meaning = table.orders[letterOf(order)] ?? "";
    return h("tr", { class: `${writer === null ? "" : "changed"} ${isNew ? "new" : ""}`, "data-address": address },
        h("td", {}, button(address, () => ask(address), { class: "plain", title: `${address}: ${text("whyHint")}`, "data-name": address })),
        h("td", { class: "label" }, labels.join(" ")), h("td", {}, h("code", {}, digits)),
        h("td", { title: meaning }, h("code", {}, order), unseen(meaning === "" ? "" : ` ${meaning}`)),
        h(
            "td",
            { class: "told", title: [comment, toldOf(writer, text)].filter(Boolean).join("; ") },
            h("span", { class: "comment" }, comment),
            " ",
            toldOf(writer, text)
        ),
        h("td", { class: "chip" }, h("span")));
}

/** Marks the rows of the order under way, in the colour of its phase, and of what comes after it. */
export function markRows(body, { now, phase, coming }, { chips }) {
    for (const row of body.children) {
        const { address } = row.dataset;
        const [isNow, isNext] = [address === now, address === coming];
        row.classList.toggle("now", isNow);
        row.classList.toggle("next", isNext && !isNow);
        row.dataset.phase = isNow ? phase : "";
        tell(row.querySelector(".chip span"), isNow ? chips[phase] : isNext ? chips.next : "");
        if (address === (now ?? coming)) row.setAttribute("aria-current", "step");
        else row.removeAttribute("aria-current");
    }
}

/** What a rule does, as `break 0100` or `watch 0009 loop` names it. */
export function ruleText(rule, { table }) {
    const [kind, ...place] = rule.split(" ");
    return table.ruleKind[kind].replace("{place}", () => place.join(" "));
}

/** Where an arrow beside the rows begins and ends, from an order that was told to what it wrote; null where one of them is not shown. */
function arrowEnds(body, writer) {
    const rowAt = (address) => body.querySelector(`tr[data-address="${address}"]`);
    const [from, to] = [rowAt(writer?.at), rowAt(writer?.stored?.address)];
    if (from === null || to === null || from === to) return null;
    const middle = (line) => line.offsetTop + line.offsetHeight / 2;
    return { clock: writer.clock, start: middle(from), end: middle(to), height: body.offsetHeight + body.offsetTop };
}

/** Scrolls a list by whole rows, so that rows are seen together in its middle: all of them, or as many of the first ones as can be. */
function scrollTo(list, selectors) {
    const rows = selectors.map((selector) => list.querySelector(selector)).filter((it) => it !== null);
    const head = list.querySelector("thead").offsetHeight;
    // the edge that hides a cut row is not counted: it goes where the list is scrolled
    const room = Math.floor(list.getBoundingClientRect().height) - head;
    const endsOf = (some) => [
        Math.min(...some.map(({ offsetTop }) => offsetTop - head)),
        Math.max(...some.map(({ offsetTop, offsetHeight }) => offsetTop - head + offsetHeight)),
    ];
    while (rows.length > 1 && endsOf(rows)[1] - endsOf(rows)[0] > room) rows.pop();
    if (rows.length === 0) return;
    const [first, last] = endsOf(rows);
    // at its very end a list may begin within a row, but not where it has become lower since
    const end = list.scrollHeight - head - room;
    const isSeen = first >= list.scrollTop && last <= list.scrollTop + room;
    if (isSeen && list.scrollTop >= end - 1) return;
    const wanted = isSeen ? list.scrollTop : (first + last - room) / 2;
    const tops = [...list.querySelectorAll("tbody tr")].map(({ offsetTop }) => offsetTop - head).filter(
        (top) => top <= first && last <= top + room && top <= end
    );
    list.scrollTop = tops.reduce((best, top) => (Math.abs(top - wanted) < Math.abs(best - wanted) ? top : best), first);
}

function arrow({ start, end, height }) {
    return s("svg", { class: "arrow", width: 26, height, "aria-hidden": "true" },
        s("path", { pathLength: 1, d: `M 24 ${start} C 2 ${start} 2 ${end} 18 ${end}` }),
        s("polygon", { points: `18,${end - 5} 26,${end} 18,${end + 5}` }));
}

/** What is told of what put a word there, and, where that is of an earlier moment, a button that goes there. */
export function whyNodes(laboratory, { lines, place }, { text, code }) {
    const told = lines.join("\n");
    if (place === null) return [told];
    const there = button(text("goThere"), () => laboratory.goTo(place), { class: "go-there" });
    return [`${text("whyThen", { at: counted(place, code) })} ${told} `, there];
}

/** The part of the page that shows words of the drum. */
export function makeListing(laboratory, texts, { held, isFast, hasCosts, markNow }, drafts) {
    const { text } = texts;
    const rewritten = h("p", { class: "rewritten", role: "status" });
    const body = h("tbody");
    const heads = ["address", "label", "digits", "order", "change", "under"].map((name) => (
        h("th", { scope: "col" }, ["label", "change", "under"].includes(name) ? unseen(text(name)) : text(name))
    ));
    const table = h("table", { class: "words-table" }, h("thead", {}, h("tr", {}, ...heads)), body);
    const arrows = h("div", { class: "arrows" });
    const list = h("div", { class: "scroll with-arrows" }, arrows, table);
    const [stops, whole] = [oneStop(body, ".now, .next"), keepWhole(list, body)];
    const answer = h("p", { class: "why", role: "status" });
    let [askedOf, wanted, shownAt] = [null, [], null];
    const scroll = () => requestAnimationFrame(() => { scrollTo(list, wanted); whole(); });
    new ResizeObserver(scroll).observe(list, { box: "border-box" });
    const ask = async (address) => {
        if (hasCosts()) laboratory.askCosts(address);
        const told = await laboratory.why(address);
        if (told === undefined) return;
        askedOf = laboratory.words;
        answer.replaceChildren(...whyNodes(laboratory, told, texts));
        scroll();
    };
    const place = drafts.held(
        h("input", { size: 4, maxlength: 4, pattern: "[0-9]{4}", inputmode: "numeric", "aria-label": text("goTo"), value: "0000" }),
        "address"
    );
    const showIt = () => {
        shownAt = { address: place.value.padStart(4, "0"), counter: laboratory.panel.counter };
        laboratory.showAt(shownAt.address);
    };
    const form = h(
        "form",
        { class: "line", onsubmit: (event) => { event.preventDefault(); showIt(); } },
        h("label", {}, `${text("address")} `, place),
        " ",
        button(text("show"), showIt), " ", button(text("startHere"), () => laboratory.command(`go ${place.value}`)), " ",
        button(text("breakAt"), () => laboratory.command(`break ${place.value}`)),
        " ",
        button(text("watchAt"), () => laboratory.command(`watch ${place.value}`))
    );
    const takeOut = (number) => {
        // the row goes with its button: where it is the only one, the focus goes on to the field
        if (laboratory.rules.length === 1) place.focus();
        laboratory.command(`drop ${number}`);
    };
    const rules = h("ul", { class: "rules", "aria-label": text("rules") });
    const rowOf = memoized((shown) => row(shown, texts, ask));
    const arrowOf = memoized(arrow);
    const showWords = () => {
        const stored = held()?.stored;
        const told = isFast() ? [] : laboratory.accounts.filter((account) => account !== held()).slice(-REWRITTEN_ORDERS);
        const events = told.map(rewrittenBy);
        const newest = held() === null ? events.at(-1)?.m : undefined;
        refill(body, ...laboratory.words.map((word) => {
            return rowOf(
                word.address,
                shownIn(word, laboratory, {
                    writer: laboratory.writerOf(word.address), stored, isNew: word.address === newest, code: texts.code,
                })
            );
        }));
        const event = events.findLast((it) => it !== null);
        tell(rewritten, event === undefined ? "" : text("rewritten", event));
        const last = held() === null ? told.at(-1) : undefined;
        const ends = held() === null ? arrowEnds(body, last) : null;
        refill(arrows, ...(ends === null ? [] : [arrowOf("arrow", ends)]));
        const rowAt = (address) => `[data-address="${address}"]`;
        const asked = shownAt?.counter === laboratory.panel.counter ? [shownAt.address] : [];
        markRows(body, markNow(), texts.table);
        // where there is little room the order under way, what comes after it, and what it has stored are seen alone
        const seen = [markNow().now, laboratory.panel.counter, last?.stored?.address];
        for (const row of body.children) row.classList.toggle("wanted", seen.includes(row.dataset.address));
        stops();
        wanted = [
            ...[...asked, ...laboratory.lookedAt].map(rowAt), ".now", ".next", ...(ends === null ? [] : [rowAt(last.stored.address)]),
        ];
        scroll();
    };
    const show = () => {
        showWords();
        if (laboratory.words !== askedOf) answer.textContent = "";
        refill(rules, ...laboratory.rules.map((rule, number) => {
            return h(
                "li",
                {},
                `${number}: ${ruleText(rule, texts)} `,
                button("×", () => takeOut(number), { "aria-label": text("dropRule", { number }), "data-name": number })
            );
        }));
    };
    const frame = () => markRows(body, markNow(), texts.table);
    return { node: part("listing", text("words"), rewritten, list, answer, form, rules), show, frame };
}
