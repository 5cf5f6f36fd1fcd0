// The accounts of the last orders as a table, and a slider over the orders before and after this moment.
import { SECTORS } from "../addresses.mjs";
import { accumulatorKinds, valueAt, valueOf } from "../kinds.mjs";
import { groupOf } from "../../libraries/javascript/replies.mjs";
import { counted, decimal } from "../words.mjs";
import { button, h, oneStop, part, refill, tell } from "./dom.mjs";
import { saysOf } from "./says.mjs";
import { keepWhole } from "./scrolling.mjs";
import { makeBar } from "./story.mjs";
import { makeTimeline } from "./timeline.mjs";

const SHOWN = 14;

/** How a place is named: by its label, where it has one. */
const named = ({ address, label }) => label ?? address;

/**
 * What an order has done, in a few words: what it has stored, before and after, or where it goes on, or what the accumulator holds, as what
 * that is.
 */
function didOf(account, held, kinds, texts) {
    const { text } = texts;
    const { kind, values: { m } } = saysOf(account);
    const { stored, printed, passed, after } = account;
    if (stored !== null) {
        const reading = ({ digits }) => valueAt(kinds, stored.address, digits, texts);
        const [was, is] = [reading(stored.before), reading(stored.after)];
        return text(stored.before.digits === stored.after.digits ? "didStay" : "didStore", { name: named(stored), was, is });
    }
    if (printed !== null) return text("printedSign", { sign: printed.sign ?? groupOf(printed.code) });
    if (passed > 0) return text("passed", { count: passed });
    if (DID[kind] !== undefined) return text(DID[kind], { name: account.order.split(" ")[2] ?? m });
    return text("didHold", { value: valueOf(after, held.after, texts) ?? after });
}

/** The names of what is said of an order that leaves the accumulator as it was, by that of its sentence. */
const DID = { tBelow: "didGoBelow", tSwitch: "didGoSwitch", tNot: "didNotGo", u: "didGo", z: "didStop", zPast: "didPass" };

/** What an order did with all that is known of it: its digits, and which order put it there. That a hand did, is not said of each order. */
function effectOf({ origin, stored, printed, passed, notes, before, after }, did, { text }) {
    const parts = [...notes, did];
    if (origin !== null && origin.order !== null) {
        parts.push(text("putThere", { order: origin.order, at: origin.at ?? "–", clock: origin.clock, lost: origin.lost }));
    }
    if (stored !== null) {
        parts.push(
            text("storedAt", {
                address: [stored.address, stored.label].filter(Boolean).join(" "), before: stored.before.digits, after: stored.after.digits,
            })
        );
    }
    if (printed !== null && passed > 0) parts.push(text("passed", { count: passed }));
    if (before !== after) parts.push(text("storedAt", { address: "A", before, after }));
    return parts.join("; ");
}

/** The bar of an account is as wide as its word times against a number of them, or against the longest one. */
const BAR = 130;

/**
 * The rows of an account: its numbers, its bar and what it did in a few words, and below them all of that. A press on its place goes back
 * to before it, and one on its bar says why it has waited.
 */
function rowsOf(account, held, kinds, texts, goBackTo, why) {
    const { text } = texts;
    const changes = account.before === account.after ? account.after : `${account.before} → ${account.after}`;
    const phases = ["find", "take", "seek", "act"];
    const numbers = [...phases, "sum"].map((phase) => h("td", { class: `number ${phase}` }, String(account[phase])));
    const did = didOf(account, held, kinds, texts);
    const effect = effectOf(account, did, texts);
    const isRewritten = account.origin != null && account.origin.order !== null;
    const below = h("tr", { class: "below" }, h("td"), h("td", { class: "effect", colspan: 8 }, effect));
    const bar = makeBar(account);
    bar.show(Infinity);
    const place = [account.at, account.label].filter(Boolean).join(" ");
    const track = h(
        "button",
        {
            type: "button",
            class: "account-bar",
            style: `--times: ${account.sum}`,
            onclick: () => why(account),
            "aria-label": text("whyWaited", { place: place === "" ? account.order : place }),
            "data-name": `bar-${account.clock}`,
        },
        ...bar.nodes
    );
    const row = h(
        "tr",
        { class: "above" },
        h("td", { class: "number clock" }, String(account.clock)),
        h(
            "td",
            {},
            button(
                account.at ?? "–",
                () => goBackTo(account),
                { class: "plain", title: text("goBackHere"), "data-name": `account-${account.clock}` }
            ),
            h("span", { class: "at-label" }, account.label == null ? "" : ` ${account.label}`)
        ),
        h("td", { class: isRewritten ? "rewritten-order" : null }, h("code", {}, account.order)),
        ...numbers,
        h("td", { class: "changes" }, h("code", {}, changes)),
        h("td", { class: "bar-of" }, track),
        h("td", { class: account.stored === null ? "effect-of" : "effect-of wrote", title: effect }, did)
    );
    return { nodes: [row, below], bar };
}

/**
 * The part of the page with the accounts; `why` says why one has waited. Of the order that is played, what it has not done yet is not seen.
 */
export function makeAccounts(laboratory, texts, { playing, held, isFast }, why) {
    const { text } = texts;
    const body = h("tbody");
    const names = ["clock", "at", "order", "find", "take", "seek", "act", "sum", "accumulator", "bar", "effect"];
    const heads = names.map((name) => h("th", { scope: "col", class: `head-${name}` }, text(name)));
    const empty = h("p");
    const table = h(
        "div",
        { class: "scroll", tabindex: "0", role: "group", "aria-label": text("accounts") },
        h("table", {}, h("thead", {}, h("tr", {}, ...heads)), body)
    );
    const [stops, whole] = [oneStop(body, ".now"), keepWhole(table, body)];
    const rows = new WeakMap();
    const goBackTo = (account) => laboratory.back(laboratory.accounts.length - laboratory.accounts.indexOf(account));
    const rowsKept = (account, held) => {
        if (!rows.has(account)) rows.set(account, rowsOf(account, held, laboratory.kinds, texts, goBackTo, why));
        return rows.get(account);
    };
    let [first, filled] = [null, null];
    const show = () => {
        const told = isFast() ? [] : laboratory.accounts;
        const held = accumulatorKinds(told, laboratory.kinds).slice(-SHOWN).reverse();
        const accounts = told.slice(-SHOWN).reverse();
        refill(body, ...accounts.flatMap((account, place) => rowsKept(account, held[place]).nodes));
        stops();
        table.style.setProperty("--most", String(Math.max(BAR, ...accounts.map(({ sum }) => sum))));
        first = accounts[0] ?? null;
        tell(empty, text(isFast() ? "accountsLater" : "noAccounts"));
        empty.hidden = accounts.length > 0;
        table.hidden = accounts.length === 0;
        whole();
        frame();
    };
    const frame = () => {
        const isHeld = held() !== null;
        table.dataset.phase = isHeld ? playing().phase : "";
        table.classList.toggle("under-way", isHeld);
        const bar = first === null ? null : rowsKept(first).bar;
        if (bar !== filled) filled?.show(Infinity);
        filled = bar;
        bar?.show(isHeld && held() === first ? playing().offset : Infinity);
    };
    return { node: part("accounts", text("accounts"), empty, table), show, frame };
}

/**
 * What goes to places one after another: the last one that is wanted, as soon as the one before is there; on a long way that one is left.
 * By a hand that drags, or else by keys.
 */
function makeFollow(laboratory, halt) {
    let [wanted, isGoing] = [null, false];
    const goTo = (place, isDragged) => {
        const { behind } = laboratory.history;
        return isDragged ? laboratory.goTo(place) : place < behind ? laboratory.back(behind - place) : laboratory.forward(place - behind);
    };
    const follow = async (place, isDragged) => {
        wanted = place;
        if (laboratory.progress !== null) laboratory.stop();
        if (isGoing) return;
        isGoing = true;
        halt();
        while (wanted !== null) {
            const next = wanted;
            wanted = null;
            if (next !== laboratory.history.behind) await goTo(next, isDragged);
        }
        isGoing = false;
    };
    return { follow, isGoing: () => isGoing };
}

/**
 * The part of the page with the time line, over which a slider goes back and forward; `when` tells where the machine is. `halt` ends what
 * goes on by itself.
 */
export function makeTime(laboratory, { text, code }, showing, halt) {
    const number = (value) => counted(value, code);
    const line = makeTimeline(laboratory, showing, (orders) => text("untoldOrders", { orders: number(orders) }));
    const going = makeFollow(laboratory, halt);
    let isHeld = false;
    const slider = h("input", {
        type: "range", min: 0, max: 0, step: 1, "aria-label": text("slider"), title: text("sliderHint"),
        onpointerdown: () => { isHeld = true; },
        onpointerup: () => { isHeld = false; },
        onpointercancel: () => { isHeld = false; },
        oninput: () => going.follow(Number(slider.value), isHeld),
        onchange: () => going.follow(Number(slider.value), isHeld),
    });
    const [told, clock] = [h("output"), h("span", { class: "clock-turn" })];
    const show = () => {
        const { behind, ahead } = laboratory.history;
        slider.max = String(behind + ahead);
        // a hand that drags is not led
        if (!isHeld && !going.isGoing()) slider.value = String(behind);
        slider.disabled = behind + ahead === 0;
        tell(told, text("orderCount", { at: number(behind), of: number(behind + ahead) }));
        slider.setAttribute("aria-valuetext", text("orderCount", { at: number(behind), of: number(behind + ahead) }));
        tell(
            clock,
            text("clockTurn", { clock: number(laboratory.panel.clock), turn: decimal(Number(laboratory.panel.clock) / SECTORS, 1, code) })
        );
        line.show();
    };
    return {
        node: part("time", text("time"), h("div", { class: "along" }, line.node, slider)),
        when: h("div", { class: "when" }, told, clock),
        show,
    };
}
