// Words of the run, in the hand: each one whose costs were asked can be carried on the drum to another sector, and keeps its new place.
// What the same orders would then have taken is the sum of what
// the monitor says of each.
import { SECTORS, inTwoDigits, sectorOf } from "../addresses.mjs";
import { Placing } from "../placing.mjs";
import { counted } from "../words.mjs";
import { guarded, h, showLive, tell } from "./dom.mjs";
import { behind } from "./doors.mjs";
import { makeGrips } from "./hand.mjs";

/**
 * How many pixels the pins may be beyond the sides of the drum's picture, below it, where the machine's buttons are, and above it, where
 * its name is.
 */
const BEYOND = [16, 2, 0];

/** Word times more or less, in words. */
const differenceOf = (saved, { text, code }) => (
    saved === 0 ? text("asManyTimes") : text(saved > 0 ? "fewerTimes" : "moreTimes", { times: counted(Math.abs(saved), code) })
);

/** The sectors of words that are elsewhere, by their addresses, of a text that is kept; and that text. */
const placesIn = (text) => new Map(
    (text ?? "").split(" ").filter((it) => it !== "").map((it) => it.split(":")).map(([address, sector]) => [address, Number(sector)])
);
const textOf = (places) => (places.size === 0 ? null : [...places].map((place) => place.join(":")).join(" "));

/**
 * The words that are carried: the costs that are shown, where words are kept to be, and what the last orders would take with them there;
 * null where that is not told.
 */
class Words {
    costs = null;
    kept = null;
    placing = null;
    #laboratory;
    #drafts;
    #round = 0;

    constructor(laboratory, drafts) {
        [this.#laboratory, this.#drafts] = [laboratory, drafts];
    }

    /** The addresses of those that are kept elsewhere. */
    get addresses() {
        return [...placesIn(this.kept).keys()];
    }

    nameOf(address) {
        return this.placing?.words.find((word) => word.address === address)?.label ?? this.#laboratory.labels.get(address)?.[0] ?? address;
    }

    isBest(address) {
        return this.placing.saved(address) > 0 && this.placing.isBest(address);
    }

    #keep(places) {
        this.kept = textOf(places);
        this.#drafts.keep("carried", this.kept);
    }

    move(address, sector) {
        const places = placesIn(this.kept);
        this.placing.move(address, sector);
        if (sector === sectorOf(address)) places.delete(address);
        else places.set(address, sector);
        this.#keep(places);
    }

    /** All words are at their own sectors again. */
    reset() {
        this.placing?.reset();
        this.#keep(new Map());
    }

    /**
     * Takes other costs, or other words that are kept: asks what the last orders would take with these, as far as they can be elsewhere.
     * Whether there are others.
     */
    async follow() {
        const [costs, kept] = [this.#laboratory.costs?.sectors.length > 0 ? this.#laboratory.costs : null, this.#drafts.of("carried")];
        if (costs === this.costs && kept === this.kept) return false;
        Object.assign(this, { costs, kept });
        this.#round += 1;
        const [mine, places] = [this.#round, placesIn(kept)];
        const others = this.addresses.filter((address) => address !== costs?.address);
        const told = costs === null ? null : others.length === 0 ? { words: [] } : await this.#laboratory.askPlacing(others);
        if (mine !== this.#round) return false;
        this.placing = told === null
            ? null
            : new Placing([], [...told.words.filter(({ kind, sectors }) => kind === "free" && sectors.length > 0), costs]);
        for (const { address, kind } of this.placing?.words ?? []) {
            if (kind === "free" && places.has(address)) this.placing.move(address, places.get(address));
        }
        return true;
    }
}

/** What is told of the words that are elsewhere: of one its sector, of more each one's. */
function toldOf(placing, nameOf, texts) {
    const { text, code } = texts;
    const inSector = (address) => inTwoDigits(placing.sectorOf(address));
    const { moved, took, times } = placing;
    const where = moved.length === 1
        ? text("carriedOne", { sector: inSector(moved[0]) })
        : text("carriedAll", {
            words: moved.map((address) => text("wordInSector", { word: nameOf(address), sector: inSector(address) })).join(", "),
        });
    return text("carriedSays", { where, times: counted(times, code), saved: differenceOf(took - times, texts) });
}

/**
 * The pins of the words on a drum, and what is told of them. `turning` says how far the drum has turned; `drafts` keeps where the words
 * are; `write` writes their new places into the source, and `reveals` has what is told of them seen.
 */
export function makeCarried(laboratory, texts, drum, turning, drafts, write, reveals) {
    const { text, code } = texts;
    const words = new Words(laboratory, drafts);
    const nameOf = (address) => words.nameOf(address);
    const read = () => tell(said, told.textContent);
    const hands = {
        sectorOf: (address) => words.placing.sectorOf(address),
        pick: () => reveals(),
        drop: read,
        refuse: (kind) => { tell(told, text(`pin_${kind}`)); read(); },
        says: (address) => text("gripSays", {
            sector: inTwoDigits(hands.sectorOf(address)),
            times: counted(words.placing.times, code),
            saved: differenceOf(words.placing.saved(address), texts),
        }),
        move: (address, sector) => { words.move(address, sector); showCarried(); },
        back: (address) => hands.move(address, sectorOf(address)),
    };
    const grips = makeGrips(drum.box, hands);
    const [told, said] = [h("p", { class: "carried-told" }), h("p", { class: "unseen", role: "status" })];
    const writes = behind(
        "work", guarded(text("writeMoved"), { id: "write-moved" }, () => write(words.placing, words.costs.orders, nameOf))
    );
    const back = guarded(text("asItWas"), { id: "carried-back" }, () => { words.reset(); showCarried(); });
    const node = h("div", { class: "carried" }, told, said, h("div", { class: "line" }, back, writes));
    const frame = () => {
        if (words.placing !== null && drum.box.offsetWidth > 0) {
            grips.show(turning.clock % SECTORS, drum.box.offsetWidth / 800, (address) => words.isBest(address), ...BEYOND);
        }
    };
    const showCarried = () => {
        const { placing, costs, kept } = words;
        const moved = placing?.moved ?? [];
        drum.ring.light(
            "laid", (placing?.words ?? []).filter(({ kind }) => kind === "free").map(({ address }) => placing.sectorOf(address))
        );
        drum.ring.light("origin", moved.map(sectorOf));
        if (placing === null) tell(told, text("carriedStill", { words: words.addresses.map(nameOf).join(", ") }));
        else tell(told, moved.length > 0 ? toldOf(placing, nameOf, texts) : costs.kind === "free" ? text("carriedHint") : "");
        showLive(back, kept !== null);
        showLive(writes, moved.length > 0);
        node.hidden = placing === null && kept === null;
        frame();
    };
    const show = async () => {
        if (!(await words.follow())) return;
        grips.put((words.placing?.words ?? []).map((word) => ({ ...word, name: nameOf(word.address) })));
        showCarried();
    };
    node.hidden = true;
    return { node, show, frame };
}
