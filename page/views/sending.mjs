// What is shown of a work to be sent: its link with its length, or a file where that is too long, and a code for a camera where a server
// has given the page.
import { codeOf } from "../qr.mjs";
import { LONGEST_LINK, canPack, fileOf, linkTo, pageOf } from "../sending.mjs";
import { counted } from "../words.mjs";
import { button, h, s } from "./dom.mjs";

/** The code of a link as a drawing. */
const drawn = ({ width, path }, label) => s(
    "svg",
    { class: "code-to-read", viewBox: `0 0 ${width} ${width}`, role: "img", "aria-label": label, "shape-rendering": "crispEdges" },
    s("rect", { width, height: width, fill: "#fff" }),
    s("path", { d: path, fill: "#000" })
);

/** The code of a link, or nothing: it is of use only where others can reach the page, and where it can be read. */
function codeNodes(link, label, isServed) {
    const code = isServed ? codeOf(link) : null;
    return code === null ? [] : [drawn(code, label)];
}

/** The link in a field, with a button that copies it. */
function fieldOf(link, { text }) {
    const field = h("input", {
        id: "sent-link", class: "wide", readonly: true, "aria-label": text("sentLink"), value: link, onfocus: () => field.select(),
    });
    const told = h("span", { role: "status" });
    const copy = async () => {
        field.select();
        const isDone = await navigator.clipboard?.writeText(link).then(() => true, () => false);
        told.textContent = text(isDone === true ? "copied" : "notCopied");
    };
    return h("p", { class: "line" }, field, button(text("copy"), copy), told);
}

/** The file that holds a work. */
const fileNode = (sent, { text }) => h(
    "p",
    {},
    h(
        "a",
        { href: URL.createObjectURL(new Blob([fileOf(sent)], { type: "application/json" })), download: "work.json", id: "sent-file" },
        text("sentFile")
    )
);

/** All that is shown of a work to be sent. */
export async function nodesOfSent(sent, texts, location) {
    const { text, code } = texts;
    if (!canPack()) return [h("p", {}, text("sentCannotPack")), fileNode(sent, texts)];
    const [link, { isServed }] = [await linkTo(sent, location), pageOf(location)];
    const length = h(
        "p",
        { id: "sent-length" },
        text(
            link.length > LONGEST_LINK ? "sentTooLong" : "sentLength",
            { count: counted(link.length, code), most: counted(LONGEST_LINK, code) }
        )
    );
    if (link.length > LONGEST_LINK) return [length, fileNode(sent, texts)];
    return [
        fieldOf(link, texts),
        length,
        ...codeNodes(link, text("sentCode"), isServed),
        ...(isServed ? [] : [h("p", {}, text("sentFromDisk")), fileNode(sent, texts)]),
    ];
}

/**
 * What a visitor takes home from the kiosk: the code of the first of several works whose code can be read; else a sentence. `name` is that
 * of the example, where it is one.
 */
async function nodesToTake(works, name, { text }, location) {
    const { page, isServed } = pageOf(location);
    const links = isServed && canPack() ? await Promise.all(works.map((sent) => linkTo(sent, location))) : [];
    const [found] = links.flatMap((link) => codeNodes(link, text("sentCode"), isServed));
    if (found !== undefined) return [found, h("p", {}, text("takeHomeHint"))];
    return [
        h("p", {}, text(isServed ? "takeHomeTooLong" : "takeHomeFromDisk", { page })),
        ...(name === null ? [] : [h("p", {}, text("takeHomeName", { name }))]),
    ];
}

/**
 * The button of the kiosk that shows what can be taken home, and the place where that is. `works` gives what is sent, the best first, and
 * the example's name. While it is open a press shuts it.
 */
export function makeTakeHome(texts, works, location) {
    const place = h("div", {});
    const node = h(
        "dialog",
        { class: "take-home", "aria-label": texts.text("takeHome"), onclick: () => node.close() },
        h("h2", {}, texts.text("takeHome")),
        place,
        button(texts.text("close"), () => {})
    );
    const open = async () => {
        const { sent, name } = works();
        place.replaceChildren(...await nodesToTake(sent, name, texts, location));
        node.showModal();
    };
    return { control: button(texts.text("takeHome"), open, { id: "take-home" }), node, isOpen: () => node.open, shut: () => node.close() };
}
