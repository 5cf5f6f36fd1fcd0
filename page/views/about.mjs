// Where the project is found: its addresses, as tools/address writes them into the manifest of its package.
import { h } from "./dom.mjs";

/** The addresses of a manifest by the names of their texts; those that it has. */
export const addressesIn = ({ homepage, repository, bugs }) =>
    Object.entries({
        homePage: homepage, repository: repository?.url.replace(/^git\+/, ""), issues: bugs?.url,
    }).filter(([, url]) => url !== undefined);

/** Links to the addresses in a row; nothing where there are none. */
export function makeAddresses(manifest, { text }) {
    const links = addressesIn(manifest).flatMap(([name, url]) => (
        [" · ", h("a", { href: url, target: "_blank", rel: "noopener" }, text(name))]
    ));
    return links.length === 0 ? [] : [h("p", { class: "addresses" }, ...links.slice(1))];
}
