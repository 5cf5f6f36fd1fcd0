// Records for tests, each written as a text of fields, as a reply for programs has them as objects of JSON. docs/records.schema.json says
// of which type the value of a key is.
import { readFileSync } from "node:fs";

const { $defs: definitions } = JSON.parse(readFileSync(new URL("../../../docs/records.schema.json", import.meta.url), "utf8"));
const RECORDS = Object.values(definitions).map(({ properties }) => properties).filter((keys) => keys !== undefined);
const LARGE = "#/$defs/large";

/** The types of a part of the schema. A number that may be large is one here. */
function typesOf({ $ref, anyOf, type, enum: words, const: word }) {
    if ($ref !== undefined) return $ref === LARGE ? ["integer"] : typesOf(definitions[$ref.replace("#/$defs/", "")]);
    if (anyOf !== undefined) return anyOf.flatMap(typesOf);
    return type === undefined ? (words ?? [word]).map((each) => typeof each) : [type].flat();
}

function valueOf(part, text) {
    const types = typesOf(part);
    if (types.includes("boolean")) return text === "yes";
    if (types.includes("array")) return text.split(" ").map(Number);
    return types.includes("integer") ? Number(text) : text;
}

/** The keys of the record of the schema that has most of some keys. */
function recordWith(keys) {
    const shared = (record) => keys.filter((key) => Object.hasOwn(record, key)).length;
    return RECORDS.reduce((best, record) => (shared(record) > shared(best) ? record : best));
}

/** The object of a record of fields, each a key, a blank and a value. A key that the schema does not know has a text. */
export function objectOf(fields) {
    const pairs = fields.map((field) => [field.slice(0, field.indexOf(" ")), field.slice(field.indexOf(" ") + 1)]);
    const record = recordWith(pairs.map(([key]) => key));
    return JSON.stringify(Object.fromEntries(pairs.map(([key, text]) => [key, valueOf(record[key] ?? { type: "string" }, text)])));
}

/** A reply of records, each a list of such fields. */
export const replyOf = (...records) => records.map((fields) => `${objectOf(fields)}\n`).join("");
