// What the page and its Worker have in common as a script of its own: the way to unpack what lies packed in the page.
import { unpacked, unpackedTexts } from "./unpacked.mjs";

Object.assign(globalThis, { unpacked, unpackedTexts });
