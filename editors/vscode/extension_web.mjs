// @ts-check
// The extension in a browser.
import { activateOn } from "./extension.mjs";
import * as platform from "./platform_web.mjs";

export const activate = activateOn(platform);
