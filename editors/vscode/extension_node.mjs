// @ts-check
// The extension on a desktop.
import { activateOn } from "./extension.mjs";
import * as platform from "./platform_node.mjs";

export const activate = activateOn(platform);
