#!/usr/bin/env node
// The program lgp_monitor as npm installs it: the proved module, by node.
process.argv.splice(2, 0, "lgp_monitor");
await import("./terminal.mjs");
