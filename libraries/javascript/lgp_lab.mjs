#!/usr/bin/env node
// The program lgp_lab as npm installs it: the proved module, by node.
process.argv.splice(2, 0, "lgp_lab");
await import("./terminal.mjs");
