// Runs the script on standard input in the module that is named, writes the replies and ends with the status.
//
//     node run_script.mjs ../libraries/javascript/lgp_c_region.wasm < ../examples/first-run.txt
import { readFileSync, writeFileSync } from "node:fs";
import { answerScript, compiled } from "../libraries/javascript/session.mjs";

const { replies, questions } = answerScript(compiled(readFileSync(process.argv[2])), readFileSync(0));
writeFileSync(1, replies);
process.exitCode = questions > 0 ? 1 : 0;
