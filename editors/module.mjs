// @ts-check
// The bytes of the proved module, as they lie in the repository.
import { readFileSync } from "node:fs";

export const bytes = readFileSync(new URL("../libraries/javascript/lgp_c_region.wasm", import.meta.url));
