// @ts-check
// The bytes of the proved module, within the file that esbuild makes of a program.
export { default as bytes } from "../libraries/javascript/lgp_c_region.wasm";
