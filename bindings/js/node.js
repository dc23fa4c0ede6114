// For node: the module is read when this file is imported, so that the calls work at once.
import { readFileSync } from "node:fs";
import { initSync } from "./calls.js";

initSync(readFileSync(new URL("./wgsl.wasm", import.meta.url)));

export * from "./started.js";
