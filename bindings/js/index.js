// For browsers, bundlers and workers: `await init()` fetches the module that lies beside this file.
import { isReady, load } from "./calls.js";

let started = null;

/** Makes the calls work. Without an argument it fetches `wgsl.wasm` from beside this file, once. */
export function init(source) {
  if (source !== undefined) return load(source);
  if (isReady()) return Promise.resolve();
  started ??= load(new URL("./wgsl.wasm", import.meta.url)).catch((error) => {
    started = null;
    throw error;
  });
  return started;
}

export * from "./api.js";
