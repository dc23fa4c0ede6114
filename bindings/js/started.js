// What an entry exports that has made the calls work already.
import { load } from "./calls.js";

/** Does nothing without an argument, since the module is there; else it takes another one, as in a browser. */
export async function init(source) {
  if (source !== undefined) await load(source);
}

export * from "./api.js";
