// What each entry exports beside `init`.
export {
  Refused, SourceError, Unreadable, answer, check, code, explain, initSync, layouts, standardAnswer, standardExplain, version,
} from "./calls.js";
export { view } from "./view.js";
