// What is known of the text. A worker finds it: after a key it is old for a while, and stands where the text has moved to.
import { declaredNames } from "page/wgsl.js";
import { compiledModule } from "wgsl/calls.js";

const worker = new Worker(import.meta.resolve("page/worker.js"), { type: "module" }), waiting = [];
let wanted = null, isBusy = false;

/** What was found last, with its text. */
export let last = {
  text: "", structs: [], variables: [], errors: [], findings: [], faults: [], lets: [], kinds: [], parts: [],
  broken: { count: 0, structs: [] }, isBroken: false, foreign: null,
};

worker.onmessage = ({ data }) => waiting.shift()(data);
worker.postMessage(compiledModule());

function asked(message) {
  worker.postMessage(message);
  return new Promise((resolve) => waiting.push(resolve));
}

/** Reads and checks a text, and then tells that. While the worker is busy, only the newest text waits. */
export async function check(text, onChecked) {
  wanted = text;
  if (isBusy) return;
  isBusy = true;
  while (wanted !== null) {
    const sent = wanted;
    wanted = null;
    last = { text: sent, ...(await asked({ text: sent.toWellFormed() })) };
    onChecked(wanted === null);
  }
  isBusy = false;
}

/** The type of an expression in the scope of a text, or its fault; null if an error of the text hides it. */
export const typeIn = async (text, expression) => (await asked({ text: text.toWellFormed(), expression })).outcome;

/** How a text differs from the one that was checked: between which places of that one, and by how many characters and lines. */
function changeTo(text) {
  const before = last.text, least = Math.min(before.length, text.length), by = text.length - before.length;
  let start = 0, end = before.length;
  while (start < least && before[start] === text[start]) start++;
  while (end > start && end + by > start && before[end - 1] === text[end + by - 1]) end--;
  const linesOf = (whole, to) => whole.slice(start, to).split("\n").length;
  return { start, end, by, lines: linesOf(text, end + by) - linesOf(before, end) };
}

let placed = { of: null }; // what was found, by where it stands in a text

/** What was found last, where it stands in a text, but for what has changed there. A fault beside an error or a finding adds its notes. */
function placedIn(text) {
  if (placed.of === last && placed.text === text) return placed;
  const { start, end, by, lines } = changeTo(text);
  const shifted = (place) => ({ ...place, index: place.index + by, line: place.line + lines });
  const move = (one) => (one.end.index <= start ? one : { ...shifted(one), end: shifted(one.end) });
  const stays = (one) => one.end.index <= start || one.index >= end;
  const moved = (found) => (isChecked(text) ? found : found.filter(stays).map((one) => ({ ...move(one), notes: one.notes?.map(move) })));
  const [errors, findings, faults, lets] = [last.errors, last.findings, last.faults, last.lets].map(moved);
  const places = new Map(faults.map((fault) => [fault.index, fault])), known = new Set([...errors, ...findings].map(({ index }) => index));
  const withNotes = (message) => ({ ...message, notes: places.get(message.index)?.notes });
  const all = [...errors.map(withNotes), ...faults.filter(({ index }) => !known.has(index))].sort((a, b) => a.index - b.index);
  placed = { of: last, text, errors: all, findings: findings.map(withNotes), lets };
  return placed;
}

export const isChecked = (text) => text === last.text;
export const letsOf = (text) => placedIn(text).lets;

/** What is wrong with a text: its errors, among them faults of the check, and findings. */
export const problemsOf = placedIn;

/** Whether a request has a name that a text declares. */
export function namesShader(request, text) {
  const words = new Set(request.split(/[^\p{XID_Continue}]+/u));
  return declaredNames(text).some(({ name }) => words.has(name));
}

/** The expressions of a text that a test accepts by where they start and end, the shortest first; none before it is checked. */
function partsWhere(text, accepts) {
  const found = [], { parts, kinds } = last, count = isChecked(text) ? parts.length : 0;
  for (let at = 0; at < count; at += 4) {
    const index = parts[at], end = parts[at + 1];
    if (accepts(index, end)) found.push({ index, end: { index: end }, ...kinds[parts[at + 2]], declared: parts[at + 3] });
  }
  return found.sort((a, b) => a.end.index - a.index - (b.end.index - b.index));
}

/** The innermost expression at an index, or the `let` whose name stands there. */
export function partAt(text, index) {
  const made = letsOf(text).find((made) => made.index <= index && index < made.end.index);
  return partsWhere(text, (from, to) => from <= index && index < to)[0] ?? (made ? { ...made, stage: "runtime" } : null);
}

/** The expression that ends at an index and starts at another, if one is given. */
export function partEndingAt(text, end, start = null) {
  return partsWhere(text, (from, to) => to === end && (start ?? from) === from)[0] ?? null;
}
