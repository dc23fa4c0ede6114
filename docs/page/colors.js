// Code in colours: its names, its types and its numbers.
import { h } from "page/dom.js";
import { commentsOf } from "page/wgsl.js";

const COLORED = 40_000; // characters; behind them the text has one colour
const TOKEN = /#.*|[\p{XID_Start}_][\p{XID_Continue}]*|(?:0[xX][\da-fA-F]+|(?:\d+\.?\d*|\.\d+)(?:[eE][+-]?\d+)?)[iufh]?/gu;
const KEPT = new Set(`alias as assert bindings break case const const_assert continue continuing default derive diagnostic discard
  else enable export false fn for if import let loop overrides override pub requires return
  static_assert struct structs switch true var while`.split(/\s+/));
const TYPES = new RegExp(`^(?:${[
  "bool|[iu](?:8|16|32|64)|f(?:16|32|64)|Abstract(?:Int|Float)|vec[234][iufh]?|mat[234]x[234][fh]?|array|binding_array|atomic|ptr|ref",
  "sampler|sampler_comparison|texture_\\w+|ray_query|acceleration_structure", "u?int\\d+_t|float|double",
].join("|")})$`);

/** The names of the types that a text declares. */
export function declaredTypes(text) {
  return new Set(Array.from(text.matchAll(/(?:struct|alias)\s+([\p{XID_Start}_][\p{XID_Continue}]*)/gu), ([, name]) => name));
}

/** What makes up the text between two indices: strings and elements. */
export function colored(text, declared = declaredTypes(text), comments = commentsOf(text), from = 0, to = text.length) {
  const parts = [], end = Math.min(to, from + COLORED);
  let at = from;
  for (const [start, stop] of comments) {
    if (stop <= from || start >= end) continue;
    colorWords(parts, text, at, Math.max(start, from), declared);
    at = Math.min(stop, end);
    parts.push(h("span", { className: "comment" }, text.slice(Math.max(start, from), at)));
  }
  colorWords(parts, text, at, end, declared);
  if (end < to) parts.push(text.slice(end, to));
  return parts;
}

function colorWords(parts, text, from, to, declared) {
  let at = from;
  const part = text.slice(from, to);
  for (const { 0: word, index } of part.matchAll(TOKEN)) {
    const kind = part[index - 1] === "@" ? null : kindOf(word, declared);
    if (!kind) continue;
    if (from + index > at) parts.push(text.slice(at, from + index));
    parts.push(h("span", { className: kind }, word));
    at = from + index + word.length;
  }
  if (at < to) parts.push(text.slice(at, to));
}

function kindOf(word, declared) {
  if (word[0] === "#") return "comment"; // a line for a preprocessor, or an attribute of Rust
  if (/^[\d.]/.test(word)) return "number";
  if (KEPT.has(word)) return null;
  return TYPES.test(word) || declared.has(word) ? "type" : "name";
}
