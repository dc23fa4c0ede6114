// What a text says without being laid out: its comments, what it declares, and which language it is if it isn't WGSL.

const WORD = "[\\p{XID_Start}_][\\p{XID_Continue}]*";
const STRUCT = new RegExp(`(?<!\\p{XID_Continue})struct\\s+(${WORD})`, "gu");
const BOUND = new RegExp(`@(?:group|binding)\\s*\\([^;{}]{0,200}?\\bvar\\s*(?:<[^>;]{0,50}>)?\\s*${WORD}\\s*:([^;={}]*)`, "gu");
const SHOWN_LEFT_OUT = 100;
const EVERY_WORD = new RegExp(WORD, "gu");
const LET = new RegExp(`(?<!\\p{XID_Continue})let\\s+(${WORD})\\s*=\\s*([^;]*?)\\s*;`, "dgu");
const DECLARED = new RegExp(`(?<!\\p{XID_Continue})(?:fn|struct|alias|override|const|var(?:\\s*<[^>;{}]*>)?)\\s+(${WORD})`, "gu");

/** Where comments stand, as pairs of indices. */
export function commentsOf(text) {
  const starts = /\/\/[^\n\v\f\r\u0085\u2028\u2029]*|\/\*/g, found = [];
  for (let start; (start = starts.exec(text)); ) {
    if (start[0] === "/*") starts.lastIndex = endOfBlock(text, start.index);
    found.push([start.index, starts.lastIndex]);
  }
  return found;
}

/** The end of a comment in which others may stand. */
function endOfBlock(text, start) {
  const edges = /\/\*|\*\//g;
  edges.lastIndex = start;
  let depth = 0;
  for (let edge; (edge = edges.exec(text)); ) {
    depth += edge[0] === "/*" ? 1 : -1;
    if (depth === 0) return edges.lastIndex;
  }
  return text.length;
}

/** The text with blanks for its comments, so that each index stays. */
export function withoutComments(text) {
  let plain = "", at = 0;
  for (const [from, to] of commentsOf(text)) {
    plain += text.slice(at, from) + " ".repeat(to - from);
    at = to;
  }
  return plain + text.slice(at);
}

/** The structs of a text that have no layout: how many, and of the first ones their errors, and which of them they name. */
export function leftOut(text, { structs, errors }) {
  const plain = withoutComments(text), laidOut = new Set(structs.map(({ index }) => index)), starts = [...plain.matchAll(STRUCT)];
  const missing = starts.map(({ 0: found, 1: name, index: start }, at) => {
    const index = start + found.length - name.length, next = starts[at + 1]?.index ?? text.length, body = plain.slice(index + name.length, next);
    return { name, start, index, body: body.includes("}") ? body.slice(0, body.indexOf("}") + 1) : body };
  }).filter(({ index }) => !laidOut.has(index));
  const names = new Set(missing.map(({ name }) => name)), bound = boundNames(plain);
  const told = missing.slice(0, SHOWN_LEFT_OUT).map(({ name, start, index, body }) => {
    const needs = [...new Set(body.match(EVERY_WORD))].filter((other) => other !== name && names.has(other)), end = index + name.length + body.length;
    return { name, index, isBound: bound.has(name), errors: errors.filter((error) => error.index >= start && error.index <= end), needs };
  });
  return { count: missing.length, structs: told };
}

/** The names in the types of variables that are bound. */
function boundNames(plain) {
  return new Set([...plain.matchAll(BOUND)].flatMap(([, type]) => type.match(EVERY_WORD) ?? []));
}

/** The `let`s without a type: where the name stands, and from where to where the initializer does. */
export function letsOf(text) {
  return Array.from(withoutComments(text).matchAll(LET), ({ 1: name, indices: { 1: [index, end], 2: [start, stop] } }) =>
    ({ name, index, end: { index: end }, start, stop }));
}

/** Where a text declares names, but for `let`s and parameters. */
export function declaredNames(text) {
  return Array.from(withoutComments(text).matchAll(DECLARED), ({ 0: words, 1: name, index }) => {
    const end = index + words.length;
    return { name, index: end - name.length, end: { index: end } };
  });
}

// Words that only one language has, with what WGSL writes. `$1` is a part of the word.
const UNIFORM = "struct Camera { view_proj: mat4x4f } @group(0) @binding(0) var<uniform> camera: Camera;";
const LANGUAGES = {
  Metal: [
    [/\busing\s+namespace\s+metal\b|#include\s*<metal_\w+>/, ""], [/\[\[\s*(?:buffer|texture|sampler)\s*\(/, "@group(0) @binding(0)"],
    [/\[\[\s*stage_in\s*\]\]/, "@location(0)"],
  ],
  GLSL: [
    [/#version\b/, ""], [/\bgl_Position\b/, "@builtin(position)"], [/\bgl_(?!Position\b)\w+/, "@builtin(..)"],
    [/\buniform\s+(?:\w+\s+)?(?:vec|mat|float|int|sampler)\w*/, UNIFORM], [/\blayout\s*\(/, "@group(0) @binding(0)"],
    [/\bsampler(?:2D|3D|Cube)\w*/, "texture_2d<f32>"], [/\bvoid\s+main\s*\(/, "fn main()"],
    [/\b(?:in|out|varying|attribute)\s+(?:\w+\s+)?vec([234])(?=\s+\w+\s*;)/, "@location(0)"],
  ],
  HLSL: [
    [/\bcbuffer\b/, UNIFORM], [/\bfloat([234])x([234])\b/, "mat$1x$2f"], [/\bfloat([234])\b/, "vec$1f"],
    [/\bSV_Position\b/, "@builtin(position)"], [/\bSV_Target\d*\b/, "@location(0)"], [/\bregister\s*\(/, "@group(0) @binding(0)"],
    [/\bTexture(?:2D|3D|Cube)\b/, "texture_2d<f32>"], [/\bSampler(?:Comparison)?State\b/, "sampler"],
    [/\b(?:RW)?StructuredBuffer\b/, "var<storage>"], [/\[\s*numthreads\b/, "@compute @workgroup_size(8)"],
  ],
};
// A text with one of these is WGSL, though a word in it may be of another language.
const OF_WGSL = /\bfn\s+\w+\s*\(|@(?:group|binding|vertex|fragment|compute)\b|\bvar\s*<|\bstruct\s+\w+\s*\{\s*(?:@[^:{}]*)?\w+\s*:/;

/** The language of a text that isn't WGSL, with words of it and what WGSL writes for them; null if no word says so. */
export function foreignOf(text) {
  const plain = withoutComments(text);
  if (OF_WGSL.test(plain)) return null;
  for (const [language, rows] of Object.entries(LANGUAGES)) {
    const words = rows.map(([pattern, wgsl]) => [pattern.exec(plain), wgsl]).filter(([word]) => word);
    if (words.length) return { language, words: words.map(([word, wgsl]) => [shown(word[0]), wgsl.replace(/\$(\d)/g, (_, part) => word[part])]) };
  }
  return null;
}

const shown = (word) => word.replace(/\s+/g, " ").replace(/^[[\s]+|[\s([\]]+$/g, "");
