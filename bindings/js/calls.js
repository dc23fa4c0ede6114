// The calls, over an instance of the module. They need no file and no network.

const encoder = new TextEncoder();
const decoder = new TextDecoder("utf-8", { ignoreBOM: true });
const PAGE = 65536;

/** What a call of the module returns, as wgsl.h says. */
const Status = { ANSWERED: 0, RULED_OUT: 1, UNREADABLE: 2, OUT_OF_MEMORY: 3, NO_ROOM: 4 };

let compiled = null; // the WebAssembly.Module
let wasm = null; // the exports of its instance
let room = { at: 0, size: 0 }; // the memory of the instance that is ours

/** Why a request has no answer. */
class Failure extends Error {
  constructor(request, message) {
    super(message);
    const column = /^column (\d+)/.exec(message);
    this.index = column ? indexOfByte(request, Number(column[1]) - 1) : null;
  }
}

/** A request that can't be read: it isn't what can be asked, is blank, has a line feed, or is longer than 4096 bytes. */
export class Unreadable extends Failure {
  name = "Unreadable";
}

/** What the rules refuse: no overload takes the operands, for example. */
export class Refused extends Failure {
  name = "Refused";
}

/** A WGSL text with errors. */
export class SourceError extends Error {
  constructor(layouts, text) {
    const [{ line, column, message }] = layouts.errors, more = layouts.errors.length - 1;
    super(`line ${line}, column ${column}: ${message}${more ? `, and ${more} more` : ""}`);
    this.name = "SourceError";
    this.errors = layouts.errors;
    Object.defineProperty(this, "layouts", { value: layouts }); // not enumerable: who prints the error sees the errors alone
    this.#text = text;
  }

  #text;

  /** The code of the structs that have no error. */
  code(language) {
    return codeOf(this.#text, language);
  }
}

/** Makes the calls work at once: from the bytes of `wgsl.wasm`, a data URL of them, or a compiled module. */
export function initSync(source) {
  if (typeof source === "string") source = bytesOfDataUrl(source);
  compiled = source instanceof WebAssembly.Module ? source : new WebAssembly.Module(source);
  restart();
}

function bytesOfDataUrl(url) {
  const found = /^data:[^,]*;base64,(.*)$/s.exec(url);
  if (!found) throw new TypeError("wgsl-types-proved: at once, it takes bytes, a compiled module or a data URL in base64");
  return Uint8Array.from(atob(found[1]), (character) => character.charCodeAt(0));
}

/** Makes the calls work, from an address, a response, bytes or a compiled module; each may be waited for. */
export async function load(source) {
  source = await source;
  if (typeof source === "string" || source instanceof URL) source = await fetch(source);
  if (typeof Response === "function" && source instanceof Response) {
    if (!source.ok) throw new Error(`wgsl-types-proved: ${source.url} answers ${source.status}`);
    source = await source.arrayBuffer(); // whatever media type the server names
  }
  initSync(source instanceof WebAssembly.Module ? source : await WebAssembly.compile(source));
}

/** Whether the calls work. */
export function isReady() {
  return wasm !== null;
}

function restart() {
  wasm = new WebAssembly.Instance(compiled, {}).exports;
  room = { at: 0, size: 0 };
}

/** Has so many bytes of the module's memory for us, which its own allocator doesn't touch: pages that we have added. */
function ensureRoom(size) {
  if (size <= room.size) return;
  const pages = Math.ceil((size * 1.5) / PAGE), at = wasm.memory.grow(pages) * PAGE, end = room.at + room.size;
  room = at === end ? { at: room.at, size: room.size + pages * PAGE } : { at, size: pages * PAGE };
}

const LENGTH = 8; // in front of the request stands the length of the answer
const SHORTEST = 4 * PAGE;

/** What a call answers to a text: its status, and the text that it writes. */
function ask(name, text, language) {
  if (typeof text !== "string") throw new TypeError("wgsl-types-proved: a string is wanted");
  if (!text.isWellFormed()) throw new TypeError("wgsl-types-proved: the text has half of a surrogate pair");
  if (wasm === null) throw new Error("wgsl-types-proved: call `await init()` first");
  const request = encoder.encode(text);
  try {
    return answerOf(name, request, language);
  } catch (cause) {
    restart(); // a call that trapped may have left anything
    throw new RangeError(`wgsl-types-proved: 32 bits of memory are too few for the answer (${cause.message})`, { cause });
  }
}

function answerOf(name, request, language) {
  const start = LENGTH + request.length;
  for (let wanted = SHORTEST; ; ) {
    ensureRoom(start + wanted);
    new Uint8Array(wasm.memory.buffer, room.at + LENGTH, request.length).set(request);
    const buffer = room.at + start, status = wasm[name](room.at + LENGTH, request.length, buffer, room.size - start, room.at, language);
    const length = new DataView(wasm.memory.buffer).getUint32(room.at, true);
    if (status === Status.NO_ROOM) wanted = length;
    else if (status === Status.OUT_OF_MEMORY) throw new RangeError("out of memory");
    else return { status, text: decoder.decode(new Uint8Array(wasm.memory.buffer, buffer, length)) };
  }
}

function answered(name, explainName, request) {
  const { status, text } = ask(name, request);
  if (status === Status.ANSWERED) return text;
  if (status === Status.RULED_OUT) throw new Refused(request, text);
  throw new Unreadable(request, explained(explainName, request));
}

function explained(name, request) {
  const { status, text } = ask(name, request);
  return status === Status.ANSWERED ? text : null;
}

/** Answers a request by the rules of the Rust crate wgsl-types. */
export const answer = (request) => answered("wgsl_answer", "wgsl_explain", request);

/** Answers a request by WGSL's own rules. */
export const standardAnswer = (request) => answered("wgsl_standard_answer", "wgsl_standard_explain", request);

/** Why a request can't be read by the rules of the Rust crate wgsl-types, or null if it can. */
export const explain = (request) => explained("wgsl_explain", request);

/** Why a request can't be read by WGSL's own rules, or null if it can. */
export const standardExplain = (request) => explained("wgsl_standard_explain", request);

/** The version of the library. */
export function version() {
  if (wasm === null) throw new Error("wgsl-types-proved: call `await init()` first");
  const bytes = new Uint8Array(wasm.memory.buffer, wasm.wgsl_version());
  return decoder.decode(bytes.subarray(0, bytes.indexOf(0)));
}

/** The layouts of a WGSL text. Throws `SourceError` if it has errors. */
export function layouts(text) {
  const { structs, leftOut, variables, overrides, entryPoints, errors, findings } = JSON.parse(ask("wgsl_source_layout", text).text);
  const told = { structs, variables, overrides, entryPoints, errors, findings };
  addIndexes(text, [...Object.values(told).flat(), ...structs.flatMap(({ members }) => members)]);
  told.leftOut = leftOut;
  linkStructs(structs, variables);
  if (errors.length) throw new SourceError(told, text);
  return told;
}

/** What is wrong with a WGSL text by WGSL's rules, and the types of its expressions. */
export function check(text) {
  const { faults, types: parts } = JSON.parse(ask("wgsl_module_check", text).text);
  addIndexes(text, [...faults, ...parts]);
  return { faults, parts };
}

const LANGUAGES = ["c", "rust", "numpy", "typescript"]; // by their numbers in wgsl.h

/** The structs of a WGSL text as code in a language. Throws `SourceError` if the text has errors. */
export function code(text, language) {
  layouts(text);
  return codeOf(text, language);
}

function codeOf(text, language) {
  const number = LANGUAGES.indexOf(language);
  if (number < 0) throw new RangeError(`wgsl-types-proved: there is no language ${language}: it is ${LANGUAGES.join(", ")}`);
  return ask("wgsl_source_code", text, number).text;
}

/** Where the lines of a text begin, as WGSL ends them. */
function startsOfLines(text) {
  const starts = [0];
  for (const { 0: end, index } of text.matchAll(/\r\n|[\n\v\f\r\u0085\u2028\u2029]/g)) starts.push(index + end.length);
  return starts;
}

/** Gives each place its index in a text, and the places where it ends and is declared and those of its notes, if it has them. */
function addIndexes(text, places) {
  const starts = startsOfLines(text), notes = places.flatMap((place) => place.notes ?? []);
  for (const place of [...places, ...notes].flatMap((place) => [place, place.end, place.declared])) {
    if (place) place.index = starts[place.line - 1] + place.utf16Column - 1;
  }
}

/** Has each type that is a struct refer to the struct. */
function linkStructs(structs, variables) {
  const named = new Map(structs.map((struct) => [struct.name, struct]));
  for (const { typeTree } of [...structs.flatMap(({ members }) => members), ...variables]) {
    let type = typeTree;
    while (type.element ?? type.target) type = type.element ?? type.target;
    if (type.kind === "struct") type.struct = named.get(type.name);
  }
}

/** The index in a string of the character at a byte of its UTF-8. */
const indexOfByte = (text, byte) => decoder.decode(encoder.encode(text).subarray(0, byte)).length;

/** The compiled module, or null, which `initSync` takes in a worker. */
export function compiledModule() {
  return compiled;
}

/** How many bytes of memory the module has. It grows, and does not shrink. */
export function memorySize() {
  return wasm === null ? 0 : wasm.memory.buffer.byteLength;
}
