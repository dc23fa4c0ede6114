/** Where the module comes from: its address, its bytes, a response with them, or what was compiled of them. */
export type ModuleSource = string | URL | Response | BufferSource | WebAssembly.Module;

/**
 * Makes the calls work. In node and by `wgsl-types-proved/inline` they work at once; elsewhere `await init()` fetches `wgsl.wasm`
 * from beside the package, or takes what it is given.
 */
export function init(source?: ModuleSource | Promise<ModuleSource>): Promise<void>;
/** The same without waiting, from the bytes of `wgsl.wasm`, a data URL of them, or the compiled module. */
export function initSync(source: BufferSource | WebAssembly.Module | string): void;
/** The version of the library. */
export function version(): string;

/** A request that can't be read: it isn't what can be asked, is blank, has a line feed, or is longer than 4096 bytes. */
export class Unreadable extends Error {
  /** Where in the request, as an index of its string; null if no place is meant. */
  readonly index: number | null;
}

/** What the rules refuse: no overload takes the operands, for example. */
export class Refused extends Error {
  /** Where in the request the part begins that has no type, as an index of its string; null if no place is meant. */
  readonly index: number | null;
}

/** A WGSL text with errors. */
export class SourceError extends Error {
  /** In the order of the text. */
  readonly errors: Message[];
  /** What has a layout all the same. */
  readonly layouts: Layouts;
  /** The code of that, as `code` writes it. */
  code(language: Language): string;
}

export type Language = "c" | "rust" | "numpy" | "typescript";

/** Answers a request in WGSL, as `type -vec3f`, by WGSL's own rules. Throws `Unreadable` or `Refused`. */
export function standardAnswer(request: string): string;
/** Answers a request in words, as `unary - f32`, by the rules of the Rust crate wgsl-types. Throws `Unreadable` or `Refused`. */
export function answer(request: string): string;
/** Why `standardAnswer` can't read a request, or null if it can. */
export function standardExplain(request: string): string | null;
/** Why `answer` can't read a request, or null if it can. */
export function explain(request: string): string | null;

/** The layouts of a WGSL text. Throws `SourceError` if it has errors. */
export function layouts(text: string): Layouts;

/** The structs of a WGSL text as code, which checks each offset and size in C, Rust and numpy. Throws `SourceError` if the text has errors. */
export function code(text: string, language: Language): string;

/** What is wrong with a WGSL text by WGSL's rules, and the types of its expressions. Throws nothing for a fault. */
export function check(text: string): Checked;

/** What is found of a text, each in its order. */
export interface Checked {
  /** The `kind` of each is the code of the rule that is broken. */
  faults: Message[];
  /** The expressions that have a type. */
  parts: Part[];
}

/** An expression. */
export interface Part extends Place {
  /** The place behind it. */
  end: Place;
  /** As WGSL spells it. */
  type: string;
  /** When its value is known: with the module, with the pipeline, or when the shader runs. */
  stage: "const" | "override" | "runtime";
  /** Where the name is declared, if it is a name that the text declares. */
  declared: Place | null;
}

/** What a text has, each in its order. */
export interface Layouts {
  structs: StructLayout[];
  /** The names of the structs that have an error, or use what has one. */
  leftOut: string[];
  variables: Variable[];
  overrides: Override[];
  entryPoints: EntryPoint[];
  /** What can't be read or laid out: empty, unless it is that of a `SourceError`. */
  errors: Message[];
  /** Which rules of address spaces a variable breaks. */
  findings: Message[];
}

export interface Place {
  /** From 1. */
  line: number;
  /** In bytes of UTF-8, from 1. */
  column: number;
  /** In units of UTF-16, from 1. */
  utf16Column: number;
  /** The same place as an index of the text, as `textarea.setSelectionRange` takes it. */
  index: number;
}

export interface StructLayout extends Place {
  name: string;
  /** In bytes; with one element, if the last member is a runtime-sized array. */
  size: number;
  align: number;
  runtimeSized: boolean;
  members: Member[];
}

export interface Member extends Place {
  name: string;
  /** As WGSL spells it, with aliases resolved. */
  type: string;
  typeTree: Type;
  offset: number;
  size: number;
  align: number;
  /** How far the elements of an array or the columns of a matrix lie apart. */
  stride: number | null;
  /** How many bytes lie between this member and the next one, or the end of the struct. */
  padding: number;
}

export type AddressSpace = "function" | "private" | "workgroup" | "uniform" | "storage" | "handle" | "immediate";
export type AccessMode = "read" | "write" | "read_write" | "atomic";

export interface Variable extends Place {
  name: string;
  type: string;
  typeTree: Type;
  group: number | null;
  binding: number | null;
  space: AddressSpace;
  access: AccessMode;
  /** What a bind group layout says of it; null if it isn't bound. */
  resource: Resource | null;
  /** In bytes; null if it has none, or as many as are bound. */
  size: number | null;
  /** The least number of bytes that a buffer bound here has, if it is one. */
  minBindingSize: number | null;
}

/** In the words of a bind group layout of WebGPU. */
export type Resource =
  | { kind: "buffer"; type: "uniform" | "storage" | "read-only-storage" }
  | { kind: "bindingArray"; count: number | null; stride: number | null; element: Type }
  | { kind: "accelerationStructure" }
  | Handle;

export type Handle =
  | { kind: "sampler"; type: "filtering" | "comparison" }
  | { kind: "texture"; sampleType: string; viewDimension: string; multisampled: boolean }
  | { kind: "storageTexture"; format: string; access: string; viewDimension: string }
  | { kind: "externalTexture" };

export interface Override extends Place {
  name: string;
  id: number | null;
  /** Null if only an initializer says it that isn't read. */
  type: string | null;
  hasDefault: boolean;
}

export interface EntryPoint extends Place {
  name: string;
  stage: "vertex" | "fragment" | "compute";
  /** An extent is null if an override gives it. */
  workgroupSize: [number | null, number | null, number | null] | null;
}

export interface Message extends Note {
  /** The name of what is wrong. */
  kind: string;
  /** Of what `check` finds: why the nearest overloads don't fit, or where the other declaration is. */
  notes?: Note[];
}

/** What there is to say of a place, up to its end. */
export interface Note extends Place {
  end: Place;
  message: string;
}

export interface ScalarType {
  kind: "scalar";
  name: "bool" | "i32" | "u32" | "f32" | "f16" | "i64" | "u64" | "f64";
}

/** What a type is made of. */
export type Type =
  | ScalarType
  | { kind: "vector"; count: number; component: ScalarType }
  | { kind: "matrix"; columns: number; rows: number; stride: number; component: ScalarType }
  | { kind: "atomic"; component: ScalarType }
  | { kind: "array"; count: number | null; stride: number | null; element: Type }
  | { kind: "struct"; name: string; struct: StructLayout }
  | { kind: "bindingArray"; count: number | null; stride: number | null; element: Type }
  | { kind: "pointer"; count: null; stride: null; target: Type }
  | { kind: "rayQuery" }
  | { kind: "accelerationStructure" }
  | Handle;

/**
 * A number, a boolean for a `bool`, also a bigint for an integer; a list, nested or flat; an object of a struct's members, of which
 * some may be left out.
 */
export type Value = number | bigint | boolean | Iterable<Value> | { readonly [member: string]: Value };
/** A number, a boolean, or a bigint for 64-bit integers; a list; an object of a struct's members. */
export type Read = number | bigint | boolean | Read[] | { [member: string]: Read };

/** A part of a buffer, by a layout. */
export interface View {
  readonly name: string;
  readonly buffer: ArrayBuffer;
  /** In bytes. */
  readonly offset: number;
  /** In bytes. */
  readonly size: number;
  /** How many elements the runtime-sized array has, if there is one. */
  readonly count: number;
  /**
   * Writes a value. What it lacks stays as it is. Throws with the path of what doesn't fit: `TypeError` if it is of another kind,
   * `RangeError` if an integer type lacks the number, as `u32` does -1, 1.5 and NaN, or if a list has another length.
   */
  set(value: Value): void;
  /** Reads the value. */
  get(): Read;
}

/**
 * A view of a buffer by the layout of a struct, of a member or of a variable. Throws `TypeError` for what is no such layout and what
 * is no ArrayBuffer, `RangeError` if the buffer is too short.
 */
export function view(
  layout: StructLayout | Member | Variable,
  options?: {
    /** It is made, if none is given. */
    buffer?: ArrayBuffer;
    /** Where the value begins, in bytes. */
    offset?: number;
    /** How many elements the runtime-sized array has; without it, as many as the buffer has room for, or 1. */
    count?: number;
  },
): View;
