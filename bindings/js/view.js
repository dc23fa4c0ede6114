// Values of JavaScript in buffers, by a layout: written and read back.
import { bitsOfF16, valueOfF16 } from "./f16.js";

/** How many bytes a scalar takes, the range of an integer, and how it is written and read. */
const SCALARS = {
  bool: { size: 4, put: (data, at, value) => data.setUint32(at, value ? 1 : 0, true), get: (data, at) => data.getUint32(at, true) !== 0 },
  i32: { size: 4, range: [-(2 ** 31), 2 ** 31 - 1], put: (data, at, value) => data.setInt32(at, Number(value), true), get: (data, at) => data.getInt32(at, true) },
  u32: { size: 4, range: [0, 2 ** 32 - 1], put: (data, at, value) => data.setUint32(at, Number(value), true), get: (data, at) => data.getUint32(at, true) },
  f32: { size: 4, put: (data, at, value) => data.setFloat32(at, Number(value), true), get: (data, at) => data.getFloat32(at, true) },
  f16: { size: 2, put: (data, at, value) => data.setUint16(at, bitsOfF16(Number(value)), true), get: (data, at) => valueOfF16(data.getUint16(at, true)) },
  i64: { size: 8, range: [-(2n ** 63n), 2n ** 63n - 1n], put: (data, at, value) => data.setBigInt64(at, BigInt(value), true), get: (data, at) => data.getBigInt64(at, true) },
  u64: { size: 8, range: [0n, 2n ** 64n - 1n], put: (data, at, value) => data.setBigUint64(at, BigInt(value), true), get: (data, at) => data.getBigUint64(at, true) },
  f64: { size: 8, put: (data, at, value) => data.setFloat64(at, Number(value), true), get: (data, at) => data.getFloat64(at, true) },
};

/**
 * A view of a buffer by the layout of a struct, of a member or of a variable. The buffer is made if none is given. `count` is how
 * many elements a runtime-sized array has; without it, as many as the buffer has room for, or 1.
 */
export function view(layout, options) {
  const type = typeOf(layout), { buffer = null, offset = 0, count = null } = options ?? {}, to = { path: [layout.name] };
  ensureSized(type);
  ensure(!isBuffer(options) && !ArrayBuffer.isView(options), TypeError, `a buffer is given as \`{ buffer }\`, not as ${kindOf(options)}`);
  if (buffer !== null) ensureBuffer(buffer);
  if (count !== null) ensureIndex("count", count);
  ensureIndex("offset", offset);
  const elements = count ?? (buffer ? countIn(type, buffer.byteLength - offset) : 1), size = sizeOf(type, elements), end = offset + size;
  if (buffer && end > buffer.byteLength) refuse(RangeError, to, `a buffer of ${end} bytes is wanted, not of ${buffer.byteLength}`);
  return new View(layout.name, type, buffer ?? made(end, to), { offset, size, count: elements });
}

function ensure(holds, Kind, why) {
  if (!holds) throw new Kind(`wgsl-types-proved: ${why}`);
}

/** What a value is, as `Float32Array`, whatever realm it is of. */
function kindOf(value) {
  return Object.prototype.toString.call(value).slice(8, -1);
}

function isBuffer(value) {
  return ["ArrayBuffer", "SharedArrayBuffer"].includes(kindOf(value));
}

function ensureBuffer(value) {
  const cure = ArrayBuffer.isView(value) ? ": give its `buffer`, and its `byteOffset` as the `offset`" : "";
  ensure(isBuffer(value), TypeError, `an ArrayBuffer is wanted, not ${kindOf(value)}${cure}`);
}

function ensureIndex(what, value) {
  ensure(typeof value === "number", TypeError, `a number is wanted as the \`${what}\`, not ${kindOf(value)}`);
  ensure(Number.isInteger(value) && value >= 0, RangeError, `a whole number from 0 on is wanted as the \`${what}\`, not ${value}`);
}

/** The type of a layout. */
function typeOf(layout) {
  const type = layout?.members ? { kind: "struct", name: layout.name, struct: layout } : layout?.typeTree;
  ensure(type?.kind, TypeError, `the layout of a struct, a member or a variable is wanted, as \`layouts(text).structs[0]\`, not ${kindOf(layout)}`);
  return type;
}

function made(size, to) {
  try {
    return new ArrayBuffer(size);
  } catch {
    return refuse(RangeError, to, `there is no memory for a buffer of ${size} bytes`);
  }
}

class View {
  #type;
  #data;

  constructor(name, type, buffer, { offset, size, count }) {
    Object.assign(this, { name, buffer, offset, size, count });
    this.#type = type;
    this.#data = new DataView(buffer, offset, size);
  }

  /** Writes a value. Members that it lacks stay as they are. */
  set(value) {
    put(this.#type, 0, value, { data: this.#data, count: this.count, path: [this.name] });
  }

  /** Reads the value. */
  get() {
    return valueAt(this.#type, 0, this.#data, this.count);
  }
}

/** Refuses what has no bytes, as a texture. */
function ensureSized(type) {
  if (type.kind === "struct" && type.struct) return type.struct.members.forEach(({ typeTree }) => ensureSized(typeTree));
  if (type.kind === "array" && type.stride !== null) return ensureSized(type.element);
  ensure(["scalar", "vector", "matrix", "atomic"].includes(type.kind), TypeError, `a ${type.kind} has no bytes`);
}

/** How many bytes a type takes with so many elements in its runtime-sized array, if it has one. */
export function sizeOf(type, count = 1) {
  switch (type.kind) {
    case "scalar": return SCALARS[type.name].size;
    case "atomic": return sizeOf(type.component);
    case "vector": return type.count * sizeOf(type.component);
    case "matrix": return type.columns * type.stride;
    case "array": return (type.count ?? count) * type.stride;
  }
  const { size, align, runtimeSized, members } = type.struct;
  if (!runtimeSized) return size;
  const { offset, typeTree } = members.at(-1);
  return Math.ceil((offset + sizeOf(typeTree, count)) / align) * align;
}

/** How many elements of the runtime-sized array have room in so many bytes. */
function countIn(type, bytes) {
  if (type.kind === "array") return Math.max(0, Math.floor(bytes / type.stride));
  const last = type.struct?.members.at(-1);
  return last ? countIn(last.typeTree, bytes - last.offset) : 0;
}

/** What a vector, a matrix or an array has inside: how many of which type, and how far apart. */
export function partsOf(type, count = 1) {
  switch (type.kind) {
    case "vector": return { count: type.count, inner: type.component, stride: sizeOf(type.component) };
    case "matrix": return { count: type.columns, inner: { kind: "vector", count: type.rows, component: type.component }, stride: type.stride };
    default: return { count: type.count ?? count, inner: type.element, stride: type.stride };
  }
}

const isScalar = (value) => typeof value === "number" || typeof value === "bigint" || typeof value === "boolean";

/** How many numbers a type has, or 0 if it has a struct. */
function numbersIn(type) {
  if (type.kind === "scalar" || type.kind === "atomic") return 1;
  if (type.kind === "struct") return 0;
  const { count, inner } = partsOf(type);
  return count * numbersIn(inner);
}

/** Writes a value. `to` has where, and on which path, for what is refused. */
function put(type, at, value, to) {
  if (type.kind === "atomic") type = type.component;
  if (type.kind === "struct") putMembers(type.struct, at, value, to);
  else if (type.kind !== "scalar") putList(type, at, value, to);
  else putScalar(type.name, at, value, to);
}

/** Writes a boolean into a bool, a whole number in its range into an integer, and any number into the others. */
function putScalar(name, at, value, to) {
  const { range, put } = SCALARS[name];
  if (name === "bool" && typeof value !== "boolean") refuse(TypeError, to, "a boolean is wanted for bool");
  if (name !== "bool" && typeof value !== "number" && typeof value !== "bigint") refuse(TypeError, to, `a number is wanted for ${name}`);
  const fits = !range || ((typeof value === "bigint" || Number.isInteger(value)) && range[0] <= value && value <= range[1]);
  if (!fits) refuse(RangeError, to, `a whole number from ${range[0]} to ${range[1]} is wanted for ${name}, not ${value}`);
  put(to.data, at, value);
}

function refuse(Kind, { path }, why) {
  const where = path.map((part, index) => (typeof part === "number" ? `[${part}]` : index ? `.${part}` : part)).join("");
  throw new Kind(`${where}: ${why}`);
}

function putMembers({ name, members }, at, value, to) {
  if (value === null || typeof value !== "object" || Array.isArray(value)) refuse(TypeError, to, `an object is wanted for ${name}`);
  for (const [key, part] of Object.entries(value)) {
    const member = members.find((member) => member.name === key);
    if (!member) refuse(TypeError, to, `${name} has no member ${key}`);
    to.path.push(key);
    put(member.typeTree, at + member.offset, part, to);
    to.path.pop();
  }
}

const article = (kind) => (kind === "array" ? "an" : "a");

/** Writes a list, nested or flat. An array may have fewer elements than there are. */
function putList(type, at, value, to) {
  if (value === null || typeof value !== "object" || !(Symbol.iterator in value)) refuse(TypeError, to, `a list is wanted for ${article(type.kind)} ${type.kind}`);
  const items = ArrayBuffer.isView(value) ? value : [...value], { count, inner, stride } = partsOf(type, to.count), each = numbersIn(inner);
  const isFlat = each > 1 && items.length > 0 && isScalar(items[0]), wanted = isFlat ? count * each : count;
  const fits = type.kind === "array" ? items.length <= wanted && (!isFlat || items.length % each === 0) : items.length === wanted;
  if (!fits) refuse(RangeError, to, `${wanted} ${isFlat || each === 1 ? "numbers" : "elements"} are wanted for ${article(type.kind)} ${type.kind}, not ${items.length}`);
  for (let index = 0; index < (isFlat ? items.length / each : items.length); index++) {
    to.path.push(index);
    put(inner, at + index * stride, isFlat ? items.slice(index * each, (index + 1) * each) : items[index], to);
    to.path.pop();
  }
}

/** Reads a value: a number, a boolean or a BigInt; a list; an object of a struct's members. */
function valueAt(type, at, data, count) {
  if (type.kind === "atomic") type = type.component;
  if (type.kind === "scalar") return SCALARS[type.name].get(data, at);
  if (type.kind === "struct") {
    return Object.fromEntries(type.struct.members.map(({ name, typeTree, offset }) => [name, valueAt(typeTree, at + offset, data, count)]));
  }
  const parts = partsOf(type, count);
  return Array.from({ length: parts.count }, (_, index) => valueAt(parts.inner, at + index * parts.stride, data, count));
}
