// Values of JavaScript in buffers.
import assert from "node:assert/strict";
import test from "node:test";
import { runInNewContext } from "node:vm";
import { layouts, view } from "wgsl-types-proved";
import { outcomeOf, testTables } from "./tables.mjs";

const LAYOUTS = layouts(`
enable f16;
struct Inner { a: f32, b: vec3f }
struct Outer { flag: u32, list: array<Inner, 2>, m: mat3x3f, halves: vec4<f16>, @size(32) wide: i32, n: atomic<i32> }
struct Endless { count: u32, items: array<vec3f> }
struct Objects { count: u32, items: array<Inner> }
struct Odd { v: vec3f, items: array<u32> }
struct Halves { one: f16, two: mat2x3<f16>, grid: array<array<vec2f, 3>, 2> }
struct Scalars { i: i32, u: u32, f: f32, h: f16, grid: array<vec2u, 2>, n: atomic<u32> }
@group(0) @binding(0) var<storage> outer: Outer;
@group(0) @binding(1) var<storage> colors: array<vec4f>;
@group(0) @binding(2) var image: texture_2d<f32>;
var<private> on: bool;
`);
const [WIDE] = layouts("struct Wide { i: i64, u: u64, d: f64 }").structs;
const structs = Object.fromEntries([...LAYOUTS.structs, WIDE].map((struct) => [struct.name, struct]));
const variables = Object.fromEntries(LAYOUTS.variables.map((variable) => [variable.name, variable]));

/** A view into which a value is written. */
function written(layout, value, options) {
  const made = view(layout, options);
  made.set(value);
  return made;
}

const set = (...given) => written(...given).get();
const member = (struct, name) => structs[struct].members.find((member) => member.name === name);
const SCOPE = { view, written, set, member, structs, variables, layouts: LAYOUTS, Buffer, other: runInNewContext };

testTables("view.txt", ([expression, outcome]) => assert.equal(outcomeOf(expression, SCOPE), outcome, expression));

test("a scalar and a vector have as many bytes as the layout says", () => {
  const scalars = ["i32", "u32", "f32", "f16", "i64", "u64", "f64"];
  const text = `enable f16; struct S { ${scalars.map((name) => `${name}_: ${name}, two_${name}: vec2<${name}>`).join(", ")} }`;
  for (const member of layouts(text).structs[0].members) assert.equal(view(member).buffer.byteLength, member.size, member.type);
});

test("beside a number that doesn't fit all stays", () => {
  const values = view(structs.Scalars, { buffer: new Uint8Array(64).fill(255).buffer });
  assert.throws(() => values.set({ u: 2n ** 32n }), RangeError);
  assert.throws(() => values.set({ i: -(2 ** 31) - 1 }), RangeError);
  assert.ok(new Uint8Array(values.buffer).every((byte) => byte === 255));
});

test("a f16 is rounded to the nearest, ties to even: each one, and the numbers around the middle of two", () => {
  const { members: [one] } = structs.Halves, half = view(one), bits = new Uint16Array(half.buffer);
  const bitsOf = (value) => (half.set(value), bits[0]);
  const valueOf = (n) => ((bits[0] = n), half.get());
  for (let n = 0; n < 0x7bff; n++) {
    const low = valueOf(n), high = valueOf(n + 1), middle = (low + high) / 2;
    assert.equal(low, n < 1024 ? n * 2 ** -24 : (1 + (n & 1023) / 1024) * 2 ** ((n >> 10) - 15));
    assert.equal(bitsOf(low), n);
    assert.equal(bitsOf(-low), n | 0x8000);
    assert.equal(bitsOf(middle), n % 2 ? n + 1 : n);
    assert.equal(bitsOf(middle + (high - low) / 1e6), n + 1);
    assert.equal(bitsOf(middle - (high - low) / 1e6), n);
  }
  assert.deepEqual([65519, 65520, Infinity, -Infinity, 2 ** -26].map(bitsOf), [0x7bff, 0x7c00, 0x7c00, 0xfc00, 0]);
  assert.deepEqual([0x7c00, 0xfc00, 0x7e00, 0x8000].map(valueOf), [Infinity, -Infinity, NaN, -0]);
  assert.equal(bitsOf(NaN) & 0x7c00, 0x7c00);
});
