// The calls of the npm package.
import assert from "node:assert/strict";
import { readFileSync } from "node:fs";
import test from "node:test";
import { Worker } from "node:worker_threads";
import { pathToFileURL } from "node:url";
import { createRequire } from "node:module";
import * as wgsl from "wgsl-types-proved";
import { assertIs, outcomeOf, testTables } from "./tables.mjs";

const PACKAGE = new URL(".", pathToFileURL(createRequire(import.meta.url).resolve("wgsl-types-proved/package.json")));
const imported = (name) => import(new URL(name, PACKAGE).href);
const [browser, { load, memorySize }, fresh] = await Promise.all(["index.js", "calls.js", "calls.js?fresh"].map(imported));
const inline = await import("wgsl-types-proved/inline"), MODULE = readFileSync(new URL("wgsl.wasm", PACKAGE));

const LIGHT = `const COUNT = 4u;
alias Color = vec3f;
struct Light { color: Color, power: f32, cone: vec2<f32> }
struct Scene {
  view_proj: mat4x4<f32>,
  lights: array<Light, COUNT>,
  weights: array<f32, COUNT - 1>,
}
@group(0) @binding(0) var<uniform> scene: Scene;
`;

/** What a text is refused with, which must be a SourceError. */
function sourceError(text) {
  try {
    wgsl.layouts(text);
  } catch (error) {
    assert.ok(error instanceof wgsl.SourceError, String(error));
    return error;
  }
  return assert.fail(`it has no errors: ${text.slice(0, 60)}`);
}

const { version } = JSON.parse(readFileSync(new URL("package.json", PACKAGE)));
const SCOPE = { ...wgsl, LIGHT, sourceError, Buffer, wgsl, browser, inline, fresh, packed: { version, module: new WebAssembly.Module(MODULE) } };

testTables("calls.txt", ([expression, outcome]) => assertIs(outcomeOf(expression, SCOPE), outcome, expression));

test("errors of requests are of the classes of the package", () => {
  assert.throws(() => wgsl.answer("unary - vec 3 f32"), wgsl.Refused);
  assert.throws(() => wgsl.standardAnswer(""), wgsl.Unreadable);
});

test("if the memory can't grow, a call says so, and the next one answers, in a memory as at the start", () => {
  const { grow } = WebAssembly.Memory.prototype, text = LIGHT.repeat(200_000), before = memorySize();
  assert.equal(sourceError(LIGHT.repeat(20_000)).errors.length > 0, true);
  const grown = memorySize();
  WebAssembly.Memory.prototype.grow = () => {
    throw new RangeError("no more");
  };
  try {
    assert.throws(() => wgsl.layouts(text), { name: "RangeError", message: /32 bits of memory are too few.*no more/ });
  } finally {
    WebAssembly.Memory.prototype.grow = grow;
  }
  assert.ok(memorySize() < grown && memorySize() <= before, `${before}, ${grown}, ${memorySize()}`);
  assert.equal(wgsl.layouts(LIGHT).structs.length, 2);
});

test("after a call that trapped the next one has a module as at the start", async () => {
  const trapping = await imported("calls.js?trap");
  trapping.initSync(trappingOnce());
  for (let turn = 0; turn < 3; turn++) assert.throws(() => trapping.answer("a"), { name: "RangeError", message: /32 bits of memory are too few.*unreachable/ });
});

/** A module whose `wgsl_answer` traps at its first call, and then has the answer "". */
function trappingOnce() {
  const name = (text) => [text.length, ...Buffer.from(text)], section = (id, ...bytes) => [id, bytes.length, ...bytes];
  const answered = [0x20, 4, 0x41, 0, 0x36, 2, 0, 0x41, 0, 0x0f]; // *text_len = 0; return WGSL_ANSWERED;
  const body = [0, 0x23, 0, 0x04, 0x40, ...answered, 0x0b, 0x41, 1, 0x24, 0, 0, 0x0b]; // if (called) { .. } called = 1; trap
  const type = [1, 0x60, 5, ...Array(5).fill(0x7f), 1, 0x7f], global = [1, 0x7f, 1, 0x41, 0, 0x0b];
  const exports = [2, ...name("memory"), 2, 0, ...name("wgsl_answer"), 0, 0];
  const sections = [section(1, ...type), section(3, 1, 0), section(5, 1, 0, 1), section(6, ...global), section(7, ...exports), section(10, 1, body.length, ...body)];
  return new Uint8Array([...Buffer.from("\0asm"), 1, 0, 0, 0, ...sections.flat()]);
}

test("a million calls leave the memory as it is", { timeout: 300_000 }, () => {
  const big = LIGHT.replaceAll(/(Light|Scene|Color|COUNT|scene)/g, "$1_1") + LIGHT;
  const error = () => assert.throws(() => wgsl.layouts(`${LIGHT} bad`), wgsl.SourceError);
  wgsl.layouts(big);
  wgsl.check(big);
  error();
  for (let i = 0; i < 1000; i++) wgsl.standardAnswer("why f32 + f32");
  const before = memorySize();
  for (let i = 0; i < 1_000_000; i++) wgsl.standardAnswer("type 1 + vec3f");
  for (let i = 0; i < 100_000; i++) wgsl.explain("unary - vec 3");
  for (let i = 0; i < 10_000; i++) wgsl.layouts(LIGHT);
  for (let i = 0; i < 1000; i++) error();
  for (let i = 0; i < 1000; i++) wgsl.check(LIGHT);
  assert.equal(memorySize(), before);
});

test("no text makes a call fail", () => {
  const pieces = LIGHT.split(/\b/);
  let seed = 1;
  const next = (n) => ((seed = (Math.imul(seed, 1103515245) + 12345) >>> 0) >>> 8) % n;
  let wrong = 0;
  for (let round = 0; round < 3000; round++) {
    const copy = [...pieces];
    for (let change = 0; change < 4; change++) copy.splice(next(copy.length), next(2), ...(next(3) ? [pieces[next(pieces.length)]] : []));
    const text = copy.join(""), { faults, parts } = wgsl.check(text);
    for (const { index, end } of [...faults, ...parts]) assert.ok(index >= 0 && index <= end.index && end.index <= text.length, text);
    try {
      wgsl.layouts(text);
    } catch (error) {
      assert.ok(error instanceof wgsl.SourceError, text);
      for (const { index, message } of error.errors) assert.ok(message && index >= 0 && index <= text.length, text);
      wrong++;
    }
  }
  assert.ok(wrong > 1000 && wrong < 3000, `${wrong}`);
});

test("the entry for browsers takes an address, bytes, a response, a module; a 404 is told", async () => {
  const address = `data:application/wasm;base64,${MODULE.toString("base64")}`;
  for (const source of [MODULE, await WebAssembly.compile(MODULE), Promise.resolve(new Response(MODULE)), address, new URL(address)]) {
    await browser.init(source);
    assert.equal(browser.standardAnswer("type f32 + f32"), "f32");
  }
  await browser.init();
  await assert.rejects(browser.init(new Response("", { status: 404 })), /404/);
  await assert.rejects(load(new Uint8Array(8)), WebAssembly.CompileError);
  for (const source of [MODULE, new WebAssembly.Module(MODULE), address]) browser.initSync(source);
  assert.throws(() => browser.initSync("wgsl.wasm"), TypeError);
});

/** What a program in a worker tells, to which this is given. */
function toldInWorker(program, workerData) {
  const worker = new Worker(new URL(`data:text/javascript,${encodeURIComponent(program)}`), { workerData: { entry: new URL("index.js", PACKAGE).href, ...workerData } });
  return new Promise((resolve, reject) => worker.once("message", resolve).once("error", reject));
}

test("an init that failed can be tried again, and two at once fetch once", async () => {
  const program = `import { parentPort, workerData } from "node:worker_threads";
    const { init, answer } = await import(workerData.entry), fetched = [];
    globalThis.fetch = async (url) => (fetched.push(String(url)), new Response(fetched.length === 1 ? "" : workerData.bytes, { status: fetched.length === 1 ? 503 : 200 }));
    const first = await init().catch((error) => error.message);
    const called = (() => { try { return answer("size f32"); } catch (error) { return error.message; } })();
    await Promise.all([init(), init()]);
    await init();
    parentPort.postMessage({ first, called, last: answer("size f32"), fetched });`;
  const told = await toldInWorker(program, { bytes: MODULE }), wanted = new URL("wgsl.wasm", PACKAGE).href;
  assert.match(told.first, /503/);
  assert.deepEqual(told, { first: told.first, called: "wgsl-types-proved: call `await init()` first", last: "4 4", fetched: [wanted, wanted] });
});

test("in a worker, also with a module that is sent", async () => {
  const program = `import { parentPort, workerData } from "node:worker_threads";
    const { init, layouts } = await import(workerData.entry);
    await init(workerData.module);
    parentPort.postMessage(layouts("struct A { a: vec3f, b: f32 } var<private> a: A;"));`;
  const told = await toldInWorker(program, { module: await WebAssembly.compile(MODULE) });
  assert.deepEqual(told, wgsl.layouts("struct A { a: vec3f, b: f32 } var<private> a: A;"));
  assert.equal(told.variables[0].typeTree.struct, told.structs[0]);
});
