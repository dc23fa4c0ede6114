// node page.mjs FOLDER: measures the npm package and the page that bindings/js/build wrote into a folder. BROWSER is the program.
import { readFileSync, readdirSync } from "node:fs";
import { join } from "node:path";
import { pathToFileURL } from "node:url";
import { brotliCompressSync, gzipSync } from "node:zlib";
import { openBrowser } from "../tests/paged/browser.mjs";

const folder = process.argv[2], PAGE = join(folder, readdirSync(folder).find((name) => name.endsWith("-page.html")));
const RUNS = 30;
const middle = (numbers) => [...numbers].sort((a, b) => a - b)[numbers.length >> 1];
const ms = (n) => `${n.toFixed(1)} ms`;

/** A shader of 2,000 lines with 100 structs. */
function shader() {
  const lines = ["// A shader.", "const COUNT = 4u;"];
  for (let index = 0; index < 100; index++) {
    lines.push(`// Struct ${index}`, `struct S${index} {`);
    for (let member = 0; member < 9; member++) lines.push(`  member_${member}: ${["f32", "vec3f", "array<vec4f, COUNT>", "mat3x3f", "vec2u"][(index + member) % 5]},`);
    lines.push("}", `@group(${index % 4}) @binding(${index}) var<storage> v${index}: S${index};`, `fn shade${index}(a: f32) -> f32 {`, "  var sum = a;");
    for (let line = 0; line < 3; line++) lines.push(`  sum += v${index}.member_0 * f32(COUNT); // ${line}`);
    lines.push("  return sum;", "}", "");
  }
  return lines.join("\n");
}

function measureSizes() {
  const wasm = readFileSync(join(folder, "wgsl-types-proved/wgsl.wasm")), page = readFileSync(PAGE);
  console.log(`wgsl.wasm: ${wasm.length} bytes, gzip ${gzipSync(wasm, { level: 9 }).length}, brotli ${brotliCompressSync(wasm).length}`);
  console.log(`the page: ${page.length} bytes, gzip ${gzipSync(page, { level: 9 }).length}`);
}

/** The time that a function takes, as the middle of some runs. */
function timed(runs, work) {
  const times = Array.from({ length: runs }, () => {
    const start = performance.now();
    work();
    return performance.now() - start;
  });
  return middle(times);
}

async function measurePackage() {
  const start = performance.now();
  const { layouts, standardAnswer, view } = await import(pathToFileURL(join(folder, "wgsl-types-proved/node.js")));
  console.log(`import in node: ${ms(performance.now() - start)}`);
  const request = () => { for (let count = 0; count < 10_000; count++) standardAnswer("type 1 + vec3f"); };
  console.log(`a request: ${(timed(5, request) / 10).toFixed(2)} µs`);
  const long = shader(), many = Array.from({ length: 10_000 }, (_, index) => `struct S${index} { a: vec3f, b: array<vec2f, 3>, c: mat3x3f, d: f32 }`);
  console.log(`layouts of ${long.split("\n").length} lines: ${ms(timed(RUNS, () => layouts(long)))}`);
  console.log(`10,000 layouts, each by a call of \`layouts\`: ${ms(timed(3, () => many.forEach((text) => layouts(text))))}; all in one text: ${ms(timed(3, () => layouts(many.join("\n"))))}`);
  const struct = layouts(many[0]).structs[0], made = view(struct), value = { a: [1, 2, 3], b: [[1, 2], [3, 4], [5, 6]], c: [[1, 2, 3], [4, 5, 6], [7, 8, 9]], d: 1 };
  console.log(`set and get of 19 numbers: ${(timed(5, () => { for (let count = 0; count < 1000; count++) made.set(value), made.get(); })).toFixed(2)} µs`);
}

async function measureStart(browser, address) {
  const shown = [], ready = [];
  for (let run = 0; run < 7; run++) {
    const page = await browser.openPage();
    await page.goTo(address);
    const [picture, mark] = await page.run(`[performance.getEntriesByType("paint")[0]?.startTime ?? NaN, performance.getEntriesByName("ready")[0]?.startTime ?? NaN]`);
    shown.push(picture);
    ready.push(mark);
    await page.call("Page.close");
  }
  console.log(`the page from a file: first picture after ${ms(middle(shown))}, all of it after ${ms(middle(ready))}`);
}

/** The processor time of the script on the page's main thread so far, to which other programs on the machine add nothing. */
async function scriptTime(page) {
  const { metrics } = await page.call("Performance.getMetrics");
  return 1000 * metrics.find(({ name }) => name === "ScriptDuration").value;
}

// The next time that the page shows what it has found in a changed text.
const NEXT_SHOWN = `globalThis.nextShown = new Promise((done) => new MutationObserver((_, observer) => {
  if (document.documentElement.dataset.checked !== undefined) (observer.disconnect(), done());
}).observe(document.documentElement, { attributeFilter: ["data-checked"] })), null`;

/** What a key at a place costs: all of the page's script for it, with what is put off, and each piece that runs by itself: `update` comes
 * before the picture. */
async function measureKey(page, text, name, place, typed) {
  const found = text.indexOf(place, text.length >> 2), index = (found < 0 ? text.indexOf(place) : found) + place.length, times = [];
  await page.run(`{ source.focus(); source.setSelectionRange(${index}, ${index}); performance.clearMeasures() }`);
  for (let run = 0; run < RUNS; run++) {
    await page.run(NEXT_SHOWN);
    const before = await scriptTime(page);
    await (run % 2 ? page.press("Backspace") : page.type(typed));
    await page.run("nextShown");
    times.push((await scriptTime(page)) - before);
  }
  const pieces = await page.run(`["update", "checked", "draw", "cards"].map((name) => [name, performance.getEntriesByName(name).map(({ duration }) => duration)])`);
  const told = pieces.filter(([, all]) => all.length > 0).map(([piece, all]) => `${piece} ${ms(middle(all))}`);
  console.log(`a key ${name}: ${ms(middle(times))} of processor time, at most ${ms(Math.max(...times))}; by the clock ${told.join(", ")}`);
}

async function measurePage() {
  if (!process.env.BROWSER) return console.log("skipped: the page, as there is no browser");
  const browser = await openBrowser(process.env.BROWSER), address = pathToFileURL(PAGE).href, text = shader();
  await measureStart(browser, address);
  const page = await browser.openPage();
  await page.goTo(address);
  await page.run(`source.value = ${JSON.stringify(text)}; source.dispatchEvent(new Event("input"))`);
  await page.until("document.querySelectorAll('.struct').length === 100");
  await page.call("Performance.enable", { timeDomain: "threadTicks" });
  await measureKey(page, text, "in a comment", "// Struct", "x");
  await measureKey(page, text, "in a member's name", "member_3", "x");
  await measureKey(page, text, "in a number that types have", "= 4", "1");
  await measureKey(page, text, "that is an error, a bracket", "// 1\n", "}");
  await browser.close();
}

measureSizes();
await measurePackage();
await measurePage();
