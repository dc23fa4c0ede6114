// What the page shows, word by word. PAGE is its file, BROWSER the program, TOP the folder of the repository.
import assert from "node:assert/strict";
import { readFileSync } from "node:fs";
import { join } from "node:path";
import { test } from "node:test";
import { HINTS, ask, fill, mouse, settle, started, texts } from "./browser.mjs";
import { assertIs, testTables } from "./tables.mjs";

const { TOP } = process.env;
const on = started(), { opened } = on;

const color = (selector) => `getComputedStyle(document.querySelector(${JSON.stringify(selector)})).color`;

/** Where the word of `a|b|c` begins and ends in the text of a page. */
async function placeOf(page, marked) {
  const [before, word, behind] = marked.split("|"), at = (await page.run("source.value")).indexOf(before + word + behind);
  assert.ok(at >= 0, marked);
  return [at + before.length, at + before.length + word.length];
}

const quoted = JSON.stringify, element = (selector) => `document.querySelector(${quoted(selector)})`;
const pointer = (kind) => (page, selector) => page.run(`${element(selector)}.dispatchEvent(new PointerEvent("pointer${kind}", { bubbles: true }))`);
const putCaret = (page, index) => page.run(`source.focus(), source.setSelectionRange(${index}, ${index})`);
const filled = async (page, text) => (await page.run(fill(text)), page.until("answers.ariaBusy === 'false'"));
const STEPS = {
  text: (page, text) => filled(page, (page.text = text)),
  edit: (page, change) => filled(page, page.text.replace(...change.split(" => "))),
  ask: async (page, request) => (await page.run(ask(request)), page.until("answers.ariaBusy === 'false'")),
  run: (page, expression) => page.run(expression),
  click: (page, selector) => page.run(`${element(selector)}.click()`),
  focus: (page, selector) => page.run(`${element(selector)}.focus()`),
  until: (page, expression) => page.until(expression),
  look(page, size) {
    const [width, height] = size.split("x").map(Number);
    return page.look({ width, height, dark: false });
  },
  over: pointer("over"), enter: pointer("enter"), leave: pointer("leave"),
  async keys(page, keys) {
    for (const key of keys.split(" ")) await page.press(key);
  },
  async at(page, marked) {
    const [start] = await placeOf(page, marked);
    await mouse(page, "mouseMoved", start);
    await putCaret(page, start);
    await settle(page);
  },
  async behind(page, marked) {
    await putCaret(page, (await placeOf(page, marked))[1]);
    await settle(page);
  },
  async f12(page, marked) {
    await putCaret(page, (await placeOf(page, marked))[0] + 1);
    await page.press("F12");
  },
  async ctrl(page, marked) {
    const [, end] = await placeOf(page, marked);
    for (const type of ["mousePressed", "mouseReleased"]) await mouse(page, type, end - 1, { button: "left", clickCount: 1, modifiers: 2 });
  },
};
const SELECTION = `(({ value, selectionStart: start, selectionEnd: end }) =>
  [value.slice(Math.max(0, start - 4), start), value.slice(start, end), value.slice(end, end + 3)].join("|"))(source)`;

/** What a page shows at a place of the table. */
async function shownAt(page, place) {
  if (place === "selection") return page.run(SELECTION);
  if (place === "hints") return (await page.run(HINTS)).map((hint) => hint.join(" ")).join(" | ");
  if (place.startsWith("=")) return page.run(`Promise.resolve(${place.slice(1)}).then(String)`);
  const shown = place.split(" & ").map((part) => part.split("@")).map(([selector, property = "textContent"]) =>
    page.run(`[...document.querySelectorAll(${quoted(selector)})].map((part) => part[${quoted(property)}]).join(" | ") || "-"`));
  return (await Promise.all(shown)).join(" & ");
}

testTables("shown.txt", async ([done, place, wanted], page) => {
  const [, step, what] = /^(\w*) ?([^]*)$/.exec(done);
  await STEPS[step]?.(page, what);
  if (place) assertIs(await shownAt(page, place), wanted, `${done} ${place}`);
}, opened);

test("README's first example is the page's first, and its answers are README's", async () => {
  const page = await opened(), readme = readFileSync(join(TOP, "README.md"), "utf8");
  const [, asked, answers] = /^ {4}\$ printf '%s\\n' (.*) \| cargo run.*\n((?: {4}[^$].*\n)+)/m.exec(readme);
  const requests = Array.from(asked.matchAll(/'(.*?)'/g), ([, text]) => text), wanted = answers.trim().split(/\n */);
  assert.equal(await page.run("request.value"), requests[0]);
  assert.deepEqual(await page.run(texts(".verdict .answer")), [wanted[0]]);
  for (const [index, request] of requests.entries()) {
    await page.run(`document.querySelectorAll("#tries button")[${index}].click()`);
    assert.equal(await page.run("request.value"), request);
    assert.deepEqual(await page.run(texts(".verdict .answer")), [wanted[index]]);
  }
  const unread = await page.run(`[...document.querySelectorAll("#tries button")].filter((button) => (button.click(), !document.querySelector("#answers .verdict"))).map(({ textContent }) => textContent)`);
  assert.deepEqual(unread, []);
});

test("a card and a row follow each change of what they show", async () => {
  const page = await opened(), first = "struct I { x: f32, y: u32 } struct S { a: array<I, 2>, b: f32 } @group(0) @binding(0) var<storage, read> s: S;";
  const shown = () => page.run(`[${texts(".struct")}, ${texts("#variables tbody tr")}].flat().join("\\n")`);
  const changes = [["x: f32, y", "z: f32, y"], ["y: u32", "y: i32"], ["array<I, 2>", "array<I, 3>"], ["b: f32", "@size(8) b: f32"], ["b: f32", "@align(16) b: f32"], ["b: f32", "bb: f32"],
    ["x: f32, y: u32", "y: u32, x: f32"], ["read>", "read_write>"], ["<storage, read>", "<uniform>"], ["group(0)", "group(3)"], ["binding(0)", "binding(5)"], ["s: S", "t: S"], ["s: S", "s: array<S>"], ["s: S", "s: array<S, 2>"], ["f32 } @", "f32, c: array<f32> } @"]];
  const fresh = async (text) => (await page.run(fill("")), await page.run(fill(text)), shown());
  for (const [from, to] of changes) {
    const text = first.replace(from, to), before = await fresh(first);
    assert.notEqual(text, first);
    await page.run(fill(text));
    const after = await shown();
    assert.notEqual(after, before, to);
    assert.equal(after, await fresh(text), to);
  }
});

test("names, types and numbers have three colours, in the text, in tables and in code", async () => {
  const palettes = [];
  for (const dark of [false, true]) {
    const page = await opened({ dark });
    await page.run("document.getElementById('code').scrollIntoView()");
    await page.until("document.querySelector('#code-text .type')");
    assert.deepEqual([...new Set(await page.run(texts(".struct td.none")))].sort(), ["0", "–"]);
    assert.deepEqual(await page.run(texts(".struct td:not(.wide, .number, .none)")), []);
    const kinds = ["name", "type", "number"], all = [];
    for (const part of ["#colors", ".struct td", "#variables td", "#code-text"]) {
      const found = [];
      for (const kind of kinds) found.push(await page.run(color(part.endsWith("td") && kind === "number" ? `${part}.number` : `${part} .${kind}`)));
      assert.equal(new Set([...found, await page.run(color("body"))]).size, 4, part);
      all.push(found.join());
    }
    assert.equal(new Set(all).size, 1);
    palettes.push(all[0]);
  }
  assert.notEqual(palettes[0], palettes[1]);
});

test("the colours lie on the text, wherever it is scrolled to", async () => {
  const page = await opened({ height: 800 });
  const lines = Array.from({ length: 3000 }, (_, index) => `/* ${index} */ ${" ".repeat(index % 90)}name${index}`);
  await page.run(fill(lines.join("\n")));
  const byLine = Array.from({ length: 40 }, (_, line) => [line * 20 + 19, 0]);
  for (const [scrolled, along] of [[0, 0], ...byLine, [1234, 0], [40_000, 150], [1_000_000, 0], [300, 0]]) {
    await page.run(`source.scrollTo(${along}, ${scrolled}); new Promise((done) => requestAnimationFrame(() => setTimeout(done, 50)))`);
    const [top, left, height, places] = await page.run(`[source.scrollTop, source.scrollLeft, source.clientHeight, (() => { const field = source.getBoundingClientRect();
      return [...document.querySelectorAll("#colors .comment")].map((comment) => { const box = comment.getBoundingClientRect();
        return [Number(comment.textContent.slice(3, -3)), Math.round(box.left - field.left), Math.round((box.top + box.bottom) / 2 - field.top)] }) })()]`);
    const seen = places.filter(([, , middle]) => middle > 0 && middle < height), first = Math.max(0, Math.ceil((top - 12) / 20)), last = Math.min(2999, Math.floor((top + height - 12) / 20) - 1);
    for (const [line, start, middle] of seen) assert.ok(Math.abs(middle - (12 + line * 20 + 10 - top)) <= 2 && start === 8 - left, `line ${line} at ${start}, ${middle}`);
    const drawn = new Set(seen.map(([line]) => line));
    for (let line = first; line <= last; line++) assert.ok(drawn.has(line), `line ${line} at ${top}`);
    assert.ok(places.length < 300);
  }
});
