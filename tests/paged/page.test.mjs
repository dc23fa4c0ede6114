// The page in a browser. PAGE is its file, BROWSER the program, TOP the folder of the repository.
import assert from "node:assert/strict";
import { readFileSync } from "node:fs";
import { join } from "node:path";
import { test } from "node:test";
import { pathToFileURL } from "node:url";
import { examples } from "page/examples.js";
import { check } from "wgsl-types-proved";
import { HINTS, ask, fill, middleOf, started, texts } from "./browser.mjs";

const { PAGE, TOP } = process.env, SOURCED = join(TOP, "tests/sourced");
const WIDTHS = [320, 360, 768, 1280, 1920];
const on = started(), { opened } = on;

test("it starts from a server and from one file, without an error", async () => {
  for (const address of [on.server.url, pathToFileURL(PAGE).href]) {
    const page = await opened({}, address);
    assert.deepEqual(await page.run(texts(".struct h2")), ["struct Scene", "struct Particles", "struct Light"]);
    assert.match(await page.run("document.getElementById('answers').textContent"), /vec3<f32>/);
  }
});

test("an answer waits for the check only if it has names of the shader", async () => {
  const page = await on.browser.openPage();
  await page.call("Page.addScriptToEvaluateOnNewDocument", { source: "Worker = class { postMessage() {} }" });
  await page.call("Page.navigate", { url: on.server.url });
  await page.until("document.querySelector('.answer')?.textContent === 'vec3<f32>' && answers.ariaBusy === 'false'");
  await page.run(ask("LIGHTS * 2"));
  assert.equal(await page.run("answers.ariaBusy"), "true");
});

test("nothing is wider than the window, in any example, in light and dark", async () => {
  for (const dark of [false, true]) {
    const page = await opened({ dark });
    const names = await page.run("[...document.getElementById('examples').options].map(({ value }) => value).filter(Boolean)");
    for (const width of WIDTHS) {
      await page.look({ width, height: 800, dark });
      for (const name of names) {
        await page.run(`{ const list = document.getElementById("examples"); list.value = ${JSON.stringify(name)}; list.dispatchEvent(new Event("change")) }`);
        await page.until("document.documentElement.dataset.checked !== undefined");
        assert.equal(await page.run("source.value"), examples[name]);
        for (const request of ["clamp(vec3f, true, i32)", "layout struct S { a: f32, b: vec3 }", "overloads textureSampleLevel"]) {
          await page.run(ask(request));
          const wide = await page.run("document.documentElement.scrollWidth");
          assert.ok(wide <= width, `${name}, ${request}: ${wide} of ${width}`);
          assert.ok(await page.run("(({ clientWidth, scrollWidth }) => scrollWidth <= clientWidth)(document.querySelector('.source > .bar'))"), `${name}: ${width}`);
        }
      }
    }
  }
});

test("all that can be reached has a name and a ring", async () => {
  const page = await opened();
  const { nodes } = await page.call("Accessibility.getFullAXTree");
  const nameless = nodes.filter(({ ignored, role, name }) => !ignored && ["button", "link", "textbox", "combobox", "tab", "table", "application", "heading", "region"].includes(role?.value) && !name?.value);
  assert.deepEqual(nameless.map(({ role }) => role.value), []);
  const seen = [];
  for (let count = 0; count < 40; count++) {
    await page.press("Tab");
    const [name, ring] = await page.run(`(() => { const on = document.activeElement; return [on === document.body ? "" : on.id || on.className || on.textContent, getComputedStyle(on).outlineStyle] })()`);
    if (name === "") break; // behind the last one
    assert.notEqual(ring, "none", name);
    seen.push(name);
  }
  for (const wanted of ["share", "source", "examples", "map", "tab-c", "copy-code", "code-text", "request"]) assert.ok(seen.includes(wanted), `${wanted}: ${seen}`);
});

test("texts have a contrast of 4.5 or more, in light and dark", async () => {
  for (const dark of [false, true]) {
    const page = await opened({ dark });
    const low = `(() => {
      const canvas = Object.assign(document.createElement("canvas"), { width: 1, height: 1 }).getContext("2d", { willReadFrequently: true });
      const rgba = (color) => { canvas.clearRect(0, 0, 1, 1); canvas.fillStyle = color; canvas.fillRect(0, 0, 1, 1); return [...canvas.getImageData(0, 0, 1, 1).data] };
      const light = ([r, g, b]) => [r, g, b].map((x) => (x /= 255) <= 0.04045 ? x / 12.92 : ((x + 0.055) / 1.055) ** 2.4).reduce((sum, x, i) => sum + x * [0.2126, 0.7152, 0.0722][i], 0);
      const behind = (element) => { for (; element; element = element.parentElement) { const color = rgba(getComputedStyle(element).backgroundColor); if (color[3] === 255) return color; } return [255, 255, 255] };
      const found = [];
      for (const element of document.querySelectorAll("body *")) {
        if (element.matches("#hints div") || element.closest("#marks, .toast, .skip, select, noscript") || ![...element.childNodes].some((node) => node.nodeType === 3 && node.data.trim())) continue;
        const [a, b] = [light(rgba(getComputedStyle(element).color)), light(behind(element))].sort((x, y) => y - x), contrast = (a + 0.05) / (b + 0.05);
        if (contrast < 4.5) found.push(element.tagName + "." + element.className + " " + contrast.toFixed(2) + " " + element.textContent.slice(0, 20));
      }
      return found;
    })()`;
    for (const text of ["struct S { a: f32, b: vec3f, c: f32, d: f32, e: f32, f: f32, g: f32, h: f32, i: u32, x: mat4x4f, y: array<f32, 900> } struct B { b: S, c: nowhere } struct C { b: B } fn f() { let a = 1; if a {} }\nbad // a comment",
      "cbuffer C { float4x4 m; };", "", "@group(0) @binding(0) var<uniform> a: array<f32, 4>;"]) {
      await page.run(fill(text));
      await page.run(ask(text ? "vec3f + 1" : "f32 + (1 + bool)"));
      assert.deepEqual([...new Set(await page.run(low))], [], text);
    }
  }
});

test("the address keeps the text and the request", async () => {
  const page = await opened();
  const text = `struct Größe { a: vec3f } // 🦀 ${"+/=&#%".repeat(50)} ${Array.from({ length: 300 }, (_, index) => Math.imul(index, 2654435761) >>> 0)}\n`;
  await page.run(fill(text));
  await page.run(ask("abs(f32)"));
  await page.until("location.hash.startsWith('#z=')");
  await new Promise((resolve) => setTimeout(resolve, 600));
  const address = await page.run("location.href"), other = await opened({}, address);
  assert.equal(await other.run("source.value"), text);
  assert.equal(await other.run("request.value"), "abs(f32)");
  const plain = await opened({}, `#wgsl=${encodeURIComponent("struct A { a: u32 }")}`);
  assert.deepEqual(await plain.run(texts(".struct h2")), ["struct A"]);
  const broken = await opened({}, `#z=%%%`);
  assert.equal((await broken.run(texts(".struct h2"))).length, 3);
});

const SELECTED = "[source.selectionStart, source.selectionEnd]";

test("each fault is marked where it stands, and in the list with its notes, which lead to places; what the layouts tell too is told once", async () => {
  const page = await opened({ height: 2000 }), added = "\nfn f(a: f32) -> f32 { let x = vec3f(1) * true; }\nfn f() { if 1 { } } struct B { c: Q } const a = 1u + true; var<private> b: array<f32, a>;";
  const shader = readFileSync(join(SOURCED, "faults.wgsl"), "utf8") + added;
  await page.run(fill(shader));
  const marks = await page.run(`[...document.querySelectorAll("#marks span")].map((mark) => [mark.textContent, mark.getBoundingClientRect().left, mark.getBoundingClientRect().top])`);
  for (const { index, end, message } of check(shader).faults) {
    const word = shader.slice(index, end.index).split("\n")[0] || " ", { x, y } = await middleOf(page, index);
    assert.ok(marks.some(([marked, left, top]) => word.startsWith(marked) && left < x && x < left + 9 && top < y && y < top + 20), `${message}: ${word}`);
  }
  await page.run(fill(added));
  assert.match(await page.run("counts.textContent"), / 6 errors$/);
  assert.deepEqual((await page.run(texts("#problems .place"))), ["2:40", "2:48", "3:4", "3:13", "3:35", "3:52"]);
  const notes = await page.run(texts("#problems .notes > *")), reason = (shape, argument) => `${shape}, T: number: argument ${argument}`;
  assert.deepEqual(notes.slice(3, 6), ["and 5 more", "2:4 f is declared here", reason("+(T, T) -> T", "2 is bool")]);
  await page.run(`source.value = "\\n" + source.value; source.dispatchEvent(new Event("input")); new Promise((done) => requestAnimationFrame(done))`);
  for (const [part, place] of [[".notes button", [5, 6]], ["li:nth-child(3) .problem", [54, 55]]]) {
    await page.run(`document.querySelector("#problems ${part}").focus()`);
    await page.until("document.documentElement.dataset.checked !== undefined");
    await page.press("Enter");
    assert.deepEqual(await page.run(SELECTED), place, part);
  }
});

test("the types of lets stand behind their lines, and can be switched off; faults and they move with the text before it is checked", async () => {
  const page = await opened(), text = "fn f() {\n  let a = 1u;\n  let b = a + true; let c = a;\n}\n";
  await page.run(fill(text));
  const { x, y } = await middleOf(page, text.indexOf("1u;") + 2), box = await page.run(`document.querySelector("#hints span").getBoundingClientRect().toJSON()`);
  assert.ok(x < box.left && box.left < x + 40 && box.top < y && y < box.bottom, JSON.stringify(box));
  for (const count of [0, 2]) assert.equal(await page.run(`types.click(), document.querySelectorAll("#hints div").length`), count);
  for (const [from, to, hints, marks] of [["fn", "\n\nfn", [4, 5], ["5.75rem+"]], ["1u;", "1u\n;", [2, 4], ["4.5rem+"]], ["+ true", "+1 true", [2, 3], ["3.25rem+"]], ["+", "-", [2, 3], []]]) {
    await page.run(fill(text));
    assert.deepEqual(await page.run(`new Promise((done) => { source.value = ${JSON.stringify(text.replace(from, to))}; source.dispatchEvent(new Event("input")); requestAnimationFrame(() =>
      done([document.documentElement.dataset.checked ?? null, ${HINTS}, [...document.querySelectorAll("#marks div")].map(({ style, lastChild }) => style.top + lastChild.textContent)])) })`), [null, hints.map((line) => [line, ": u32"]), marks]);
  }
});
