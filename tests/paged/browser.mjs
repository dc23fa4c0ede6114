// A browser without a window, driven by the DevTools protocol over a pipe; and a server of one file. No package is needed.
import assert from "node:assert/strict";
import { spawn } from "node:child_process";
import { createServer } from "node:http";
import { mkdtempSync, readFileSync, rmSync } from "node:fs";
import { tmpdir } from "node:os";
import { join } from "node:path";
import { after, afterEach, before } from "node:test";

export async function openBrowser(program = process.env.BROWSER ?? "chromium", more = []) {
  const profile = mkdtempSync(join(tmpdir(), "page-"));
  const flags = ["--headless=new", "--no-sandbox", "--disable-gpu", "--hide-scrollbars", "--no-first-run", "--disable-extensions",
    "--disable-background-networking", "--remote-debugging-pipe", `--user-data-dir=${profile}`, ...more, "about:blank"];
  const child = spawn(program, flags, { stdio: ["ignore", "ignore", "ignore", "pipe", "pipe"] });
  const [write, read] = [child.stdio[3], child.stdio[4]], waiting = new Map(), listeners = new Set();
  let left = "", id = 0;
  read.setEncoding("utf8").on("data", (data) => {
    const messages = (left + data).split("\0");
    left = messages.pop();
    for (const message of messages.map((text) => JSON.parse(text))) {
      const call = waiting.get(message.id);
      if (!call) for (const listener of listeners) listener(message);
      else if (message.error) call.reject(new Error(`${call.method}: ${message.error.message}`));
      else call.resolve(message.result);
      waiting.delete(message.id);
    }
  });
  const send = (method, params = {}, sessionId) => new Promise((resolve, reject) => {
    waiting.set(++id, { method, resolve, reject });
    write.write(`${JSON.stringify({ id, method, params, sessionId })}\0`);
  });

  async function openPage({ width = 1280, height = 900, dark = false, scale = 1 } = {}) {
    const { targetId } = await send("Target.createTarget", { url: "about:blank" });
    const { sessionId } = await send("Target.attachToTarget", { targetId, flatten: true });
    const page = { errors: [], call: (method, params) => send(method, params, sessionId) };
    listeners.add(({ method, params, sessionId: of }) => {
      if (of !== sessionId) return;
      if (method === "Runtime.exceptionThrown") page.errors.push(params.exceptionDetails.exception?.description ?? params.exceptionDetails.text);
      if (method === "Runtime.consoleAPICalled" && params.type === "error") page.errors.push(params.args.map(({ value }) => value).join(" "));
      if (method === "Log.entryAdded" && params.entry.level === "error") page.errors.push(`${params.entry.text} ${params.entry.url ?? ""}`);
    });
    for (const domain of ["Page", "Runtime", "Log", "Accessibility"]) await page.call(`${domain}.enable`);
    page.look = async ({ width, height, dark }) => {
      await page.call("Emulation.setDeviceMetricsOverride", { width, height, deviceScaleFactor: scale, mobile: width < 500 });
      await page.call("Emulation.setEmulatedMedia", { features: [{ name: "prefers-color-scheme", value: dark ? "dark" : "light" }] });
    };
    await page.look({ width, height, dark });
    await page.call("Emulation.setLocaleOverride", { locale: "de-DE" }); // in which numbers are written otherwise than in the page's English
    page.run = async (expression) => {
      const { result, exceptionDetails } = await page.call("Runtime.evaluate", { expression, awaitPromise: true, returnByValue: true, userGesture: true });
      if (exceptionDetails) throw new Error(exceptionDetails.exception?.description ?? exceptionDetails.text);
      return result.value;
    };
    page.until = async (expression, seconds = 20) => {
      for (let tries = 0; tries < seconds * 50; tries++) {
        if (await page.run(expression).catch(() => false)) return;
        await new Promise((resolve) => setTimeout(resolve, 20));
      }
      throw new Error(`it did not come true: ${expression}`);
    };
    page.goTo = async (url) => {
      await page.call("Page.navigate", { url });
      await page.until("document.documentElement.dataset.ready !== undefined");
    };
    page.press = async (key, { shift = false } = {}) => {
      const text = key === "Enter" ? "\r" : undefined;
      const codes = { Backspace: 8, Tab: 9, Enter: 13, ArrowLeft: 37, ArrowUp: 38, ArrowRight: 39, ArrowDown: 40, Home: 36, End: 35 };
      const event = { key, code: key, windowsVirtualKeyCode: codes[key], modifiers: shift ? 8 : 0 };
      await page.call("Input.dispatchKeyEvent", { ...event, type: text ? "keyDown" : "rawKeyDown", text });
      await page.call("Input.dispatchKeyEvent", { ...event, type: "keyUp" });
    };
    page.type = (text) => page.call("Input.insertText", { text });
    page.picture = async (options = {}) => Buffer.from((await page.call("Page.captureScreenshot", { format: "png", ...options })).data, "base64");
    return page;
  }

  const close = async () => {
    const ended = new Promise((resolve) => child.once("exit", resolve));
    send("Browser.close").catch(() => {});
    await ended;
    rmSync(profile, { recursive: true, force: true, maxRetries: 5, retryDelay: 200 });
  };
  return { openPage, close };
}

/** Serves a file, whatever is asked for. */
export async function serve(file) {
  const server = createServer((_, response) => response.writeHead(200, { "content-type": "text/html" }).end(readFileSync(file)));
  await new Promise((resolve) => server.listen(0, "127.0.0.1", resolve));
  return { url: `http://127.0.0.1:${server.address().port}/`, close: () => server.close() };
}

/** For the tests of a file: a server of PAGE, a browser, and how a page is opened there, in which no test may make an error. */
export function started() {
  const pages = [], on = {
    async opened(look = {}, address = on.server.url) {
      const page = await on.browser.openPage(look);
      pages.push(page);
      await page.goTo(new URL(address, on.server.url).href);
      return page;
    },
  };
  afterEach(() => pages.splice(0).forEach(({ errors }) => assert.deepEqual(errors, [])));
  before(async () => Object.assign(on, { server: await serve(process.env.PAGE), browser: await openBrowser() }));
  after(async () => (await on.browser.close(), on.server.close()));
  return on;
}

// What a page is told to do: to have a text, until it is checked and drawn, or a request; and what it shows.
export const fill = (text) => `{ const source = document.getElementById("source"); source.focus(); source.value = ${JSON.stringify(text)};
  source.dispatchEvent(new Event("input")); new Promise((done) => requestAnimationFrame(() => setTimeout(function wait() {
    if (document.documentElement.dataset.checked === undefined) setTimeout(wait, 10);
    else done();
  }, 200))) }`;
export const ask = (text) => `{ const request = document.getElementById("request"); request.value = ${JSON.stringify(text)}; request.dispatchEvent(new Event("input")) }`;
export const texts = (selector) => `[...document.querySelectorAll(${JSON.stringify(selector)})].map((element) => element.textContent)`;

/** Where the middle of a character is on the screen. */
export const middleOf = (page, index) => page.run(`(() => { const before = source.value.slice(0, ${index}).split("\\n"), { fontSize, fontFamily } = getComputedStyle(source);
  const box = source.getBoundingClientRect(), canvas = document.createElement("canvas").getContext("2d");
  canvas.font = fontSize + " " + fontFamily;
  return { x: box.left + 8 + (before.at(-1).length + 0.5) * canvas.measureText("m").width, y: box.top + 2 + before.length * 20 } })()`);
export const mouse = async (page, type, index, more) => page.call("Input.dispatchMouseEvent", { type, ...(await middleOf(page, index)), ...more });
export const settle = (page) => page.run("new Promise((done) => requestAnimationFrame(() => setTimeout(done, 20)))");
/** The types behind the lines of the text, with the numbers of these. */
export const HINTS = `[...document.querySelectorAll("#hints div")].map(({ style, lastChild }) => [(parseFloat(style.top) + 0.5) / 1.25, lastChild.textContent])`;
