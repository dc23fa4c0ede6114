// node assemble.mjs PACKAGE FILE ADDRESS: writes the page as one file, which works from a server and from a disk. What index.html
// links to, its style sheet and its modules by the import map, stands in it as data URLs. PACKAGE is the folder of the npm package,
// ADDRESS that of the repository as git has it. Without one that a browser can open, a page in a folder of the clone links to the
// README there, and another one to none.
import { readFileSync, readdirSync, writeFileSync } from "node:fs";
import { dirname, join, resolve } from "node:path";

const [packageFolder, target, address = ""] = process.argv.slice(2);
const read = (folder, name) => readFileSync(join(folder, name), "utf8");
const dataUrl = (text) => `data:text/javascript;charset=utf-8,${encodeURIComponent(text)}`;

/** The modules of the package, which import each other by path, under the names that they have in the import map. */
function packageModules() {
  const named = (text) => text.replace(/(from )"\.\/(\w+\.js)"/g, '$1"wgsl/$2"');
  const names = ["calls.js", "f16.js", "view.js", "api.js", "started.js"];
  const modules = Object.fromEntries(names.map((name) => [`wgsl/${name}`, dataUrl(named(read(packageFolder, name)))]));
  return { ...modules, "wgsl-types-proved": dataUrl(named(read(packageFolder, "inline.js"))) };
}

/** The address for a browser, without a name or a password in it; null if there is none. */
function addressForBrowsers(address) {
  const [, host, path] = /^(?:ssh:\/\/)?git@([\w.-]+)[:/](.+)$/.exec(address) ?? [], text = host ? `https://${host}/${path}` : address;
  if (!/^https?:\/\//.test(text) || !URL.canParse(text)) return null;
  const { origin, pathname } = new URL(text);
  return origin + pathname.replace(/(?:\.git)?\/?$/, "");
}

const here = import.meta.dirname, isInClone = resolve(dirname(target), "..") === resolve(here, "../..");
const repository = addressForBrowsers(address) ?? (isInClone ? "../README.md" : null);
const imports = packageModules();
for (const name of readdirSync(here).filter((name) => name.endsWith(".js"))) imports[`page/${name}`] = dataUrl(read(here, name));
// The map doesn't reach a worker.
imports["page/worker.js"] = dataUrl(read(here, "worker.js").replace(/(from )"([^"]+)"/g, (_, start, name) => `${start}"${imports[name]}"`));
const map = JSON.stringify({ imports }).replaceAll("</", "<\\/");
writeFileSync(target, read(here, "index.html")
  .replace(/ <a href="REPOSITORY">([^<]*)<\/a>/, (_, name) => (repository ? ` <a href="${repository}">${name}</a>` : ""))
  .replace('<link rel="stylesheet" href="page.css">', () => `<style>\n${read(here, "page.css")}</style>`)
  .replace(/<script type="importmap">[^]*?<\/script>/, () => `<script type="importmap">${map}</script>`));
