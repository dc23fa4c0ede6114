// The parts of the page that compute, in node. TOP is the folder of the repository, PACKAGE that of the npm package.
import assert from "node:assert/strict";
import { execFileSync } from "node:child_process";
import { cpSync, mkdtempSync, readFileSync, rmSync } from "node:fs";
import { tmpdir } from "node:os";
import { join } from "node:path";
import test, { after } from "node:test";
import { hashOf, stateOf } from "page/address.js";
import { examples } from "page/examples.js";
import { paddingOf, piecesOfRow, runsOf } from "page/pieces.js";
import { commentsOf, foreignOf, leftOut } from "page/wgsl.js";
import { SourceError, code, layouts } from "wgsl-types-proved";
import { assertIs, testTables } from "./tables.mjs";

const { TOP, PACKAGE } = process.env;

function told(text) {
  try {
    return layouts(text);
  } catch (error) {
    if (error instanceof SourceError) return error.layouts;
    throw error;
  }
}

const folder = mkdtempSync(join(tmpdir(), "page-"));
after(() => rmSync(folder, { recursive: true }));

/** Where a page that is assembled with an address links to. */
function linkOf(...address) {
  const file = join(folder, "page.html");
  execFileSync("node", [join(TOP, "docs/page/assemble.mjs"), PACKAGE, file, ...address]);
  return /<p class="claim">.*<a href="(.*?)">Repository<\/a>/.exec(readFileSync(file, "utf8"))?.[1] ?? null;
}

function leftOutOf(text) {
  const { count, structs } = leftOut(text, told(text)), wordAt = (index) => /^[\p{L}\d]+/u.exec(text.slice(index))[0];
  return [count, ...structs.map(({ name, index, isBound, errors, needs }) =>
    `${name} at ${wordAt(index)}${isBound ? ", bound" : ""}, errors: ${errors.map(({ index }) => wordAt(index))}, needs: ${needs}`)];
}

const structOf = (text) => layouts(text).structs[0];
const runsIn = (text, ...unfolded) => runsOf(structOf(text), ...unfolded).map(({ from, to, member }) => `${from}-${to}${member === undefined ? "" : ` of ${member}`}`);
const pieces = (text, row) => piecesOfRow(structOf(text), Number(row))
  .map(({ path, column, span, step, isGap }) => `${path} ${column} ${span} ${isGap ? "gap" : step}`);
/** What is asked of a text, by a word; the answers of a list have ` | ` between. */
const ASKED = {
  padding: (text) => [paddingOf(structOf(text))], runs: runsIn, unfolded: (text) => runsIn(text, new Set([0])), row: pieces,
  left: leftOutOf, comments: (text) => commentsOf(text).map(([from, to]) => text.slice(from, to)), link: (address) => [linkOf(address)],
  language: (text) => [foreignOf(text)?.language ?? null], words: (text) => foreignOf(text).words.map((word) => word.join(" -> ")),
  errors: (text) => [told(text).errors.length], code: (text, language) => [code(text, language)],
  examples: () => Object.entries(examples).map(([name, text]) => `${name} ${told(text).errors.length}`),
};

testTables("parts.txt", ([asked, text, answer]) => {
  const [what, more] = asked.split(" ");
  assertIs(ASKED[what](text, more).map(String).join(" | "), answer, `${asked} ${text}`);
});

test("an address has the state of the page, or a text that is not compressed", async () => {
  const state = ["struct Größe { a: vec3f } // 🦀", "type 1 + 2"], hash = await hashOf(state);
  assert.match(hash, /^#z=[\w-]+$/);
  assert.deepEqual(await stateOf(hash), state);
  assert.deepEqual(await stateOf(`#wgsl=${encodeURIComponent(state[0])}`), [state[0]]);
  for (const none of ["", "#", "#proved", "#z=%%%", hash.slice(0, 20), hash.slice(3)]) assert.equal(await stateOf(none), null, none);
});

test("of very many structs without a layout the first ones are told", () => {
  const many = leftOut("struct S { a: x }\n".repeat(150), { structs: [], errors: [] });
  assert.deepEqual([many.count, many.structs.length], [150, 100]);
});

test("a page without an address links to the README of the clone in which it is, or to nothing", () => {
  assert.equal(linkOf(), null);
  cpSync(join(TOP, "docs/page"), join(folder, "docs/page"), { recursive: true });
  execFileSync("node", [join(folder, "docs/page/assemble.mjs"), PACKAGE, join(folder, "docs/page.html")]);
  assert.match(readFileSync(join(folder, "docs/page.html"), "utf8"), /<a href="\.\.\/README\.md">Repository<\/a>/);
});
