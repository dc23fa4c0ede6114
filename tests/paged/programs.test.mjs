// The npm package beside the proved programs, which are in the folder that PROGRAMS names. REQUESTS is a file of requests, SOURCED
// a folder of WGSL files.
import assert from "node:assert/strict";
import { spawnSync } from "node:child_process";
import { readFileSync, readdirSync } from "node:fs";
import { join } from "node:path";
import test from "node:test";
import * as wgsl from "wgsl-types-proved";

const { PROGRAMS, REQUESTS, SOURCED } = process.env;

/** Whether a number of 2^32 or more stands in a request, which this module can't count to. */
function isWide(request) {
  return /\d{10}/.test(request) && request.match(/\d{10,}/g).some((digits) => BigInt(digits) >= 2n ** 32n);
}

/** What a program prints for a request, and why it can't be read. */
function told(call, request) {
  try {
    return { answer: call(request), why: null };
  } catch (error) {
    if (error instanceof wgsl.Refused) return { answer: error.message, why: null };
    if (error instanceof wgsl.Unreadable) return { answer: null, why: error.message };
    throw error;
  }
}

/** What a program does with these words and this input. */
const run = (program, words, input = "") => spawnSync(join(PROGRAMS, program), words, { input, encoding: "utf8", maxBuffer: 1 << 30 });

/** The WGSL files: what `wgsl` prints of each with these words, its path, and its text. */
const printed = (...words) => readdirSync(SOURCED).filter((name) => name.endsWith(".wgsl")).map((name) => {
  const path = join(SOURCED, name);
  return [run("wgsl", [...words, path]).stdout, path, readFileSync(path, "utf8")];
});

for (const [program, call, explain] of [["wgsl_check", wgsl.answer, wgsl.explain], ["wgsl", wgsl.standardAnswer, wgsl.standardExplain]]) {
  test(`each request is answered as by ${program}`, { timeout: 300_000 }, () => {
    const requests = readFileSync(REQUESTS, "utf8").split("\n").filter((request) => /\S/.test(request)), wanted = requests.filter((request) => !isWide(request));
    const { stdout, stderr } = run(program, program === "wgsl" ? ["ask"] : [], wanted.map((request) => `${request}\n`).join(""));
    let answers = "", notes = "";
    for (const [index, request] of wanted.entries()) {
      const { answer, why } = told(call, request);
      assert.equal(explain(request), why, request);
      answers += answer === null ? `bad line ${index + 1}\n` : `${answer}\n`;
      if (answer === null) notes += `${program}: line ${index + 1}${why.startsWith("column") ? ", " : ": "}${why}\n`;
    }
    assert.ok(wanted.length > 1000 && notes && answers.length > 1000);
    assertSame(answers, stdout, "answers");
    assertSame(notes, stderr, "notes");
    console.log(`${program}: ${wanted.length} requests are answered alike; ${requests.length - wanted.length} with a number of 2^32 or more aren't asked`);
  });
}

/** Compares lines, and shows the first that differ. */
function assertSame(ours, theirs, what) {
  if (ours === theirs) return;
  const [a, b] = [ours.split("\n"), theirs.split("\n")], index = a.findIndex((line, index) => line !== b[index]);
  assert.equal(a[index], b[index], `line ${index + 1} of the ${what}`);
  assert.fail(`the program prints more ${what}`);
}

/** What the package adds to the JSON of the program, taken away. */
function withoutLinks(key, value) {
  return key === "struct" || key === "index" ? undefined : value;
}

/** What a call returns, or what an error of a text has in place of that. */
function found(call, inError) {
  try {
    return call();
  } catch (error) {
    if (error instanceof wgsl.SourceError) return inError(error);
    throw error;
  }
}

test("the layouts of each file are those of `wgsl layout`, and each place is an index", () => {
  const files = printed("layout", "--json");
  assert.ok(files.length > 10);
  for (const [stdout, path, text] of files) {
    const told = found(() => wgsl.layouts(text), ({ layouts }) => layouts), { file: _, ...wanted } = JSON.parse(stdout);
    assert.deepEqual(JSON.parse(JSON.stringify(told, withoutLinks)), wanted, path);
    for (const { name, index } of [...told.structs, ...told.variables, ...told.structs.flatMap(({ members }) => members)]) {
      assert.equal(text.slice(index, index + name.length), name, path);
    }
    for (const struct of told.structs) assert.equal(wgsl.view(struct).size, struct.size, `${path}: ${struct.name}`);
  }
  assert.equal(run("wgsl", ["--version"]).stdout.trim().split(" ").at(-1), wgsl.version());
});

test("the check of each file is that of `wgsl check`", () => {
  for (const [stdout, path, text] of printed("check", "--json", "--types")) {
    const { faults, parts } = wgsl.check(text);
    assert.deepEqual(JSON.parse(JSON.stringify({ file: path, faults, types: parts }, withoutLinks)), JSON.parse(stdout), path);
  }
});

test("each text has the code that `wgsl layout` prints, errors or not", () => {
  for (const language of ["c", "rust", "numpy", "typescript"]) {
    for (const [stdout, path, text] of printed("layout", `--${language}`)) {
      assertSame(found(() => wgsl.code(text, language), (error) => error.code(language)), stdout, `${language} of ${path}`);
    }
  }
});
