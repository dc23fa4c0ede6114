// Tables of tests: a test per heading, and below it its rows, with tabs between cells. TOP is the folder of the repository.
import assert from "node:assert/strict";
import { readFileSync } from "node:fs";
import { join } from "node:path";
import test from "node:test";
import { inspect } from "node:util";

/** Texts that rows `= name` give names, which `{name}` is in cells behind. */
const named = {};

/** The text of a cell: in quotes as JSON has it; `«3 a#»` is `a0a1a2`. */
function cellOf(cell) {
  const text = cell.startsWith('"') ? JSON.parse(cell) : cell;
  const repeated = (_, count, each) => Array.from({ length: count }, (_, index) => each.replaceAll("#", index)).join("");
  return text.replace(/«(\d+) ([^»]*)»/g, repeated).replace(/\{(\w+)\}/g, (all, name) => named[name] ?? all);
}

/** Makes the tests of a table: what is done with the cells of each row, behind what is done first. */
export function testTables(name, useRow, begin = () => null) {
  for (const part of readFileSync(join(process.env.TOP, "tests/paged", name), "utf8").split(/^# /m).slice(1)) {
    const [title, ...rows] = part.replace(/\n$/, "").split("\n");
    const cells = [];
    for (const row of rows) {
      const [first, ...more] = row.split("\t").map(cellOf);
      if (first.startsWith("= ")) named[first.slice(2)] = more[0];
      else cells.push([first, ...more]);
    }
    test(title, async () => {
      const begun = await begin();
      for (const row of cells) await useRow(row, begun);
    });
  }
}

/** Compares what is found with the cell that says it, which may be a pattern between slashes. */
export function assertIs(found, wanted, what) {
  const pattern = /^\/([^]*)\/$/.exec(wanted);
  if (pattern) assert.match(found, new RegExp(pattern[1], "u"), what);
  else assert.equal(found, wanted, what);
}

/** The value of an expression, in which these names are known, as node prints it; or the error that is thrown. */
export function outcomeOf(expression, known) {
  try {
    return inspect(new Function(...Object.keys(known), `return ${expression}`)(...Object.values(known)), { depth: null, breakLength: Infinity });
  } catch ({ name, index, message }) {
    return `${name}${index === undefined ? "" : `, ${index}`}: ${message}`;
  }
}
