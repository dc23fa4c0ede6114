// What the bytes of a struct hold: its parts and the gaps between them.
import { partsOf, sizeOf } from "wgsl/view.js";

const ROW = 16;
const SHOWN_ROWS = 7; // of a member; more are folded
export const UNFOLDED_ROWS = 512;

function spelled(type) {
  if (type.kind === "vector") return `vec${type.count}<${type.component.name}>`;
  return type.kind === "atomic" ? `atomic<${type.component.name}>` : type.name;
}

/** What lies between two bytes of a type that begins at `at`: parts and gaps, in order. */
function* piecesOfType(type, at, path, from, to) {
  if (at >= to || at + sizeOf(type) <= from) return;
  if (type.kind === "struct") {
    yield* piecesOfMembers(type.struct.members, at, path, at + type.struct.size, from, to);
  } else if (type.kind === "array" || type.kind === "matrix") {
    const { count, inner, stride } = partsOf(type);
    for (let index = Math.max(0, Math.floor((from - at) / stride)); index < count; index++) {
      const start = at + index * stride;
      if (start >= to) return;
      yield* piecesOfType(inner, start, `${path}[${index}]`, from, to);
      yield* gap(start + sizeOf(inner), start + stride, from, to, `${path}[${index}]`);
    }
  } else {
    yield { from: at, to: at + sizeOf(type), path, type: spelled(type), step: sizeOf(type.component ?? type) };
  }
}

function* piecesOfMembers(members, at, path, end, from, to) {
  for (const [index, member] of members.entries()) {
    const start = at + member.offset, next = index + 1 < members.length ? at + members[index + 1].offset : end;
    if (start >= to) return;
    if (next <= from) continue;
    const name = path ? `${path}.${member.name}` : member.name;
    yield* piecesOfType(member.typeTree, start, name, from, to);
    yield* gap(start + sizeOf(member.typeTree), next, from, to, name);
  }
}

function* gap(start, end, from, to, path) {
  if (start < end && start < to && end > from) yield { from: start, to: end, path, isGap: true };
}

/** The parts and gaps in a row of 16 bytes of a struct. */
export function piecesOfRow(struct, row) {
  const from = row * ROW, to = Math.min(from + ROW, struct.size);
  return [...piecesOfMembers(struct.members, 0, "", struct.size, from, to)].map((piece) => {
    const start = Math.max(piece.from, from), end = Math.min(piece.to, to);
    return { ...piece, column: start - from, span: end - start };
  });
}

/** Which rows are shown: runs of rows, and between them those of a member that are folded. */
export function runsOf(struct, unfolded = new Set()) {
  const runs = [];
  let row = 0;
  const show = (to) => {
    if (to > row) runs.push({ from: row, to });
    row = Math.max(row, to);
  };
  for (const [index, member] of struct.members.entries()) {
    const end = struct.members[index + 1]?.offset ?? struct.size;
    const first = Math.ceil(member.offset / ROW), last = Math.floor(end / ROW);
    if (last - first <= SHOWN_ROWS || (unfolded.has(index) && last - first <= UNFOLDED_ROWS)) continue;
    show(first + 4);
    runs.push({ from: row, to: last - 1, member: index });
    row = last - 1;
  }
  show(Math.ceil(struct.size / ROW));
  return runs;
}

/** How many rows the map of a struct has, before more are unfolded. */
export function rowCount(struct) {
  const runs = runsOf(struct);
  return 1 + runs.reduce((sum, { from, to, member }) => sum + (member === undefined ? to - from : 1), 0) + (struct.runtimeSized ? 1 : 0);
}

/** How many bytes of a struct hold no value. */
export function paddingOf(struct) {
  const used = (type) => {
    if (type.kind === "struct") return type.struct.size - paddingOf(type.struct);
    if (type.kind !== "array" && type.kind !== "matrix") return sizeOf(type);
    const { count, inner } = partsOf(type);
    return count * used(inner);
  };
  return struct.size - struct.members.reduce((sum, { typeTree }) => sum + used(typeTree), 0);
}
