// What stands at the pointer and at the caret: its type, what is wrong there, and where its name is declared.
import { typed } from "page/card.js";
import { isChecked, last, partAt, partEndingAt } from "page/checked.js";
import { at, coded, h, source } from "page/dom.js";
import { goTo, notesOf, problemsAt } from "page/problems.js";
import { declaredNames } from "page/wgsl.js";

const tip = at("tip");
const SHOWN = 40; // characters of an expression
const CLEAR = 16; // pixels between the pointer and what is told there
let pointed = -1;

/** Tells what stands at the pointer and at the caret. */
export function watch() {
  document.addEventListener("selectionchange", tellCaret);
  source.addEventListener("keydown", (event) => {
    hide();
    if (event.key === "F12") (event.preventDefault(), goToDeclaration(source.selectionStart));
  });
  source.addEventListener("pointermove", (event) => event.pointerType !== "touch" && show(event));
  for (const kind of ["pointerleave", "scroll"]) source.addEventListener(kind, hide, { passive: true });
  source.addEventListener("click", (event) => (event.ctrlKey || event.metaKey) && goToDeclaration(indexAt(event)));
}

/** What is told of an index: the errors there, and the innermost expression with its type. */
function toldOf(index, notesOf) {
  const part = partAt(source.value, index), rows = problemsAt(index).map(([kind, message]) =>
    h("div", {}, h("b", { className: kind }, kind), " ", ...coded(message.message), ...notesOf(message)));
  if (!part) return rows;
  const text = source.value.slice(part.index, part.end.index).replace(/\s+/g, " ");
  const name = text.length > SHOWN ? `${text.slice(0, SHOWN)}…` : text;
  return [...rows, h("div", {}, h("code", {}, ...typed({ name, type: part.type })), `, ${part.stage} expression`)];
}

/** Tells what stands at the caret, or else in front of it. */
export function tellCaret() {
  if (!isChecked(source.value)) return;
  const index = source.selectionStart, isBehind = !/\p{XID_Continue}/u.test(source.value.charAt(index)), without = () => [];
  const [told] = [...(isBehind ? toldOf(index - 1, without) : []), ...toldOf(index, without)];
  at("caret").replaceChildren(told ?? "The type at the caret. F12 leads to a declaration.");
}

/** The index of the character at the pointer. */
function indexAt({ clientX, clientY }) {
  const half = parseFloat(getComputedStyle(source).fontSize) * 0.3; // of a letter: the place asked for is that between two
  return document.caretPositionFromPoint?.(clientX - half, clientY)?.offset ?? source.value.length;
}

function show(event) {
  const index = indexAt(event);
  if (index === pointed) return;
  const told = source.value.charAt(index).trim() ? toldOf(index, notesOf) : [];
  pointed = index;
  tip.hidden = told.length === 0;
  tip.replaceChildren(...told);
  const { width, height } = tip.getBoundingClientRect(), below = event.clientY + CLEAR;
  tip.style.left = `${Math.max(8, Math.min(event.clientX, innerWidth - width - 8))}px`;
  tip.style.top = `${below + height < innerHeight ? below : event.clientY - CLEAR - height}px`;
}

function hide() {
  tip.hidden = true;
  pointed = -1;
}

function goToDeclaration(index) {
  const text = source.value, start = index - /\p{XID_Continue}*$/u.exec(text.slice(0, index))[0].length;
  const [name] = /^\p{XID_Continue}*/u.exec(text.slice(start)), before = text.slice(0, start).trimEnd(), end = start + name.length;
  const declared = before.endsWith(".")
    ? memberOf(partEndingAt(text, before.slice(0, -1).trimEnd().length)?.type, name)
    : [partEndingAt(text, end, start)?.declared, declaredNames(text).find((one) => one.name === name)?.index].find((place) => place >= 0);
  if (name && declared !== undefined) goTo({ index: declared, end: { index: declared + name.length } });
}

/** Where the struct of a type declares a member. */
function memberOf(type, name) {
  const [, value] = /^(?:ref|ptr)<\w+, (.*), \w+>$/.exec(type) ?? [null, type];
  return last.structs.find((struct) => struct.name === value)?.members.find((member) => member.name === name)?.index;
}
