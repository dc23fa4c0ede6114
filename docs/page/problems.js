// What is wrong: beside the lines, under the words, and in a list.
import { at, coded, h, number, showKept, source } from "page/dom.js";
import { followColors, lineCount, topOf } from "page/editor.js";

const SHOWN_MARKS = 200, SHOWN_PROBLEMS = 100, SHOWN_NOTES = 3;
const BEFORE = 48, BEFORE_ON_PHONES = 20; // characters of a line, in front of what is wrong there
const phone = matchMedia("(max-width: 30rem)");
let numbered = 0, shown = []; // how many lines have their number; what is marked
let numbers = new Map(), marks = new Map(), items = new Map(); // what shows these, by what it shows
let current = new Map(); // the messages of the items, as they stand now

/** Shows the errors and findings of the text, and the numbers of its lines. What shows the same stays, as it may have the focus. */
export function showProblems({ errors, findings }) {
  const all = [...errors.map((message) => ["error", message]), ...findings.map((message) => ["finding", message])], text = source.value;
  shown = all.slice(0, SHOWN_MARKS);
  showNumbers();
  const placed = shown.map(([kind, message]) => ({ kind, message, place: placeOf(message, text) }));
  showMarks(placed);
  const listed = new Map(placed.slice(0, SHOWN_PROBLEMS).map((one) => [keyOf(one), one]));
  current = new Map([...listed].map(([key, { message }]) => [key, message]));
  const wanted = [...listed].map(([key, one]) => [key, () => itemOf(key, one)]), more = all.length - SHOWN_PROBLEMS;
  if (more > 0) wanted.push([more, () => h("li", { className: "place" }, `and ${number(more)} more`)]);
  items = showKept(at("problems"), items, wanted);
}

/** What an item of the list shows. */
function keyOf({ kind, message: { line, column, message, notes = [] }, place }) {
  const told = notes.slice(0, SHOWN_NOTES).map((note) => `${note.line}:${note.column} ${note.message}`);
  return [phone.matches, kind, line, column, message, ...Object.values(place), ...told, notes.length].join("\n");
}

/** An item of the list. It leads to where its problem stands when it is clicked. */
function itemOf(key, { kind, message, place }) {
  const now = () => current.get(key);
  return h("li", {}, problem(kind, message, place, () => goTo(now())), ...notesOf(message, (note) => goTo(now().notes[note])));
}

function showNumbers() {
  const count = lineCount();
  if (count === numbered) return;
  numbered = count;
  at("numbers").firstChild.data = Array.from({ length: count }, (_, index) => index + 1).join("\n");
  requestAnimationFrame(follow);
}

/** Marks what is wrong, under the words and at the numbers of their lines. */
function showMarks(placed) {
  const marked = new Map(placed.map(({ kind, message }) => [message.line, kind]).reverse());
  numbers = showKept(at("numbers"), numbers, [...marked].map(([line, kind]) =>
    [`${kind} ${line}`, () => h("b", { className: kind, style: topOf(line) }, String(line))]));
  marks = showKept(at("marks"), marks, placed.map(({ kind, message: { line }, place: { before, word } }) =>
    [`${kind} ${line} ${before}\n${word}`, () => h("div", { className: kind, style: topOf(line) }, before, h("span", {}, word || " "))]));
}

/** The first line of a place: what stands before it, in it, and behind it. */
function placeOf({ index, end }, text = source.value) {
  const start = index === 0 ? 0 : text.lastIndexOf("\n", index - 1) + 1, found = text.indexOf("\n", index);
  const last = found < 0 ? text.length : found, behind = Math.min(end.index, last);
  return { before: text.slice(start, index), word: text.slice(index, behind), after: text.slice(behind, last) };
}

/** The errors and findings at an index. */
export function problemsAt(index) {
  return shown.filter(([, message]) => message.index <= index && index < Math.max(message.end.index, message.index + 1));
}

/** A button that leads to the place of an error or a finding. */
export function problem(kind, message, { before, word, after } = placeOf(message), lead = () => goTo(message)) {
  const cut = before.trimStart().slice(phone.matches ? -BEFORE_ON_PHONES : -BEFORE), caret = "^".padEnd(Math.max(1, [...word].length), "~");
  const line = h("pre", { ariaHidden: "true" }, `${cut}${word}${after.slice(0, 60)}\n${cut.replace(/./gsu, " ")}`, h("b", {}, caret));
  return h("button", { type: "button", className: `problem ${kind}`, onclick: lead },
    h("span", { className: "kind" }, kind), " ", h("span", { className: "place" }, `${message.line}:${message.column}`), " ", ...coded(message.message), line);
}

/** The notes of a message. One of another place is a button, and leads there by its number. */
export function notesOf({ index, notes = [] }, lead) {
  const rows = notes.slice(0, SHOWN_NOTES).map((note, number) => note.index === index
    ? h("p", {}, ...coded(note.message))
    : h("button", { type: "button", onclick: () => lead(number) }, `${note.line}:${note.column} `, ...coded(note.message)));
  if (notes.length > SHOWN_NOTES) rows.push(h("p", {}, `and ${notes.length - SHOWN_NOTES} more`));
  return rows.length ? [h("div", { className: "notes" }, ...rows)] : [];
}

/** Selects the first line of a place. */
export function goTo(place) {
  const { index } = place;
  source.focus();
  source.setSelectionRange(index, index + placeOf(place).word.length);
  const line = source.value.slice(0, index).split("\n").length;
  source.scrollTop = Math.max(0, (line - 4) * parseFloat(getComputedStyle(source).lineHeight));
  follow();
}

/** Moves numbers and marks to where the text is scrolled to. */
export function follow() {
  at("numbers").scrollTop = source.scrollTop;
  at("marks").style.transform = `translate(${-source.scrollLeft}px, ${-source.scrollTop}px)`;
  followColors();
}
