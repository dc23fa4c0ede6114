// A struct: its map, and the table of its members; or why it has no layout.
import { colored } from "page/colors.js";
import { coded, h, measured, number } from "page/dom.js";
import { ByteMap, bytes, hueOf } from "page/map.js";
import { rowCount } from "page/pieces.js";
import { problem } from "page/problems.js";

const SHOWN_ERRORS = 10; // in a card
const EAGER_CARDS = 3; // new ones that are filled at once, so that none is seen empty
const keys = new WeakMap(), contents = new WeakMap(); // by cards: what tells their contents apart, and how these are made

// Other cards are filled when they come near to the window. What one had before stays until then if it is near, and goes if not.
const cardsNear = new IntersectionObserver(measured("cards", (entries) => {
  for (const { isIntersecting, target } of entries) {
    if (isIntersecting) cardsNear.unobserve(target);
    target.replaceChildren(...(isIntersecting ? contents.get(target)() : []));
  }
  whenFilled();
}), { rootMargin: "100%" });
let whenFilled = () => {};

export const newCard = (name) => h("section", { className: "card struct", ariaLabel: `struct ${name}` });

/** Whether a card shows what has this key, or will when it is near. */
export const hasKey = (card, key) => keys.get(card) === key;

/** Has cards show structs, and calls a function when those near to the window do. */
export function fillCards(cards, whenDone) {
  const others = cards.filter(({ card, key }) => !hasKey(card, key));
  let isDone = true;
  for (const [index, { card, key, struct, variables }] of others.entries()) {
    const isEager = index < EAGER_CARDS && !contents.has(card), height = 190 + 31 * rowCount(struct) + 29 * struct.members.length + 24 * variables.length;
    card.style.containIntrinsicBlockSize = `auto ${height}px`;
    keys.set(card, key);
    contents.set(card, () => partsOf(struct, variables));
    cardsNear.unobserve(card); // so that it is told of once more
    if (isEager) card.replaceChildren(...contents.get(card)());
    else cardsNear.observe(card);
    isDone &&= isEager;
  }
  whenFilled = whenDone;
  if (isDone) whenDone();
}

/** The card of a struct that is left out, with its errors. */
export function newBrokenCard({ name, errors, needs }) {
  const causes = needs.length ? needs.map((other) => `\`${other}\``).join(", ") : "a declaration that it names";
  const why = errors.length ? errors.slice(0, SHOWN_ERRORS).map((error) => problem("error", error)) : [h("p", { className: "where" }, ...coded(`Left out, as ${causes} has an error.`))];
  return h("section", { className: "card struct broken", ariaLabel: `struct ${name}, which is left out` },
    h("div", { className: "head" }, h("h2", {}, h("span", {}, "struct "), name), h("p", { className: "facts" }, "no layout")), ...why);
}

/** What is said of a text that is of another language, or that has neither structs nor variables. */
export function newNote(foreign) {
  const code = (text) => h("code", {}, ...colored(text)), line = (...parts) => h("p", {}, ...parts);
  const note = (...parts) => h("section", { className: "card note" }, ...parts);
  if (!foreign) {
    return note(line("Here is no struct and no variable. Write a struct, and its bytes are drawn: "), line(code("struct Light { color: vec3f, power: f32 }")));
  }
  const rows = foreign.words.map(([word, wgsl]) => h("li", {}, h("code", {}, word), wgsl ? code(wgsl) : h("span", {}, "nothing")));
  return note(h("h2", {}, `This looks like ${foreign.language}`), line("This page reads WGSL, which writes:"), h("ul", {}, ...rows));
}

function partsOf(struct, variables) {
  const mark = (member) => rows.forEach((row, index) => row.classList.toggle("of", index === member));
  const map = new ByteMap(struct, mark), rows = struct.members.map((member, index) => rowOf(member, index));
  for (const [index, row] of rows.entries()) {
    row.addEventListener("pointerenter", () => (map.mark(index), mark(index)));
    row.addEventListener("pointerleave", () => (map.mark(-1), mark(-1)));
  }
  return [headOf(struct, variables), map.element, map.info, tableOf(struct, rows)];
}

function rowOf(member, index) {
  const cell = (n, className = "") => h("td", { className: `${className} ${n === null || n === 0 ? "none" : "number"}` }, n === null ? "–" : number(n));
  const name = h("td", { className: "wide" }, h("span", { className: "swatch", style: `--hue:${hueOf(index)}` }), ...typed(member));
  return h("tr", {}, name, h("td", { className: "number" }, number(member.offset)), cell(member.size), cell(member.align), cell(member.stride, "optional"), cell(member.padding));
}

/** `name: type` in colours, in which each name behind the colon is that of a type. */
export function typed({ name, type }) {
  return [h("span", { className: "name" }, name), ": ", ...colored(type, { has: () => true })];
}

function tableOf(struct, rows) {
  const heading = (text, className = "") => h("th", { scope: "col", className }, text);
  const headings = [heading("Member", "wide"), heading("Offset"), heading("Size"), heading("Align"), heading("Stride", "optional"), heading("Pad")];
  return h("table", { ariaLabel: `Members of ${struct.name}` }, h("thead", {}, h("tr", {}, ...headings)), h("tbody", {}, ...rows));
}

function headOf(struct, variables) {
  const facts = h("p", { className: "facts" }, h("span", {}, h("b", {}, bytes(struct.size)), struct.runtimeSized ? ", with one element at the end" : ""),
    h("span", {}, "alignment ", h("b", {}, String(struct.align))));
  const head = h("div", { className: "head" }, h("h2", {}, h("span", {}, "struct "), struct.name), facts);
  for (const variable of variables) head.append(h("p", { className: "where" }, h("code", {}, ...declared(variable))));
  return head;
}

export const spaceOf = ({ space, access }) => (space === "handle" ? "" : `<${space}${space === "storage" ? `, ${access}` : ""}>`);

function declared(variable) {
  const { group, binding } = variable, start = `${group === null ? "" : `@group(${group}) `}${binding === null ? "" : `@binding(${binding}) `}`;
  return [...colored(start), `var${spaceOf(variable)} `, ...typed(variable), ";"];
}
