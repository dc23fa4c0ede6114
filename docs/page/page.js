// The page: a text on the left, what it lays out on the right, and the calculator below.
import { SourceError, code } from "wgsl-types-proved";
import { hashOf, stateOf } from "page/address.js";
import { answersIn, answersTo } from "page/calculator.js";
import { fillCards, hasKey, newBrokenCard, newCard, newNote, spaceOf, typed } from "page/card.js";
import { check, last, namesShader, problemsOf } from "page/checked.js";
import { colored } from "page/colors.js";
import { at, counted, h, measured, number, showKept, source } from "page/dom.js";
import { showColors, showHints } from "page/editor.js";
import { examples, tries } from "page/examples.js";
import { tellCaret, watch } from "page/pointed.js";
import { follow, showProblems } from "page/problems.js";

const request = at("request");
const LANGUAGES = { c: "C", rust: "Rust", numpy: "numpy", typescript: "TypeScript" };
const SAVED_AFTER = 400, DRAWN_AFTER = 120; // milliseconds without a key
const DRAWN_AT_ONCE = 4; // cards

// What is shown of a text.

let isNew = true, wasBroken = false; // an example, or a text of an address; the text of the cards

/** Shows what was found in a text. What it lays out waits for the newest one. */
const whenChecked = measured("checked", (isNewest) => {
  tellProblems();
  tellCounts();
  showHints();
  if (isAboutShader || namesShader(request.value, source.value)) ask();
  if (isNewest) draw();
});

/** What is wrong: what was found last, where it stands now. */
function tellProblems() {
  showProblems(problemsOf(source.value));
  tellCaret();
}

function tellCounts() {
  const { errors, findings } = problemsOf(last.text), { structs, variables, broken, foreign } = last, numbers = [];
  if (foreign) numbers.push(`looks like ${foreign.language}`);
  else numbers.push(counted(structs.length, "struct"), counted(variables.length, "variable"));
  if (broken.count) numbers.push(`${number(broken.count)} left out`);
  if (errors.length) numbers.push(counted(errors.length, "error"));
  if (findings.length) numbers.push(counted(findings.length, "finding"));
  at("counts").textContent = numbers.join(" · ");
}

/** Draws what the text lays out; later if many cards are others, or if there are errors: these take away structs that the next key may
 * bring back. */
function draw() {
  const wanted = wantedCards(), others = wanted.filter(({ id, key }) => !(cards.has(id) && hasKey(cards.get(id), key))).length;
  const isLater = !isNew && (wasBroken || last.isBroken || others > DRAWN_AT_ONCE);
  [isNew, wasBroken, codeIsOld] = [false, last.isBroken, true];
  if (isLater) drawTimer = setTimeout(measured("draw", () => drawAll()), DRAWN_AFTER);
  else drawAll(wanted);
}

function drawAll(wanted = wantedCards()) {
  const { text } = last;
  cards = showKept(at("structs"), cards, wanted.map(({ id, make }) => [id, make]));
  showVariables();
  at("code").hidden = last.structs.length === 0;
  showTabs();
  if (codeIsNear) drawTimer = setTimeout(measured("code", writeCode), DRAWN_AFTER);
  fillCards(wanted.map((one) => ({ ...one, card: cards.get(one.id) })), () => ((drawn = text), tellDrawn()));
}

/** Says that all that is near shows what is of the text, and first that the page works. */
function tellDrawn() {
  if (drawn !== source.value || (codeIsNear && codeIsOld)) return;
  const { dataset } = document.documentElement;
  if (dataset.ready === undefined) performance.mark("ready");
  dataset.ready = dataset.checked = "";
}

let cards = new Map(), drawn = null; // by their structs; the text that they are of

/** The cards to be shown: how each is found again and made, and of a struct what it shows. Structs that are bound come first. */
function wantedCards() {
  const keys = new Map(), bound = Map.groupBy(last.variables, ({ typeTree }) => innermost(typeTree).struct), cards = [];
  for (const struct of last.structs) {
    const variables = bound.get(struct) ?? [], places = variables.map(({ name, type, group, binding, space, access }) => [name, type, group, binding, space, access]);
    const isBound = variables.some(({ binding }) => binding !== null), key = keyOf(struct, keys) + places.join(";");
    cards.push({ index: struct.index, isBound, id: struct.name, make: () => newCard(struct.name), key, struct, variables });
  }
  for (const struct of last.broken.structs) cards.push({ ...struct, id: struct, make: () => newBrokenCard(struct) });
  cards.sort((a, b) => b.isBound - a.isBound || a.index - b.index);
  if (last.foreign || (cards.length === 0 && last.variables.length === 0)) {
    const { foreign } = last;
    cards.unshift({ id: JSON.stringify(foreign), make: () => newNote(foreign) });
  }
  return cards;
}

/** The type inside all arrays. */
function innermost(type) {
  while (type.element) type = type.element;
  return type;
}

/** What a card shows of a struct: its members, and the structs that stand in it. */
function keyOf(struct, keys) {
  if (keys.has(struct)) return keys.get(struct);
  keys.set(struct, ""); // no struct stands in itself, but names may be there twice
  const inner = new Set();
  for (const { typeTree } of struct.members) {
    const { struct: other } = innermost(typeTree);
    if (other) inner.add(other);
  }
  const members = struct.members.map(({ name, type, offset, size, align }) => `${name}:${type},${offset},${size},${align}`).join();
  const key = `${struct.name} ${struct.size} ${struct.align} {${members}}${[...inner].map((other) => keyOf(other, keys)).join("")}`;
  keys.set(struct, key);
  return key;
}

let rows = new Map(); // of variables, by what they show beside their sizes

function showVariables() {
  const put = (cell, n) => {
    const text = n === null ? "–" : number(n);
    return cell.textContent === text ? cell : Object.assign(cell, { className: n === null ? "none" : "number", textContent: text });
  };
  const newRow = (variable) => h("tr", {}, put(h("td"), variable.group), put(h("td"), variable.binding),
    h("td", { className: "wide" }, ...typed(variable), h("span", { className: "space" }, `var${spaceOf(variable)}`)), h("td"));
  const wanted = last.variables.map((variable, index) =>
    [[index, variable.name, variable.type, variable.group, variable.binding, spaceOf(variable)].join("\n"), () => newRow(variable)]);
  at("variables").hidden = wanted.length === 0;
  rows = showKept(at("variables").querySelector("tbody"), rows, wanted);
  for (const [index, row] of [...rows.values()].entries()) put(row.lastChild, last.variables[index].minBindingSize);
}

// Code.

let language = "c";
let codeIsOld = false, codeIsNear = false; // far from the window it isn't written

function showTabs() {
  for (const name of Object.keys(LANGUAGES)) {
    const tab = at(`tab-${name}`), isShown = name === language;
    tab.setAttribute("aria-selected", String(isShown));
    tab.tabIndex = isShown ? 0 : -1;
  }
  at("code-text").setAttribute("aria-labelledby", `tab-${language}`);
  at("copy-code").textContent = `Copy ${LANGUAGES[language]}`;
}

function writeCode() {
  codeIsOld = false;
  at("code-text").replaceChildren(...colored(codeOf(source.value)));
  tellDrawn();
}

/** The code of what the text lays out, errors or not. */
function codeOf(text) {
  try {
    return code(text.toWellFormed(), language);
  } catch (error) {
    if (error instanceof SourceError) return error.code(language);
    throw error;
  }
}

function choose(name) {
  language = name;
  showTabs();
  writeCode();
}

let toastTimer = 0;

async function copy(text, what) {
  try {
    await navigator.clipboard.writeText(text);
  } catch {
    const area = h("textarea", { value: text, className: "skip" }); // where the clipboard is closed, as in a page from a file
    document.body.append(area);
    area.select();
    document.execCommand("copy");
    area.remove();
  }
  at("toast").textContent = `${what} copied`;
  at("toast").classList.add("shown");
  clearTimeout(toastTimer);
  toastTimer = setTimeout(() => at("toast").classList.remove("shown"), 1600);
}

// The calculator.

let asks = 0, isAboutShader = false;

/** Answers at once, unless the request has names of the shader. */
async function ask() {
  const number = ++asks, asked = request.value;
  isAboutShader = namesShader(asked, source.value);
  at("answers").ariaBusy = String(isAboutShader);
  const answers = isAboutShader ? await answersIn(source.value, asked) : answersTo(asked);
  if (number !== asks) return;
  at("answers").replaceChildren(...answers);
  at("answers").ariaBusy = "false";
}

// The state of the page is its address.

let saveTimer = 0, saved = "";

async function saveNow() {
  saved = await hashOf([source.value, request.value]);
  history.replaceState(null, "", saved);
}

function save() {
  clearTimeout(saveTimer);
  saveTimer = setTimeout(saveNow, SAVED_AFTER);
}

// A key: the text has its colours before the next picture, and what was found before it moves along. What is found then is shown when
// the worker has found it, and what isn't near waits until no key comes.

let isDue = false, drawTimer = 0;

function changed() {
  if (!isDue) requestAnimationFrame(measured("update", read));
  isDue = true;
  save();
}

function read() {
  isDue = false;
  clearTimeout(drawTimer);
  delete document.documentElement.dataset.checked;
  showColors();
  tellProblems();
  check(source.value, whenChecked);
}

function fill([text, asked = tries[0]]) {
  source.value = text;
  request.value = asked;
  isNew = true;
  read();
  ask();
}

function addChoices() {
  at("examples").append(h("option", { value: "" }, "Examples"), ...Object.keys(examples).map((name) => h("option", { value: name }, name)));
  at("tries").append(...tries.map((text) => h("li", {}, h("button", { type: "button", onclick: () => ((request.value = text), ask(), save()) }, text))));
  at("examples").addEventListener("change", ({ target }) => {
    if (!target.value) return;
    fill([examples[target.value], request.value]);
    source.scrollTop = 0;
    target.value = "";
    save();
  });
}

function addTabs() {
  const names = Object.keys(LANGUAGES);
  for (const name of names) at(`tab-${name}`).addEventListener("click", () => choose(name));
  document.querySelector('[role="tablist"]').addEventListener("keydown", (event) => {
    const step = { ArrowRight: 1, ArrowLeft: -1 }[event.key];
    if (!step) return;
    choose(names[(names.indexOf(language) + step + names.length) % names.length]);
    at(`tab-${language}`).focus();
  });
  at("copy-code").addEventListener("click", () => copy(codeOf(source.value), LANGUAGES[language]));
  new IntersectionObserver((entries) => {
    codeIsNear = entries.at(-1).isIntersecting;
    if (codeIsNear && codeIsOld) writeCode();
  }, { rootMargin: "100%" }).observe(at("code"));
}

addChoices();
addTabs();
fill((await stateOf(location.hash)) ?? [Object.values(examples)[0]]);
source.addEventListener("input", changed);
source.addEventListener("scroll", follow, { passive: true });
at("types").addEventListener("change", showHints);
watch();
request.addEventListener("input", () => (ask(), save()));
at("share").addEventListener("click", async () => {
  await saveNow();
  await copy(location.href, "Link");
});
addEventListener("hashchange", async () => {
  if (location.hash === saved) return;
  const state = await stateOf(location.hash);
  if (state) fill(state);
});
