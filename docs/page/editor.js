// The text in colours, under the textarea, whose own letters can't be seen, and the types of `let`s. Only the lines near to those in view
// are drawn.
import { letsOf } from "page/checked.js";
import { colored, declaredTypes } from "page/colors.js";
import { at, h, source } from "page/dom.js";
import { commentsOf } from "page/wgsl.js";

const NEAR = 20; // lines
let starts = [0], comments = [], declared = new Set(), drawn = [0, 0];
let view = { line: 20, top: 0, height: 0 }; // as it was measured last: at a key that would lay out the page once more

/** Colours the text again, as it has changed. */
export function showColors() {
  const text = source.value;
  [starts, comments, declared] = [[0], commentsOf(text), declaredTypes(text)];
  for (let end = text.indexOf("\n"); end >= 0; end = text.indexOf("\n", end + 1)) starts.push(end + 1);
  draw();
}

export const lineCount = () => starts.length;

/** The first line in view, and the one behind the last. */
function linesInView() {
  const first = Math.floor(view.top / view.line);
  return [Math.min(first, starts.length), Math.min(first + Math.ceil(view.height / view.line) + 1, starts.length)];
}

function draw() {
  const [first, last] = linesInView(), text = source.value, colors = at("colors");
  drawn = [Math.max(0, first - NEAR), Math.min(starts.length, last + NEAR)];
  colors.style.paddingTop = `${drawn[0] * 1.25 + 0.75}rem`;
  colors.replaceChildren(...colored(text, declared, comments, starts[drawn[0]] ?? text.length, starts[drawn[1]] ?? text.length));
  showHints();
}

export const topOf = (line) => `top:${(line - 1) * 1.25 + 0.75}rem`;

/** Shows the types of `let`s behind their lines, if they are wanted. */
export function showHints() {
  const text = source.value, [first, behind] = drawn, lets = at("types").checked ? letsOf(text) : [];
  const lines = Map.groupBy(lets, ({ index }) => starts.findLastIndex((start) => start <= index));
  const near = [...lines].filter(([line]) => line >= first && line < behind);
  at("hints").replaceChildren(...near.map(([line, lets]) => {
    const told = lets.length === 1 ? `: ${lets[0].type}` : lets.map(({ name, type }) => `${name}: ${type}`).join(", ");
    return h("div", { style: topOf(line + 1) }, text.slice(starts[line], (starts[line + 1] ?? text.length + 1) - 1), h("span", {}, told));
  }));
}

/** Moves the colours to where the text is scrolled to. */
export function followColors() {
  view = { line: parseFloat(getComputedStyle(source).lineHeight), top: source.scrollTop, height: source.clientHeight };
  const [first, last] = linesInView();
  if (first < drawn[0] || last > drawn[1]) draw();
  for (const layer of ["colors", "hints"]) at(layer).style.transform = `translate(${-source.scrollLeft}px, ${-source.scrollTop}px)`;
}

new ResizeObserver(followColors).observe(source);
