export const at = (id) => document.getElementById(id);
export const source = at("source");

/** An element with properties and children. */
export function h(tag, properties = {}, ...children) {
  const element = Object.assign(document.createElement(tag), properties);
  element.append(...children);
  return element;
}

/** A text, in which what stands between backticks is code. */
export function coded(text) {
  return text.split("`").map((part, index) => (index % 2 ? h("code", {}, part) : part));
}

/** Makes these the children of an element, and touches none of those that are there already. */
export function replaceChildren(parent, wanted) {
  const stays = new Set(wanted);
  for (const child of [...parent.children]) if (!stays.has(child)) child.remove();
  wanted.forEach((child, index) => {
    if (parent.children[index] !== child) parent.insertBefore(child, parent.children[index] ?? null);
  });
}

/** Has an element show what is made by the keys of a list, and nothing else; what `shown` has by a key stays. Returns what is shown. */
export function showKept(parent, shown, wanted) {
  const made = new Map();
  for (const [key, make] of wanted) made.set(key, shown.get(key) ?? make(made.size));
  replaceChildren(parent, [...made.values()]);
  return made;
}

/** The function, whose time is kept under a name: it is one piece of what a key costs. */
export const measured = (name, work) => (...given) => {
  const start = performance.now();
  work(...given);
  performance.measure(name, { start });
};

/** A number as English writes it, by one formatter: `toLocaleString` looks for it anew. */
export const { format: number } = new Intl.NumberFormat("en");
export const counted = (n, word) => `${number(n)} ${word}${n === 1 ? "" : "s"}`;
