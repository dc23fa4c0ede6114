// A worker that reads and checks texts, so that a long one holds up no key. First it is sent the compiled module.
import { SourceError, check, initSync, layouts, standardAnswer } from "wgsl/calls.js";
import { foreignOf, leftOut, letsOf } from "page/wgsl.js";

onmessage = ({ data }) => {
  if (data instanceof WebAssembly.Module) return initSync(data);
  const { text, expression } = data;
  const answer = expression === undefined ? { ...laidOut(text), ...checked(text) } : typed(text, expression);
  postMessage(answer, answer.parts ? [answer.parts.buffer] : []);
};

/** What a call answers to a text; nothing if it is out of memory. */
function answered(call, text) {
  try {
    return call(text);
  } catch (error) {
    if (error instanceof SourceError) return error.layouts;
    if (!(error instanceof RangeError)) reportError(error);
    return {};
  }
}

/** What a text lays out, errors or not, which structs these leave out, and which other language it looks like. */
function laidOut(text) {
  const told = answered(layouts, text), { structs = [], variables = [], errors = [], findings = [] } = told;
  const isBroken = errors.length > 0, isEmpty = structs.length + variables.length === 0;
  return {
    structs, variables, errors, findings, isBroken,
    broken: isBroken ? leftOut(text, told) : { count: 0, structs: [] }, foreign: isBroken && isEmpty ? foreignOf(text) : null,
  };
}

/** The faults of a text, the types of its `let`s, and four numbers per expression: start, end, which of `kinds`, and declaration. */
function checked(text) {
  const { faults = [], parts = [] } = answered(check, text), numbers = new Int32Array(parts.length * 4);
  const kinds = new Map(), places = new Map();
  for (const [at, { index, end, type, stage, declared }] of parts.entries()) {
    const key = `${stage} ${type}`;
    if (!kinds.has(key)) kinds.set(key, { type, stage, number: kinds.size });
    numbers.set([index, end.index, kinds.get(key).number, declared?.index ?? -1], at * 4);
    places.set(`${index} ${end.index}`, type);
  }
  const lets = letsOf(text).map((made) => ({ ...made, type: places.get(`${made.start} ${made.stop}`) })).filter(({ type }) => type);
  return { faults, lets: lets.map((made) => ({ ...made, type: valueOf(made.type) })), kinds: [...kinds.values()], parts: numbers };
}

/** The type that a `let` has from that of its initializer. */
function valueOf(type) {
  const [, value] = /^ref<\w+, (.*), \w+>$/.exec(type) ?? [null, type];
  return value.includes("Abstract") ? standardAnswer(`let x = ${value}`) : value.replace(/_abstract$/, "_f32");
}

/** The type of an expression in the scope of a text, or its fault; null if an error of the text hides it. */
function typed(text, expression) {
  let name = "it";
  while (text.includes(name)) name += "_";
  const before = `${text}\nfn ${name}() { _ = (`, start = before.length;
  const { faults = [], parts = [] } = answered(check, `${before}${expression}\n); }`);
  const fault = faults.find(({ index }) => index >= start - 1), stop = start + expression.length;
  const whole = parts.find(({ index, end }) => index === start - 1 && end.index > stop);
  if (fault) return { outcome: { fault, at: Math.min(Math.max(fault.index - start, 0), expression.length) } };
  return { outcome: whole ? { type: whole.type, stage: whole.stage } : null };
}
