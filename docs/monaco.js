// WGSL in the editor Monaco: what is wrong, the type under the pointer, and the signatures of a call.
import { check, standardAnswer, standardExplain } from "wgsl-types-proved";

const LANGUAGE = "wgsl";

/** Has Monaco show these for each text in WGSL. `monaco` is the module monaco-editor. */
export function addWgsl(monaco) {
  const { languages, editor, MarkerSeverity } = monaco;
  languages.register({ id: LANGUAGE, extensions: [".wgsl"] });
  languages.registerHoverProvider(LANGUAGE, { provideHover });
  languages.registerSignatureHelpProvider(LANGUAGE, { signatureHelpTriggerCharacters: ["(", ","], provideSignatureHelp });
  const mark = (model) => editor.setModelMarkers(model, LANGUAGE, markersOf(model, MarkerSeverity.Error));
  const watch = (model) => {
    if (model.getLanguageId() !== LANGUAGE) return;
    mark(model);
    model.onDidChangeContent(() => mark(model));
  };
  editor.getModels().forEach(watch);
  editor.onDidCreateModel(watch);
}

function rangeOf(model, start, end) {
  const [from, to] = [start, end].map((index) => model.getPositionAt(index));
  return { startLineNumber: from.lineNumber, startColumn: from.column, endLineNumber: to.lineNumber, endColumn: to.column };
}

function markersOf(model, severity) {
  return check(model.getValue()).faults.map(({ index, end, kind, message, notes = [] }) => {
    const told = notes.map((note) => ({ resource: model.uri, message: note.message, ...rangeOf(model, note.index, note.end.index) }));
    return { severity, code: kind, message, relatedInformation: told, ...rangeOf(model, index, end.index) };
  });
}

/** Tells the innermost expression's type. */
function provideHover(model, position) {
  const offset = model.getOffsetAt(position), length = ({ index, end }) => end.index - index;
  const around = check(model.getValue()).parts.filter(({ index, end }) => index <= offset && offset < end.index);
  const part = around.sort((a, b) => length(a) - length(b))[0];
  return part && { range: rangeOf(model, part.index, part.end.index), contents: [{ value: `\`${part.type}\`, ${part.stage}` }] };
}

/** The call that isn't closed in front of a place: its name, and how many arguments end there. */
function callBefore(text) {
  let line = text.split(/[{};]/).at(-1);
  for (let before = ""; before !== line; ) [before, line] = [line, line.replace(/\([^()]*\)|\[[^[\]]*\]/g, "")];
  const [, name, list] = /(\p{XID_Continue}+)\(([^(]*)$/u.exec(line) ?? ["", "", ""];
  return { name, commas: list.split(",").length - 1 };
}

/** A signature with its parameters: what stands between its commas, with templates that have some of their own. */
function signatureOf(label) {
  const start = label.indexOf("(") + 1, list = label.slice(start, label.indexOf(")", start));
  const found = list.matchAll(/(?:[^,<]|<(?:[^<>]|<[^<>]*>)*>)+/g);
  return { label, parameters: Array.from(found, ({ 0: text, index }) => ({ label: [start + index, start + index + text.length] })) };
}

/** Tells the overloads of a function of WGSL, and which parameter comes next. */
function provideSignatureHelp(model, position) {
  const { name, commas } = callBefore(model.getValue().slice(0, model.getOffsetAt(position)));
  const request = `overloads ${name}`, answer = standardExplain(request) === null ? standardAnswer(request) : "none";
  if (answer === "none") return null;
  const signatures = answer.split("\n").map(signatureOf);
  const activeSignature = Math.max(0, signatures.findIndex(({ parameters }) => parameters.length > commas));
  return { value: { signatures, activeSignature, activeParameter: commas }, dispose() {} };
}
