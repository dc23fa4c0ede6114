// docs/monaco.js, with a stand-in for Monaco. TOP is the folder of the repository.
import assert from "node:assert/strict";
import test from "node:test";
import { addWgsl } from "page/monaco.js";
import { outcomeOf, testTables } from "./tables.mjs";

const providers = {}, markers = [], TEXT = "// é🦀\nfn lit(a: vec3<f32>, b: array<vec2f, 2>) {}\nfn f(v: vec3f) { let c = mix(v, v, true) * 2; lit(v, array(v.xy, v.yz)); }";
const modelOf = (text) => ({
  getLanguageId: () => "wgsl", getValue: () => text, getOffsetAt: (offset) => offset,
  onDidChangeContent(listener) {
    this.change = listener;
  },
  getPositionAt: (offset) => ({ lineNumber: text.slice(0, offset).split("\n").length, column: offset - text.lastIndexOf("\n", offset - 1) }),
});
const registered = [], owners = [], watched = [modelOf(TEXT)], other = { getLanguageId: () => "glsl" };
const register = (language, provider) => (registered.push(language), Object.assign(providers, provider));
let open = null;
addWgsl({
  MarkerSeverity: { Error: 8 },
  languages: {
    register: (language) => registered.push(language), registerHoverProvider: register, registerSignatureHelpProvider: register,
  },
  editor: {
    getModels: () => [...watched, other], onDidCreateModel: (listener) => (open = listener),
    setModelMarkers: (model, owner, found) => (owners.push([model, owner]), markers.push(found)),
  },
});

test("Monaco is told of the language, of its files and of who knows it, and the models of now and of later are marked", () => {
  const later = modelOf("const a = b;");
  assert.deepEqual(registered, [{ id: "wgsl", extensions: [".wgsl"] }, "wgsl", "wgsl"]);
  assert.deepEqual(providers.signatureHelpTriggerCharacters, ["(", ","]);
  open(later);
  open(other);
  assert.deepEqual(owners, [[watched[0], "wgsl"], [later, "wgsl"]]);
  assert.equal(markers.pop().length, 1);
});

test("faults are markers, with notes, again after a change, and only of WGSL", () => {
  watched[0].change();
  assert.deepEqual(markers[1], markers[0]);
  const [[{ message, relatedInformation: [note], ...more }, ...others], , ...none] = markers, place = { startLineNumber: 3, startColumn: 26, endLineNumber: 3, endColumn: 29 };
  assert.deepEqual([message, others, none, more], ["no overload of `mix` takes (vec3<f32>, vec3<f32>, bool)", [], [], { severity: 8, code: "overload", ...place }]);
  assert.deepEqual(note, { resource: undefined, message: "mix(vecN<T>, vecN<T>, vecN<T>) -> vecN<T>, T: float: argument 3 is bool", ...place });
});

const hover = (place, shift = 0) => providers.provideHover(modelOf(TEXT), TEXT.indexOf(place) + shift)?.contents[0].value;

/** The signature that is shown first behind a text in a function, its parameters, and the index of the one that comes next; or null. */
function signature(text) {
  const { value } = providers.provideSignatureHelp(modelOf(`fn f() { ${text}`), 9 + text.length) ?? {}, found = value?.signatures[value.activeSignature];
  return found ? [found.label, found.parameters.map(({ label: [start, end] }) => found.label.slice(start, end).trim()), value.activeParameter] : null;
}

testTables("monaco.txt", ([expression, outcome]) => assert.equal(outcomeOf(expression, { hover, signature }), outcome, expression));
