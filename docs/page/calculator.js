// The calculator: an expression over types, or any request. The library answers `type`, `resolve` and `why`; by the ported rules it
// answers a request in words.
import { Refused, Unreadable, answer, standardAnswer } from "wgsl-types-proved";
import { typeIn } from "page/checked.js";
import { coded, h } from "page/dom.js";

const OURS = "WGSL’s own rules", PORTED = "Rules of the crate wgsl-types", SHADER = "WGSL’s own rules, in the shader above";
const HIDDEN = "No type: an error in the shader hides it.";

/** The answers to a request with names of the shader: to an expression there; else to the request by itself. */
export async function answersIn(shader, text) {
  const asked = text.trim().replace(/^type\s+/, "").toWellFormed(), outcome = await typeIn(shader, asked);
  if (outcome === null) return shownOf(SHADER, { asked, text: HIDDEN, isAnswer: false, at: null });
  const { type, stage, fault, at } = outcome;
  const note = [h("p", { className: "overload" }, `${stage} expression`)];
  if (type) return shownOf(SHADER, { asked, text: type, isAnswer: true, at: null }, note);
  const { kind, message, notes = [] } = fault, reasons = kind === "overload" ? notes.map((reason) => reason.message) : [];
  if (kind === "syntax") return answersTo(text);
  return [...shownOf(SHADER, { asked, text: message, isAnswer: false, at }), ...whyOf("Why no overload takes the operands", reasons)];
}

/** The answers to a text, as elements. `type` may be left out in front of an expression. */
export function answersTo(text) {
  const asked = text.trim().toWellFormed(), expression = asked.replace(/^type\s+/, "");
  if (!asked) return [];
  const typed = outcomeOf(standardAnswer, "type ", expression);
  if (typed.isRead) return ofExpression(expression, typed);
  const request = outcomeOf(standardAnswer, "", asked);
  if (request.isRead) return shownOf(OURS, request);
  const ported = outcomeOf(answer, "", asked);
  if (ported.isRead) return shownOf(PORTED, ported);
  // What begins as an assignment may be an expression too.
  return [placeOf(request.at > typed.at && request.text !== "expected an assignment" ? request : typed)];
}

/** The type of an expression, the overload of its outermost operator or call, and why others don't take the operands. */
function ofExpression(expression, typed) {
  const [resolved, why] = ["resolve ", "why "].map((command) => outcomeOf(standardAnswer, command, expression));
  const note = typed.isAnswer && resolved.isAnswer ? [h("p", { className: "overload" }, `Overload ${resolved.text.replace(" ", ": ")}`)] : [];
  const title = typed.isAnswer ? "Why other overloads don’t take the operands" : "Why no overload takes the operands";
  return [...shownOf(OURS, typed, note), ...whyOf(title, why.isAnswer && why.text !== "none" ? why.text.split("\n") : [])];
}

function whyOf(title, lines) {
  return lines.length ? [h("div", { className: "why" }, h("h3", {}, title), h("ol", {}, ...lines.map(rowOf)))] : [];
}

/** A line of `why`: the signature of an overload, and the reason. */
function rowOf(line) {
  const end = line.lastIndexOf(": ");
  return h("li", {}, h("code", {}, line.slice(0, end)), h("span", {}, line.slice(end + 2)));
}

/** What a call answers to a command and a text; or why it doesn't, and where in the text if it tells that. */
function outcomeOf(call, command, asked) {
  try {
    return { asked, text: call(command + asked), isRead: true, isAnswer: true, at: null };
  } catch (error) {
    if (!(error instanceof Refused || error instanceof Unreadable)) throw error;
    const text = error.message.replace(/^column \d+(?:, word \d+)?: /, ""), isRead = error instanceof Refused;
    return { asked, text, isRead, isAnswer: false, at: error.index === null ? null : error.index - command.length };
  }
}

/** An answer, and where the part stands that has none. */
function shownOf(title, { asked, text, isAnswer, at }, note = []) {
  const isNo = !isAnswer || text === "none", told = isAnswer ? [text] : coded(text);
  const element = h("div", { className: `verdict ${isNo ? "no" : "yes"}` }, h("h3", {}, title), h("p", { className: "answer" }, ...told), ...note);
  return at === null ? [element] : [element, placeOf({ asked, text: "", at })];
}

function placeOf({ asked, text, at }) {
  const before = asked.slice(0, at ?? asked.length).replace(/./gsu, " ");
  return h("pre", { className: "request" }, asked, "\n", before, h("b", {}, "^"), ...coded(text && ` ${text}`));
}
