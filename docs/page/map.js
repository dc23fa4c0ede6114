// The map of a struct's bytes: rows of 16, each member in its colour, and padding hatched.
import { counted, h, number } from "page/dom.js";
import { UNFOLDED_ROWS, paddingOf, piecesOfRow, runsOf } from "page/pieces.js";

const HUES = [255, 150, 70, 325, 200, 25, 110, 290];
const STEPS = { ArrowRight: 1, ArrowDown: 1, ArrowLeft: -1, ArrowUp: -1, Home: -Infinity, End: Infinity };

export const hueOf = (index) => HUES[index % HUES.length];
export const bytes = (n) => counted(n, "byte");

/** The map of a struct. `onMember` is told which member is pointed at, or -1. */
export class ByteMap {
  #struct;
  #onMember;
  #unfolded = new Set();
  #cells = [];
  #current = -1;

  constructor(struct, onMember) {
    this.#struct = struct;
    this.#onMember = onMember;
    this.info = h("p", { className: "info", role: "status" });
    this.element = h("div", {
      className: "map", tabIndex: 0, role: "application", ariaLabel: `Bytes of ${struct.name}. Arrow keys move from part to part.`,
    });
    this.element.addEventListener("pointerover", ({ target }) => target.dataset.cell && this.#show(Number(target.dataset.cell)));
    this.element.addEventListener("pointerleave", () => document.activeElement !== this.element && this.#show(-1));
    this.element.addEventListener("focus", () => this.#current < 0 && this.element.matches(":focus-visible") && this.#show(0));
    this.element.addEventListener("blur", () => this.#show(-1));
    this.element.addEventListener("keydown", (event) => this.#onKey(event));
    this.#draw();
    this.#tellPadding();
  }

  /** Shows where a member lies. */
  mark(member) {
    for (const cell of this.#cells) cell.element.classList.toggle("of", cell.member === member && !cell.piece.isGap);
    if (member < 0) for (const { element } of this.#cells) element.classList.remove("on");
  }

  #onKey(event) {
    const step = STEPS[event.key];
    if (event.target !== this.element || step === undefined) return;
    event.preventDefault();
    this.#show(Math.min(Math.max(this.#current + step, 0), this.#cells.length - 1));
    this.#cells[this.#current].element.scrollIntoView({ block: "nearest" });
  }

  #draw() {
    this.#cells = [];
    const rows = [h("div", { className: "ruler", ariaHidden: "true" }, h("span"), h("div", {}, ...[0, 4, 8, 12].map((n) => h("span", {}, `+${n}`))))];
    const begun = new Set();
    for (const run of runsOf(this.#struct, this.#unfolded)) {
      if (run.member !== undefined) rows.push(this.#folded(run));
      else for (let row = run.from; row < run.to; row++) rows.push(this.#row(row, begun));
    }
    if (this.#struct.runtimeSized) rows.push(this.#endlessRow());
    this.element.replaceChildren(...rows);
  }

  #row(row, begun) {
    const parts = piecesOfRow(this.#struct, row).map((piece) => this.#cell(piece, begun));
    return h("div", { className: "row" }, h("span", { className: "at" }, String(row * 16)), h("div", { className: "bytes" }, ...parts));
  }

  #cell(piece, begun) {
    const { members } = this.#struct, member = members.findLastIndex(({ offset }) => offset <= piece.from);
    const { column, span, step, isGap = false } = piece, isNew = !isGap && !begun.has(member);
    if (isNew) begun.add(member);
    const label = isGap ? (span >= 4 ? h("span", {}, String(piece.to - piece.from)) : "") : isNew ? piece.path : piece.path.slice(members[member].name.length);
    const kinds = [isGap && "gap", isNew && "starts", span < 4 && "small", step < span && "stepped"].filter(Boolean).join(" ");
    const ticks = step < span ? `;--step:calc((100% + 2px) * ${step / span})` : "";
    const element = h("i", { className: kinds, style: `grid-column:${column + 1}/span ${span};--hue:${hueOf(member)}${ticks}` }, label);
    element.dataset.cell = this.#cells.length;
    this.#cells.push({ element, piece, member });
    return element;
  }

  #folded({ from, to, member }) {
    const { name, type } = this.#struct.members[member], count = to - from, text = `⋮ ${number(count)} more rows of ${name}`;
    const unfold = () => {
      this.#unfolded.add(member);
      this.#draw();
      this.element.focus();
    };
    const inside = count <= UNFOLDED_ROWS ? h("button", { type: "button", onclick: unfold, title: type }, text) : h("span", { className: "mono" }, text);
    return h("div", { className: "row skipped" }, h("span", { className: "at" }, ""), inside);
  }

  #endlessRow() {
    const { members } = this.#struct, last = members.at(-1);
    const text = `${last.name}[1] …  every ${bytes(last.stride)}`;
    const element = h("i", { className: "more", style: `grid-column:1/span 16;--hue:${hueOf(members.length - 1)}` }, text);
    return h("div", { className: "row" }, h("span", { className: "at" }, "…"), h("div", { className: "bytes" }, element));
  }

  #show(at) {
    this.#current = at;
    const cell = this.#cells[at], member = cell ? cell.member : -1;
    this.mark(member);
    this.#onMember(member);
    if (!cell) return this.#tellPadding();
    for (const { element, piece } of this.#cells) element.classList.toggle("on", piece.from === cell.piece.from && piece.isGap === cell.piece.isGap);
    this.info.replaceChildren(...this.#told(cell));
  }

  #tellPadding() {
    const padding = paddingOf(this.#struct), whole = number(this.#struct.size);
    this.info.replaceChildren(padding === 0 ? "No padding. " : `${bytes(padding)} of ${whole} are padding. `,
      h("span", { className: "hint" }, "Point at a part, or move with the arrow keys."));
  }

  #told({ piece, member }) {
    const { name, type, offset, size, align, stride } = this.#struct.members[member], last = piece.to - 1;
    const span = last > piece.from ? `bytes ${piece.from}–${last}` : `byte ${last}`;
    if (piece.isGap) return [h("b", {}, `${bytes(piece.to - piece.from)} of padding`), ` behind ${piece.path}, ${span}`];
    if (piece.path === name) {
      return [h("b", {}, name), ": ", h("code", {}, type), `, offset ${offset}, size ${size}, alignment ${align}`, stride === null ? "" : `, stride ${stride}`, ` (${span})`];
    }
    return [h("b", {}, piece.path), ": ", h("code", {}, piece.type), `, offset ${piece.from}, size ${piece.to - piece.from} (${span}), in `, h("b", {}, name), ": ", h("code", {}, type)];
  }
}
