// An editor with line numbers, colours and a marked fault. The browser's own field takes the keys, so that undo,
// selection and the keyboard are what they are elsewhere. Its letters are clear, and the coloured ones lie behind them.

import { add } from "./elements.js";
import { Language, isColoured, lengthAt, placeOf, withFault } from "./colours.js";

const PLAIN = { spellcheck: "false", autocapitalize: "off", autocomplete: "off" };

export class Editor {
  // `rules` are the patterns of the language, and `changed` is told of each change.
  constructor(parent, label, rules, changed) {
    this.language = new Language(rules);
    this.fault = null;
    this.box = add(parent, "div", "editor");
    const sheet = add(this.box, "div", "sheet");
    this.layer = add(sheet, "div", "layer");
    this.layer.setAttribute("aria-hidden", "true");
    this.area = add(sheet, "textarea", "typed");
    this.area.setAttribute("aria-label", label);
    for (const [name, value] of Object.entries(PLAIN)) this.area.setAttribute(name, value);
    this.area.addEventListener("input", () => {
      this.fault = null;
      this.paint();
      changed();
    });
    this.paint();
  }

  get text() {
    return this.area.value;
  }

  // Replaces the text. It is put in as if it were typed, so that it can be undone, unless the editor isn't in sight.
  set(text) {
    if (text === this.text) return;
    const focused = document.activeElement;
    this.area.focus({ preventScroll: true });
    this.area.select();
    const canType = document.activeElement === this.area && isColoured(text);
    if (!canType || !document.execCommand(text === "" ? "delete" : "insertText", false, text)) {
      this.area.value = text;
      this.area.dispatchEvent(new Event("input"));
    }
    this.area.setSelectionRange(0, 0);
    this.box.scrollTop = 0;
    if (focused && focused !== this.area) focused.focus({ preventScroll: true });
  }

  // Marks the fault at a line and a column, both from 1, or none.
  mark(fault) {
    this.fault = fault;
    this.paint();
    const line = fault && this.layer.children[fault.line - 1];
    if (line) line.scrollIntoView({ block: "nearest" });
  }

  paint() {
    this.area.toggleAttribute("aria-invalid", this.fault !== null);
    if (!isColoured(this.text)) {
      this.layer.textContent = this.text;
      return;
    }
    this.layer.replaceChildren(...this.text.split("\n").map((line, number) => this.painted(line, number + 1)));
  }

  painted(line, number) {
    const row = document.createElement("div");
    row.className = "line";
    let pieces = this.language.piecesOf(line);
    if (this.fault && this.fault.line === number) {
      row.classList.add("wrong");
      const place = placeOf(line, this.fault.column);
      pieces = withFault(pieces, place, lengthAt(line, place));
    }
    pieces.forEach(({ kind, text }) => add(row, "span", kind, text));
    return row;
  }
}
