// A form for those who don't know the format of traces: cores, rounds, and a row for each thread with its bursts of
// work.

import { add } from "./elements.js";
import { KINDS, formOf, oneMore, textOf } from "./trace_text.js";

const MOST_BURSTS = 16;
const MOST_ROWS = 100;
const LIMITS = {
  cores: [1, 64], rounds: [0, 4096], round: [1, 4096], weight: [1, 1048575], units: [1, 1048575], block: [1, 4096],
};

export class TraceForm {
  // `changed` is told the new text.
  constructor(parent, changed) {
    this.box = add(parent, "div", "form");
    this.changed = changed;
    this.form = null;
  }

  // Shows the text. While a field of the form is used, it stands as it is.
  read(text) {
    if (this.form && typeof this.form === "object" && textOf(this.form) === text) return;
    this.form = formOf(text);
    this.draw();
  }

  write(isRedrawn) {
    this.changed(textOf(this.form));
    if (isRedrawn) this.draw();
  }

  draw() {
    this.box.replaceChildren();
    if (typeof this.form !== "object") {
      add(this.box, "p", "plain", `The form has no place for line ${this.form} of the text.`);
      return;
    }
    const count = this.form.threads.length;
    if (count > MOST_ROWS) {
      add(this.box, "p", "plain", `The form takes at most ${MOST_ROWS} threads, and the text has ${count}.`);
      return;
    }
    const head = add(this.box, "p", "fields");
    this.number(head, "cores", this.form, "cores", LIMITS.cores);
    this.number(head, "rounds", this.form, "rounds", LIMITS.rounds);
    this.form.threads.forEach((thread, at) => this.drawThread(thread, at));
    this.button(this.box, "Add a thread", () => this.form.threads.push(oneMore(this.form)));
    if (this.form.others.length) add(this.box, "p", "plain", "Other lines of the text are kept as they are.");
  }

  drawThread(thread, at) {
    const row = add(this.box, "fieldset", "fields");
    add(row, "legend", "", `thread ${thread.number}`);
    this.number(row, "core", thread, "core", [0, this.form.cores - 1]);
    this.number(row, "round", thread, "round", LIMITS.round);
    if (thread.weight !== null) this.number(row, "weight", thread, "weight", LIMITS.weight);
    thread.bursts.forEach((burst, place) => this.drawBurst(row, thread, burst, place));
    if (thread.weight === null) this.button(row, "Weight", () => { thread.weight = 1; });
    const remove = this.button(row, "Remove", () => this.form.threads.splice(at, 1));
    remove.setAttribute("aria-label", `Remove thread ${thread.number}`);
  }

  drawBurst(row, thread, burst, place) {
    const part = add(row, "span", "burst");
    add(part, "span", "", place === 0 ? "runs" : "and runs");
    if (burst.kind !== "forever") this.number(part, "", burst, "units", LIMITS.units, "units");
    const select = add(part, "select");
    select.setAttribute("aria-label", "and then");
    for (const [kind, words] of Object.entries(KINDS)) select.add(new Option(words, kind, false, kind === burst.kind));
    select.addEventListener("change", () => this.turn(thread, burst, place, select.value));
    if (burst.kind === "block") this.number(part, "", burst, "rounds", LIMITS.block, "rounds");
    if (burst.kind === "block") add(part, "span", "", "rounds");
  }

  // Behind a last burst nothing follows, and behind another one a last burst does.
  turn(thread, burst, place, kind) {
    burst.kind = kind;
    const isLast = kind === "end" || kind === "forever";
    if (isLast || thread.bursts.length > MOST_BURSTS) thread.bursts.length = place + 1;
    else if (place + 1 === thread.bursts.length) thread.bursts.push({ kind: "end", units: 1, rounds: 1 });
    this.write(true);
  }

  number(parent, words, owner, name, [least, most], label) {
    const field = add(parent, "label", "", words ? `${words} ` : "");
    const input = add(field, "input");
    Object.assign(input, { type: "number", min: least, max: most, value: owner[name] });
    if (label) input.setAttribute("aria-label", label);
    input.addEventListener("input", () => {
      if (!/^\d+$/.test(input.value)) return;
      owner[name] = Number(input.value);
      this.write(false);
    });
  }

  button(parent, words, act) {
    const button = add(parent, "button", "", words);
    button.type = "button";
    button.addEventListener("click", () => {
      act();
      this.write(true);
    });
    return button;
  }
}
