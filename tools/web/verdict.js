// The verdict beside the policy: asked for once the keys have rested, with a line for each obligation and what it asks.

import { add, part } from "./elements.js";
import { Asker, Trouble, ask, faultIn, linesOf, saidWords } from "./ask.js";

const REST = 300;
const NAME = /^(B\d|H\d\.\w+) (holds|fails|undecided)$/;

export class Verdict {
  // `asks` has what each obligation asks. `told` is called with each new verdict, and `chosen` with an obligation that
  // is looked at, what `explain` wrote of it, and whether it was pressed.
  constructor(editor, asks, told, chosen) {
    Object.assign(this, { editor, asks, told, chosen, asker: new Asker(), timer: 0, explained: new Map() });
    this.word = "";
  }

  // The keys have moved: what stands there is of an older text.
  touch() {
    clearTimeout(this.timer);
    this.asker.begin();
    part("policy").classList.add("old");
    this.timer = setTimeout(() => this.judge(), REST);
  }

  async judge() {
    clearTimeout(this.timer);
    const signal = this.asker.begin();
    const policy = this.editor.text;
    part("policy").classList.add("old");
    try {
      const answer = await ask("check", { policy }, signal);
      if (answer) await this.show(answer, policy, signal);
    } catch (error) {
      if (!(error instanceof Trouble)) throw error;
      this.showTrouble(error.message);
    }
  }

  // Shows the lines of `check`. Then each failing obligation is asked for its point.
  async show(answer, policy, signal) {
    this.explained.clear();
    const lines = linesOf(answer.output).map((line) => NAME.exec(line)).filter(Boolean);
    this.word = lines.length ? linesOf(answer.output).at(-1) : "";
    this.showAnswer(answer);
    this.drawLines(lines);
    const fails = lines.filter(([, , word]) => word === "fails").map(([, name]) => name);
    this.told({ word: this.word, fails, fault: faultIn(answer.said) });
    for (const name of fails) {
      this.explained.set(name, await this.explain(policy, name, signal));
      if (signal.aborted) return;
      if (name === fails[0]) this.choose(name, false);
    }
  }

  // The line of `explain`, or a sentence that says why there is none.
  async explain(policy, name, signal) {
    try {
      const answer = await ask("explain", { policy, name }, signal);
      return answer && linesOf(answer.output)[0];
    } catch (error) {
      if (!(error instanceof Trouble)) throw error;
      return error.message;
    }
  }

  showAnswer(answer) {
    const fault = faultIn(answer.said);
    part("policy").classList.remove("old");
    part("policy").dataset.word = this.word || "fault";
    part("answer").textContent = this.word || linesOf(answer.output)[0] || "no answer";
    part("fault").textContent = fault ? `Line ${fault.line}: ${fault.words}` : this.word ? "" : saidWords(answer.said);
    this.editor.mark(fault && fault.kind === "policy" ? fault : null);
    if (!this.word) part("asks").textContent = "";
  }

  showTrouble(words) {
    part("policy").classList.remove("old");
    part("policy").dataset.word = "fault";
    this.word = "";
    part("answer").textContent = "no answer";
    part("fault").textContent = words;
    this.drawLines([]);
    this.told({ word: "", fails: [], fault: null });
  }

  drawLines(lines) {
    part("obligations").replaceChildren();
    for (const [line, name, word] of lines) {
      const button = add(part("obligations"), "button", word);
      add(button, "b", "", name);
      add(button, "span", "", ` ${word}`);
      Object.assign(button, { type: "button", title: line });
      button.dataset.name = name;
      button.addEventListener("click", () => this.choose(name, true));
    }
    part("asks").textContent = "";
  }

  // Says what the obligation asks. Where it fails, its point is drawn.
  choose(name, isPressed) {
    for (const button of part("obligations").children) {
      button.setAttribute("aria-pressed", button.dataset.name === name);
    }
    const [kind, event] = name.split(".");
    part("asks").textContent = `${name}: ${event ? this.asks[kind].replace(" e.", ` ${event}.`) : this.asks[kind]}`;
    this.chosen(name, this.explained.get(name), isPressed);
  }
}
