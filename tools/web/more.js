// What else the program says of the policy: each of its other commands, its output, and files to be kept.

import { add, part } from "./elements.js";
import { Asker, Trouble, ask, saidWords } from "./ask.js";
import { nameOf } from "./beside.js";

const SHOWN_ELSEWHERE = ["check", "explain", "play", "run", "simulate", "waste"];
const ENDINGS = { emit: "h", draft: "h", prove: "certs" };
const MOST_SHOWN = 100000;

export class More {
  // `commands` are those that the program's help names. `values` gives the texts, and `history` what was played last.
  constructor(commands, values, history) {
    Object.assign(this, { values, history, asker: new Asker() });
    const list = add(part("more"), "div", "commands");
    for (const [name, { words, does }] of Object.entries(commands)) {
      const isOfTexts = words.every((word) => word === "POLICY" || word === "TRACE");
      if (isOfTexts && !SHOWN_ELSEWHERE.includes(name)) this.drawButton(list, name, does, () => this.run(name));
    }
    this.drawButton(list, "save", "keep the policy and the trace as files", () => this.save());
    this.drawButton(list, "perfetto", "write what was played last for ui.perfetto.dev", () => this.perfetto());
    this.said = add(part("more"), "p", "said");
    this.said.setAttribute("role", "status");
    this.links = add(part("more"), "p", "links");
    this.output = add(part("more"), "pre", "output");
    this.clear();
  }

  drawButton(list, name, does, act) {
    const row = add(list, "p");
    const button = add(row, "button", "", name);
    button.dataset.command = name;
    button.addEventListener("click", () => this.act(act));
    add(row, "span", "", does);
  }

  clear() {
    this.said.textContent = "";
    this.output.textContent = "";
    for (const link of this.links.children) URL.revokeObjectURL(link.href);
    this.links.replaceChildren();
  }

  async act(doing) {
    this.clear();
    this.said.textContent = "…";
    try {
      await doing();
    } catch (error) {
      if (!(error instanceof Trouble)) throw error;
      this.said.textContent = error.message;
    }
  }

  async run(name) {
    const answer = await ask(name, this.values(), this.asker.begin());
    if (!answer) return;
    this.said.textContent = answer.said ? saidWords(answer.said) : `ipanema ${name} ends with status ${answer.status}.`;
    const rest = answer.output.length - MOST_SHOWN;
    this.output.textContent = answer.output.slice(0, MOST_SHOWN) + (rest > 0 ? `\n.. and ${rest} signs more` : "");
    if (answer.status === 0 && ENDINGS[name]) this.offer(answer.output, ENDINGS[name]);
  }

  async save() {
    const { policy, trace } = this.values();
    this.said.textContent = "";
    this.offer(policy, "policy");
    this.offer(trace, "trace");
  }

  async perfetto() {
    const last = this.history();
    if (!last || last.way === "simulate") throw new Trouble("Nothing was played under an accepted policy.");
    const texts = { policy: last.policy, trace: last.trace, history: last.history.text };
    const answer = await ask("perfetto", texts, this.asker.begin());
    if (!answer) return;
    if (answer.status !== 0) throw new Trouble(saidWords(answer.said));
    this.said.textContent = "The file can be opened at ui.perfetto.dev.";
    this.offer(answer.output, "json");
  }

  // A file of that text, to be kept.
  offer(text, ending) {
    const link = add(this.links, "a", "download");
    link.href = URL.createObjectURL(new Blob([text], { type: "text/plain" }));
    link.download = `${nameOf(this.values().policy).replace(/\W+/g, "_")}.${ending}`;
    link.textContent = `Download ${link.download}`;
  }
}
