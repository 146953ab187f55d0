// Before and after: two policies on the same trace, with their idle cores by round, the cores at the end of a round,
// and both reports.

import { add, part } from "./elements.js";
import { Asker, Trouble, ask, linesOf } from "./ask.js";
import { drawCores } from "./cores.js";
import { History } from "./history.js";
import { TOTALS, played, wayFor } from "./played.js";
import { drawRounds, markRound } from "./rounds.js";
import { layoutOf } from "./steps.js";

const SIDES = ["before", "after"];

export function nameOf(policy) {
  const found = /^\s*(?:#.*\n\s*)*(?:policy|levels)\s+(\w+)/.exec(policy);
  return found ? found[1] : "no name";
}

export class Beside {
  // `policies` are those of the menus, and `values` gives the texts of the editors.
  constructor(policies, values) {
    Object.assign(this, { values, asker: new Asker(), before: null, round: Infinity, sides: [] });
    this.panel = part("beside");
    const line = add(this.panel, "p", "controls");
    this.menu = add(add(line, "label", "", "Before "), "select");
    this.menu.id = "before";
    this.menu.add(new Option("choose one", ""));
    policies.forEach((policy, at) => this.menu.add(new Option(policy.name, at)));
    this.menu.addEventListener("change", () => {
      if (this.menu.value !== "") this.compare(policies[Number(this.menu.value)].text);
    });
    this.drawSlider(add(line, "label", "slider", "End of round "));
    this.said = add(this.panel, "p", "said");
    this.said.setAttribute("role", "status");
    this.body = add(this.panel, "div", "both");
    this.table = add(this.panel, "table", "numbers reports");
    this.panel.addEventListener("keydown", (event) => this.press(event));
  }

  drawSlider(label) {
    this.slider = add(label, "input");
    this.slider.id = "round";
    Object.assign(this.slider, { type: "range", min: 1, max: 1, value: 1 });
    this.number = add(label, "b", "", "1");
    this.slider.addEventListener("input", () => this.turn(Number(this.slider.value)));
  }

  // Keeps the editor's policy as the one before.
  keep() {
    const { policy } = this.values();
    Object.assign(this.menu.options[0], { text: `kept: ${nameOf(policy)}`, selected: true });
    return this.compare(policy);
  }

  compare(policy) {
    this.before = policy;
    return this.update();
  }

  press(event) {
    const way = { ArrowRight: 1, ArrowLeft: -1 }[event.key];
    if (!way || event.target === this.slider || event.target.tagName === "SELECT") return;
    event.preventDefault();
    this.turn(Number(this.slider.value) + way);
  }

  async update() {
    const signal = this.asker.begin();
    if (this.before === null) {
      this.say("Choose a policy that stands before the editor's, or keep the editor's by “Keep as before”.");
      return;
    }
    const { policy, trace } = this.values();
    this.said.textContent = "playing ..";
    this.panel.classList.add("old");
    try {
      const both = [];
      for (const one of [this.before, policy]) both.push(await this.side(one, trace, signal));
      if (!signal.aborted) this.show(both);
    } catch (error) {
      if (!(error instanceof Trouble)) throw error;
      this.say(error.message);
    }
  }

  async side(policy, trace, signal) {
    const judged = await ask("check", { policy }, signal);
    const word = judged && linesOf(judged.output).at(-1);
    const came = judged && await played(wayFor("play", word), { policy, trace }, signal);
    return came && { ...came, word, policy, name: nameOf(policy) };
  }

  say(words) {
    this.panel.classList.remove("old");
    this.said.textContent = words;
    this.body.replaceChildren();
    this.table.replaceChildren();
    this.sides = [];
  }

  show(both) {
    this.say("");
    const most = Math.max(0, ...both.flatMap(({ rounds }) => rounds.map(({ idle }) => idle)));
    this.slider.max = Math.max(1, ...both.map(({ rounds }) => rounds.length));
    const mark = markOf(...both);
    this.sides = both.map((side, at) => this.drawSide(side, SIDES[at], at === 1 ? mark : "", most));
    this.drawTable(both, mark);
    this.turn(this.round);
  }

  drawSide(side, title, mark, most) {
    const box = add(this.body, "section", title);
    const head = add(box, "h3", "", `${title}: ${side.name} `);
    if (mark) add(head, "small", "", `${mark} `);
    add(head, "span", `word ${side.word}`, side.word);
    const rounds = add(box, "div", "by-round");
    drawRounds(rounds, side.rounds, most, (round) => this.turn(round));
    const cores = add(box, "div", "cores");
    const history = typeof side.facts === "object" ? new History({ ...side.facts, rounds: side.rounds }) : null;
    if (history) box.classList.add(layoutOf(history.facts.cores));
    else add(cores, "p", "plain", side.facts);
    return { rounds, cores, history };
  }

  // Shows the cores as they are where the round has ended.
  turn(wanted) {
    const round = Math.max(1, Math.min(wanted, Number(this.slider.max)));
    this.round = wanted > round ? Infinity : round;
    this.slider.value = round;
    this.number.textContent = round;
    for (const { rounds, cores, history } of this.sides) {
      markRound(rounds, round);
      if (history) drawCores(cores, history, history.endOf(round));
    }
  }

  drawTable(both, mark) {
    const head = add(this.table, "tr");
    add(head, "th", "", "");
    const names = both.map(({ name }, at) => add(head, "th", "", `${SIDES[at]}: ${name} `));
    if (mark) add(names[1], "small", "", mark);
    const row = add(this.table, "tr");
    add(row, "th", "", "verdict");
    both.forEach(({ word }) => add(row, "td", `word ${word}`, word));
    for (const [name, { words, means, isWaste }] of Object.entries(TOTALS)) {
      const line = add(this.table, "tr");
      add(line, "th", "", words).title = means;
      both.forEach(({ totals }) => add(line, "td", isWaste && totals[name] ? "bad" : "", totals[name]));
    }
  }
}

// What tells two policies of one name apart, or nothing where their names do.
function markOf(before, after) {
  if (before.name !== after.name) return "";
  return before.policy === after.policy ? "unchanged" : "changed";
}
