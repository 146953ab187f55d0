// What happens: a trace is played under the policy, and shown as numbers, as idle cores by round, and step by step.

import { add, part } from "./elements.js";
import { Asker, Trouble } from "./ask.js";
import { TOTALS, WAYS, historyOf, played, wayFor } from "./played.js";
import { drawRounds, markRound } from "./rounds.js";
import { Steps, drawLegend, layoutOf } from "./steps.js";

const PARTS = ["place", "sentence", "cause", "cores", "names", "lanes", "legend", "entries"];
const BUTTONS = [
  ["Home", "|◀", "first entry"], ["ArrowLeft", "◀", "back"],
  ["ArrowRight", "▶", "next"], ["End", "▶|", "last entry"],
];
const STOPPED = " It stopped before the round that might not fit the trace's limit of entries.";
const LANES_ROOM = 88;

export class Happens {
  // `values` gives the texts, and `faulted` is told of a fault of the trace, or of none.
  constructor(values, faulted) {
    Object.assign(this, { values, faulted, asker: new Asker(), word: "", steps: null, last: null });
    this.panel = part("happens");
    this.drawControls();
    this.said = add(this.panel, "p", "said");
    this.said.setAttribute("role", "status");
    this.totals = add(this.panel, "p", "totals");
    this.rounds = add(this.panel, "div", "by-round");
    this.body = add(this.panel, "div", "steps");
    this.lines = add(this.panel, "details", "lines");
    add(this.lines, "summary", "", "The program's lines");
    showsAll(this.lines);
    this.report = add(this.lines, "pre");
    this.panel.addEventListener("keydown", (event) => {
      if (this.steps && !/^(INPUT|SELECT|TEXTAREA)$/.test(event.target.tagName)) this.steps.press(event);
    });
  }

  drawControls() {
    const line = add(this.panel, "p", "controls");
    const label = add(line, "label", "", "How ");
    this.way = add(label, "select");
    this.way.id = "way";
    for (const [name, { words }] of Object.entries(WAYS)) this.way.add(new Option(words, name));
    this.workers = add(add(line, "label", "workers", "workers "), "input");
    Object.assign(this.workers, { type: "number", min: 1, max: 64, value: 2 });
    this.way.addEventListener("change", () => {
      this.wanted = this.way.value;
      this.play();
    });
    this.workers.addEventListener("input", () => this.play());
    const again = add(line, "button", "main", "Play");
    again.id = "play";
    again.addEventListener("click", () => this.play());
    this.wanted = "play";
    this.steer = add(line, "span", "steer");
    for (const [key, sign, words] of BUTTONS) {
      const button = add(this.steer, "button", "", sign);
      button.setAttribute("aria-label", words);
      button.dataset.key = key;
      button.addEventListener("click", () => this.steps && this.steps.show(this.steps.keys[key]()));
    }
  }

  // A new verdict: some ways are closed by it.
  judge(word) {
    this.word = word;
    for (const option of this.way.options) option.disabled = WAYS[option.value].wantsAccepted && word !== "accepted";
    this.way.value = wayFor(this.wanted, word);
    this.workers.parentNode.hidden = this.way.value !== "crew";
  }

  wayValues() {
    return { ...this.values(), workers: Number(this.workers.value) || 1 };
  }

  // Plays, and shows what comes of it.
  async play() {
    this.judge(this.word);
    await this.act(async (signal) => {
      this.said.textContent = "playing ..";
      this.panel.classList.add("old");
      const values = this.wayValues();
      const came = await played(this.way.value, values, signal);
      if (came) this.show({ ...values, ...came });
    });
  }

  // Plays only to see whether the trace can be played.
  async look() {
    await this.act((signal) => historyOf(this.way.value, this.wayValues(), signal));
  }

  async act(doing) {
    const signal = this.asker.begin();
    if (!this.word) {
      this.showTrouble("The policy has a fault, so nothing is played.");
      return;
    }
    try {
      await doing(signal);
      if (!signal.aborted) this.faulted(null);
    } catch (error) {
      if (!(error instanceof Trouble)) throw error;
      this.faulted(error.fault || null);
      this.showTrouble(error.message);
    }
  }

  showTrouble(words) {
    this.panel.classList.remove("old");
    this.last = null;
    this.steps = null;
    this.said.textContent = words;
    [this.totals, this.rounds, this.body].forEach((box) => box.replaceChildren());
    this.rounds.hidden = true;
    this.report.textContent = "";
  }

  show(came) {
    this.panel.classList.remove("old");
    this.last = came;
    const words = typeof came.facts === "object" ? capital(came.facts.verdict) : came.facts;
    this.said.textContent = came.history.isStopped ? words + STOPPED : words;
    drawTotals(this.totals, came.totals);
    this.rounds.hidden = came.rounds.length === 0;
    this.report.textContent = came.lines.join("\n");
    const most = Math.max(0, ...came.rounds.map((round) => round.idle));
    drawRounds(this.rounds, came.rounds, most, (round) => {
      if (this.steps) this.steps.show(this.steps.history.rounds.indexOf(round));
      this.panel.focus();
    });
    this.body.replaceChildren();
    this.steps = null;
    if (typeof came.facts === "object") this.drawSteps({ ...came.facts, rounds: came.rounds });
  }

  // Goes on where it was, so that a changed policy is seen at the same entry.
  drawSteps(facts) {
    const parts = {};
    for (const name of PARTS) {
      parts[name] = document.createElement(name === "entries" ? "ol" : "div");
      parts[name].id = name;
    }
    parts.cores.className = "cores";
    this.body.className = `steps ${layoutOf(facts.cores)}`;
    const told = add(this.body, "div", "told");
    told.append(parts.place, parts.sentence, parts.cause);
    const time = document.createElement("div");
    time.id = "time";
    time.append(parts.names, parts.lanes);
    const more = document.createElement("details");
    add(more, "summary", "", "What the marks mean, and all entries");
    more.append(parts.legend, parts.entries);
    showsAll(more);
    this.body.append(parts.cores, time, more);
    drawLegend(parts.legend);
    const at = Number(this.panel.dataset.at || 0);
    this.steps = new Steps(parts, facts, LANES_ROOM, (now) => this.moved(now));
    this.steps.show(at);
  }

  moved(at) {
    this.panel.dataset.at = at;
    if (this.steps) markRound(this.rounds, this.steps.history.rounds[at]);
  }
}

function drawTotals(parent, totals) {
  parent.replaceChildren();
  for (const [name, count] of Object.entries(totals)) {
    const { means, isWaste } = TOTALS[name];
    const item = add(parent, "span", isWaste && count ? "total bad" : "total");
    item.title = means;
    add(item, "b", "", count);
    add(item, "span", "", ` ${name}`);
  }
}

// What opens is scrolled into view.
function showsAll(details) {
  details.addEventListener("toggle", () => details.open && details.scrollIntoView({ block: "nearest" }));
}

function capital(words) {
  return words[0].toUpperCase() + words.slice(1);
}
