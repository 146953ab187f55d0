// Steps through the entries of a history. What is shown at an entry is the cores behind it, the entry in words, and
// time.

import { add, shape } from "./elements.js";
import { History, countOf } from "./history.js";
import { bandsOf } from "./chips.js";
import { drawCores } from "./cores.js";
import { Lanes, MARKS } from "./lanes.js";

const LEGEND = [
  ["enter", "a thread enters"], ["wake", "a thread wakes"], ["work", "a unit of work"], ["nothing", "no thread to run"],
  ["steal", "steal, from victim to thief"], ["fail", "failed steal"], ["pass", "no victim found"],
];
const SAMPLE = { core: 1, target: 1, victim: 0, thread: "", threads: [""], outcome: "keep" };

function entryWords(entry) {
  return entry.kind === "illegal" ? `Not legal here, says the judge: "${entry.words}"` : entry.words;
}

// What the report says of a round as it begins with these cores. It counts idle cores only beside an overloaded one.
function openingWords(round, cores) {
  if (!round) return "";
  const begun = `, begun with spread ${round.spread} and idle ${round.idle}`;
  if (round.idle) return `${begun}: a bad round`;
  return cores.some((core) => countOf(core) === 0) ? `${begun}: no core was overloaded` : begun;
}

// How the boxes of so many cores are laid out.
export function layoutOf(cores) {
  if (cores <= 4) return "few";
  return cores <= 8 ? "some" : "many";
}

// Room for a mark of the legend. The two cores of a steal lie above each other, and the core of another mark in the
// middle.
function sampleLanes(kind) {
  const places = kind === "steal" || kind === "fail" ? [7, 27] : [17, 17];
  return { half: 6, y: (core) => places[core] };
}

export function drawLegend(parent) {
  for (const [kind, words] of LEGEND) {
    const item = add(parent, "span", "item");
    const picture = shape(item, "svg", { viewBox: "0 0 26 34", class: "lanes" });
    MARKS[kind](sampleLanes(kind), shape(picture, "g", { class: `mark ${kind}` }), 13, SAMPLE);
    add(item, "span", "", words);
  }
  add(parent, "span", "item fresh", "read: still so");
  add(parent, "span", "item stale", "stale read: changed since");
  add(parent, "span", "item eye", "a thief's look, before its attempt");
  const waits = add(parent, "span", "item waits");
  add(waits, "sup", "", "3");
  add(waits, "span", "", "units that a thread has waited");
}

export class Steps {
  // `parts` are the elements that are filled, by their names. `room` is how high the rows of time may be, all together,
  // and `moved` is told of each step.
  constructor(parts, facts, room, moved) {
    Object.assign(this, { parts, facts, moved, at: 0, history: new History(facts) });
    this.entries = this.history.entries;
    this.lanes = new Lanes(parts.lanes, parts.names, this.entries, facts.cores, room, bandsOf(facts.attributes));
    parts.cores.style.setProperty("--cores", facts.cores);
    this.drawList();
    this.keys = {
      ArrowRight: () => this.at + 1, ArrowLeft: () => this.at - 1, Home: () => 0, End: () => this.entries.length - 1,
    };
    parts.lanes.addEventListener("click", (event) => {
      const place = event.target.closest("[data-at]");
      if (place) this.show(Number(place.dataset.at));
    });
  }

  show(wanted) {
    this.at = Math.max(0, Math.min(wanted, this.entries.length - 1));
    this.tell();
    drawCores(this.parts.cores, this.history, this.at);
    this.markList();
    if (this.entries.length) {
      this.lanes.show(this.at, this.history.pendingLooks(this.at));
      this.lanes.follow(this.parts.lanes, this.at);
    }
    this.moved(this.at);
  }

  // Steps by a key, if it is one that steps.
  press(event) {
    if (!this.keys[event.key] || event.ctrlKey || event.altKey || event.metaKey) return;
    event.preventDefault();
    this.show(this.keys[event.key]());
  }

  // ---- the words

  tell() {
    const entry = this.entries[this.at];
    this.parts.place.textContent = entry ? this.placeWords() : "No entry";
    this.parts.sentence.textContent = entry ? entryWords(entry) : "The history is empty.";
    this.parts.cause.replaceChildren();
    if (!entry) return;
    if (Number.isInteger(entry.cause)) this.tellCause(entry.cause);
    if (entry.unexplained) this.tellNoCause();
    if (entry.kind === "illegal") this.tellIllegal(entry);
  }

  placeWords() {
    const round = this.history.rounds[this.at];
    const cores = this.history.stateAt(this.history.rounds.indexOf(round));
    const where = round ? ` · round ${round}${openingWords(this.history.roundAt(this.at), cores)}` : "";
    return `Entry ${this.at} of 0 to ${this.entries.length - 1}${where}`;
  }

  tellCause(cause) {
    add(this.parts.cause, "strong", "", `Entry ${cause} explains it`);
    add(this.parts.cause, "span", "", this.entries[cause].words);
    add(this.parts.cause, "small", "", "The first change of thief or victim since the look.");
  }

  tellNoCause() {
    add(this.parts.cause, "strong", "", "No entry explains it");
    add(this.parts.cause, "small", "", "Thief and victim are as they were seen: the policy's own rule is to blame.");
  }

  // What the program says of an entry that isn't legal, and an entry that it takes in that place.
  tellIllegal(entry) {
    add(this.parts.cause, "strong", "", `The program says: ${entry.says}`);
    const words = entry.instead ? "In its place, with the same looks, it takes:" : "What it takes in its place wasn't found.";
    add(this.parts.cause, "small", "", words);
    if (entry.instead) add(this.parts.cause, "code", "", entry.instead);
  }

  // ---- the list

  drawList() {
    this.entries.forEach((entry, at) => {
      const button = add(add(this.parts.entries, "li", entry.kind), "button");
      add(button, "span", "at", at);
      add(button, "span", "words", entryWords(entry));
      add(button, "code", "", entry.text).title = entry.text;
      button.addEventListener("click", () => this.show(at));
    });
    const more = this.facts.unjudged;
    if (more) add(this.parts.entries, "li", "rest", `Entries behind it: ${more}. They weren't judged.`);
  }

  markList() {
    this.parts.entries.querySelectorAll("button").forEach((button, position) => {
      if (position === this.at) button.setAttribute("aria-current", "step");
      else button.removeAttribute("aria-current");
    });
    const here = this.parts.entries.children[this.at];
    if (here) here.scrollIntoView({ block: "nearest" });
  }
}
