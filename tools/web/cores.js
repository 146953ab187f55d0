// Draws the cores behind an entry of a history: a box for each, with its threads, and what thieves saw of it.

import { bandsOf, drawChip, ownWords } from "./chips.js";
import { add, threads } from "./elements.js";
import { countOf, strength } from "./history.js";

const ROLES = {
  enter: { core: "lets in", target: "gets it" }, wake: { core: "wakes it", target: "gets it" },
  work: { core: "runs" }, nothing: { core: "has nothing" }, pass: { core: "looks" },
  steal: { core: "thief", victim: "victim" }, fail: { core: "thief", victim: "victim" }, round: {}, illegal: { core: "acts" },
};

export function drawCores(parent, history, at) {
  const entry = history.entries[at] || { kind: "round" };
  const pending = history.pendingLooks(at);
  const bands = bandsOf(history.facts.attributes);
  parent.replaceChildren();
  history.stateAt(at).forEach((core, number) => {
    const card = drawCore(parent, history, core, number, entry, at);
    if (bands) {
      card.classList.add("banded");
      card.style.setProperty("--band", bands[number]);
    }
    pending.filter((look) => look.victim === number).forEach((look) => drawEye(card, look));
  });
}

function drawCore(parent, history, core, number, entry, at) {
  const wasted = history.isWasted(core, at);
  const roles = Object.entries(ROLES[entry.kind]).filter(([name]) => entry[name] === number);
  const card = add(parent, "div", `core${roles.length ? " acts" : ""}${wasted ? " wasted" : ""}`);
  card.dataset.core = number;
  const head = add(card, "div", "head");
  add(head, "span", "title", `core ${number}`);
  roles.slice(0, 1).forEach(([, words]) => add(head, "span", "role", words));
  add(head, "span", "load", wasted ? "idle, and a thread waits" : loadWord(core));
  const line = drawThreads(card, "runs", core.running === null ? [] : [core.running], history, at);
  if (countOf(core)) add(line, "span", "weighs", `load ${history.loadOf(core)}`);
  const own = ownWords(history.facts.attributes, number);
  const queue = drawThreads(card, "queue", core.queue, history, at);
  if (own.length) add(queue, "span", "own", own.join(" · "));
  if (core.blocked.length) drawThreads(card, "blocked", core.blocked, history, at);
  const read = (entry.reads || []).find((one) => one.core === number);
  if (read) drawSight(card, read);
  return card;
}

function loadWord(core) {
  const count = countOf(core);
  if (count === 0) return "idle";
  return count > 1 ? "overloaded" : "";
}

function drawThreads(card, kind, list, history, at) {
  const line = add(card, "div", kind);
  const entry = history.entries[at] || {};
  const moved = entry.threads || [entry.thread];
  add(line, "span", "what", kind);
  list.forEach((thread) => drawChip(line, thread, moved.includes(thread), history, at));
  if (!list.length) add(line, "i", "", "none");
  return line;
}

// What a thief saw of this core, who will try to steal from it later.
function drawEye(card, look) {
  const now = look.changes ? `, now ${look.now}` : "";
  const eye = add(card, "div", look.changes ? "eye faded" : "eye", `core ${look.core} saw ${look.saw}${now}`);
  eye.style.opacity = strength(look);
}

function drawSight(card, read) {
  const stale = read.by !== null;
  const words = stale ? `stale: saw ${read.saw}, now ${read.now}, since entry ${read.by}` : `saw ${threads(read.saw)}`;
  add(card, "div", stale ? "sight stale" : "sight fresh", words);
}
