// Draws the threads of a core as chips: number, weight, and how long it has waited. Where the pointer rests on a chip, a
// card has the numbers that the policy gives its thread. And the colours of cores, by the first number that it gives them.

import { add } from "./elements.js";

const BANDS = ["#4477aa", "#ee8866", "#228833", "#aa3377", "#66ccee", "#bbaa33", "#777777", "#222255"];

// The numbers of a core with their names, as `node 1`.
export function ownWords(attributes, core) {
  return attributes.names.core.map((name, at) => `${name} ${attributes.cores[core][at]}`);
}

// A colour for each core, or nothing where the policy gives cores no numbers.
export function bandsOf(attributes) {
  if (!attributes.names.core.length) return null;
  const values = [...new Set(attributes.cores.map(([first]) => first))].sort((one, other) => one - other);
  return attributes.cores.map(([first]) => BANDS[values.indexOf(first) % BANDS.length]);
}

export function units(count) {
  return count === 1 ? "1 unit" : `${count} units`;
}

// The lines of a thread's card. `values` are those of its attributes, or nothing where they aren't known.
function cardLines(thread, weight, waited, names, values) {
  const own = values ? names.map((name, at) => `${name} ${values[at]}`) : [];
  return [`thread ${thread}`, `weight ${weight}`, ...own, waited === undefined ? "" : `has waited ${units(waited)}`];
}

export function drawChip(line, thread, isMoved, history, at) {
  const chip = add(line, "b", isMoved ? "moved" : "", thread);
  const [weight, waited] = [history.facts.weights[thread], history.waitedAt(at, thread)];
  chip.dataset.thread = thread;
  chip.tabIndex = 0;
  if (weight !== 1) add(chip, "sub", "", `w${weight}`);
  if (waited) add(chip, "sup", "", waited);
  const card = add(chip, "span", "card");
  cardLines(thread, weight, waited, history.facts.attributes.names.thread, history.numbersAt(at, thread))
    .filter(Boolean).forEach((words) => add(card, "span", "", words));
}
