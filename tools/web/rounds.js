// Draws idle cores and spread by round, as the report says them: a bar for each round, orange where it is bad.

import { add, shape } from "./elements.js";

const HEIGHT = 56;
const FOOT = 20;
const MOST_DRAWN = 400;

// `chosen` is told the round of a bar that is clicked. `most` is how many idle cores the highest bar has.
export function drawRounds(parent, rounds, most, chosen) {
  parent.replaceChildren();
  const few = rounds.slice(0, MOST_DRAWN);
  const wide = Math.max(2, Math.min(46, (parent.clientWidth - 16) / Math.max(few.length, 1)));
  const size = { width: wide * few.length + 4, height: HEIGHT + FOOT };
  const picture = shape(parent, "svg", { ...size, class: "rounds", role: "img" });
  picture.setAttribute("aria-label", `idle cores in ${rounds.length} rounds`);
  few.forEach((round, at) => drawBar(picture, round, 2 + at * wide, wide, most, chosen));
  if (rounds.length > MOST_DRAWN) add(parent, "p", "plain", `The picture has the first ${MOST_DRAWN} rounds.`);
}

function drawBar(picture, { round, spread, idle }, x, wide, most, chosen) {
  const high = most ? (idle / most) * (HEIGHT - 18) : 0;
  const bar = shape(picture, "g", { class: idle ? "bar bad" : "bar" });
  bar.dataset.round = round;
  shape(bar, "title", {}, `round ${round}: ${idle} idle beside an overloaded core, spread ${spread}`);
  shape(bar, "rect", { x, y: 0, width: wide, height: HEIGHT + FOOT, class: "back" });
  shape(bar, "rect", { x: x + 1, y: HEIGHT - high - 2, width: Math.max(1, wide - 2), height: high + 2, class: "idle" });
  if (wide >= 16) shape(bar, "text", { x: x + wide / 2, y: HEIGHT + 15, class: "number" }, round);
  if (wide >= 16 && idle) shape(bar, "text", { x: x + wide / 2, y: HEIGHT - high - 6, class: "number" }, idle);
  if (chosen) bar.addEventListener("click", () => chosen(round));
}

// Marks the bar of the round at hand.
export function markRound(parent, round) {
  for (const bar of parent.querySelectorAll(".bar")) bar.classList.toggle("now", Number(bar.dataset.round) === round);
}
