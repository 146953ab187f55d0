// Draws a failing obligation: the numbers of its point as two cores with their threads, and the scene read aloud.

import { add, part, threads } from "./elements.js";
import { attributesOf, numbersIn, sceneOf } from "./scene.js";

const MOST_DRAWN = 8;
const LETTERS = "ABCDEFGHIJKLMNOPQRSTUVWXYZ";
const TITLES = { self: "self, the thief", victim: "victim" };

export class Point {
  // `seek` makes a trace that shows the obligation at work.
  constructor(seek) {
    this.panel = part("point");
    this.seek = seek;
  }

  say(words) {
    this.panel.replaceChildren();
    add(this.panel, "p", "plain", words);
  }

  // Draws what `explain` wrote of the obligation.
  show(name, line) {
    const numbers = numbersIn(line);
    this.panel.replaceChildren();
    add(this.panel, "code", "told", line);
    add(this.panel, "p", "aloud", sceneOf(name, numbers));
    if (name.startsWith("B")) this.drawCores(name, numbers);
    this.drawNumbers(numbers);
    if (name.startsWith("B")) {
      const button = add(this.panel, "button", "", "Make the smallest trace that shows it");
      button.addEventListener("click", () => this.seek(name));
    }
  }

  // Under B1 the thief is wasted: it stays idle.
  drawCores(name, numbers) {
    const pair = add(this.panel, "div", "cores pair");
    pair.style.setProperty("--cores", 2);
    let first = 0;
    for (const side of ["self", "victim"]) {
      const count = numbers[`${side}.nr`];
      const card = drawSide(pair, numbers, side, count, first);
      card.classList.toggle("wasted", name === "B1" && side === "self");
      first += count;
    }
  }

  // A row for each name, and a column for each of `self`, `victim` and `t` that has numbers.
  drawNumbers(numbers) {
    if (!Object.keys(numbers).length) {
      add(this.panel, "p", "plain", "There are no numbers to tell: it fails always.");
      return;
    }
    const pairs = Object.keys(numbers).map((name) => name.split("."));
    const [owners, names] = [0, 1].map((place) => [...new Set(pairs.map((pair) => pair[place]))]);
    const table = add(this.panel, "table", "numbers");
    const head = add(table, "tr");
    ["", ...owners].forEach((owner) => add(head, "th", "", owner));
    for (const name of names) {
      const row = add(table, "tr");
      add(row, "th", "", name);
      owners.forEach((owner) => add(row, "td", "", numbers[`${owner}.${name}`] ?? ""));
    }
  }
}

// A core of the point: its first thread runs, and the others wait.
function drawSide(parent, numbers, side, count, first) {
  const card = add(parent, "div", "core");
  card.dataset.side = side;
  const head = add(card, "div", "head");
  add(head, "span", "title", TITLES[side]);
  add(head, "span", "load", count === 0 ? "idle" : `${threads(count)}, load ${numbers[`${side}.load`]}`);
  drawLine(card, "runs", first, Math.min(count, 1));
  drawLine(card, "waits", first + 1, count - 1);
  attributesOf(numbers, side).forEach(([name, value]) => add(card, "span", "attribute", `${name} ${value}`));
  return card;
}

function drawLine(card, kind, first, count) {
  const line = add(card, "div", kind === "runs" ? "runs" : "queue");
  add(line, "span", "what", kind);
  const drawn = Math.min(count, MOST_DRAWN);
  for (let number = 0; number < drawn; number++) add(line, "b", "", letterOf(first + number));
  if (count > drawn) add(line, "span", "rest", `and ${count - drawn} more`);
  if (count <= 0) add(line, "i", "", "none");
}

// A name for each thread: A to Z, then A1 to Z1.
function letterOf(number) {
  const turn = Math.floor(number / LETTERS.length);
  return LETTERS[number % LETTERS.length] + (turn || "");
}
