// Reads a point aloud: numbers at which an obligation fails, as a scene in words. The numbers and the verdict are the
// program's.

import { threads } from "./elements.js";

const EVENTS = {
  enqueue: "A thread comes or wakes", tick: "A thread has run for a unit of time", yield: "A thread gives way",
  block: "A thread blocks",
};
const SIDES = ["self", "victim"];
const COUNTS = ["nr", "load", "weight"];
const RULES = {
  H1: "Two rules apply to it, and there may be only one.",
  H2: "No rule applies to it, so nothing says what becomes of it.",
};

// The numbers of a line such as `B1 fails self.nr=0 victim.nr=2`, by their names.
export function numbersIn(line) {
  return Object.fromEntries([...line.matchAll(/(\S+)=(-?\d+)/g)].map(([, name, value]) => [name, Number(value)]));
}

// What a side has beside its threads and its load: the attributes that the policy gives.
export function attributesOf(numbers, side) {
  return Object.entries(numbers).map(([name, value]) => [...name.split("."), value])
    .filter(([owner, name]) => owner === side && !COUNTS.includes(name)).map(([, name, value]) => [name, value]);
}

function listed(pairs) {
  return pairs.map(([name, value]) => `${name} ${value}`).join(" and ");
}

// The sentence on attributes of the two cores, or nothing.
function attributeWords(numbers) {
  const [own, other] = SIDES.map((side) => listed(attributesOf(numbers, side)));
  if (own && other) return ` The thief has ${own}, and the victim ${other}.`;
  if (own) return ` The thief has ${own}.`;
  return other ? ` The victim has ${other}.` : "";
}

// What a core has: its threads, and its load where that is another number.
function has(numbers, side) {
  const [count, load] = [numbers[`${side}.nr`], numbers[`${side}.load`]];
  if (count === 0) return "without a thread";
  return count === load ? `with ${threads(count)}` : `with ${threads(count)} and the load ${load}`;
}

function meeting(numbers) {
  return `A core ${has(numbers, "self")} meets a core ${has(numbers, "victim")}`;
}

function waiting(count) {
  return count - 1 === 1 ? "one waits" : `${count - 1} wait`;
}

function ofB1(numbers) {
  return `${meeting(numbers)}, and there ${waiting(numbers["victim.nr"])}.${attributeWords(numbers)}`
    + ` The filter is false here. So the idle core may not steal, and stays idle.`;
}

function ofB2(numbers) {
  const isThere = numbers["victim.nr"] > 0;
  const loses = isThere ? "So that core may lose its last thread." : "There is nothing that could move.";
  return `${meeting(numbers)}.${attributeWords(numbers)} The filter is true here. ${loses}`;
}

// How the loads stand before the move of a thread, and after it.
function moveWords(numbers) {
  const [own, other, weight] = [numbers["self.load"], numbers["victim.load"], numbers["t.weight"] ?? 1];
  return `The stolen thread weighs ${weight}. Before the move the loads are ${own} and ${other}, and behind it`
    + ` ${own + weight} and ${other - weight}. So the gap gets no narrower, and the thread may go to and fro.`;
}

function ofB3(numbers) {
  return `${meeting(numbers)}.${attributeWords(numbers)} The filter is true here. ${moveWords(numbers)}`;
}

function ofB4(numbers) {
  const [own, other] = SIDES.map((side) => has(numbers, side));
  return `A thief has taken a thread. Now it is a core ${own}, and its victim one ${other}.${attributeWords(numbers)}`
    + ` The steal goes on to one more. ${moveWords(numbers)}`;
}

function ofHandler(name, numbers) {
  const [kind, event] = name.split(".");
  const own = attributesOf(numbers, "t").filter(([word]) => word !== "fresh");
  if ("t.weight" in numbers) own.unshift(["weight", numbers["t.weight"]]);
  const words = own.length ? ` It has ${listed(own)}.` : "";
  const fresh = "t.fresh" in numbers ? ` It ${numbers["t.fresh"] ? "enters just now" : "was there before"}.` : "";
  const core = listed(attributesOf(numbers, "self"));
  return `${EVENTS[event]}.${words}${fresh}${core ? ` Its core has ${core}.` : ""} ${RULES[kind]}`;
}

export function sceneOf(name, numbers) {
  const forms = { B1: ofB1, B2: ofB2, B3: ofB3, B4: ofB4 };
  return forms[name] ? forms[name](numbers) : ofHandler(name, numbers);
}
