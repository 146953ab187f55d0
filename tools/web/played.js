// What comes of a trace under a policy: its history, the numbers of its report, and the steps where they are few enough
// to be shown.

import { Trouble, ask, faultIn, linesOf, saidWords } from "./ask.js";

// The ways of playing a trace. Those that want an accepted policy say so.
export const WAYS = {
  play: { words: "play: core after core", wantsAccepted: true },
  run: { words: "run: all cores at once", wantsAccepted: true },
  crew: { words: "crew: by so many workers", wantsAccepted: true },
  simulate: { words: "simulate: also if refused", wantsAccepted: false },
};
// The totals of a report: how they are called here, and what they mean.
export const TOTALS = {
  bad: { words: "bad rounds", means: "rounds that begin with a core idle beside an overloaded one", isWaste: true },
  wasted: { words: "wasted", means: "the idle cores of all bad rounds, added up", isWaste: true },
  steals: { words: "steals", means: "steals that moved a thread" },
  fails: { words: "fails", means: "steals that failed" },
  rounds: { words: "rounds", means: "rounds that were played" },
  entries: { words: "entries", means: "lines of the history" },
};
const MOST_STEPS = 600;
const WHOLE = 0;
const STOPPED = 8;

// A trace that can't be played. `fault` is its place, where the program tells one.
export class NotPlayed extends Trouble {
  constructor(answer) {
    super(saidWords(answer.said) || linesOf(answer.output).at(-1) || `the program ended with status ${answer.status}`);
    this.fault = faultIn(answer.said);
    if (this.fault) this.message = `${this.fault.kind}, line ${this.fault.line}: ${this.fault.words}`;
  }
}

// The way that is taken: the one that is wanted, if the verdict allows it.
export function wayFor(wanted, word) {
  return WAYS[wanted].wantsAccepted && word !== "accepted" ? "simulate" : wanted;
}

function entriesIn(history) {
  return linesOf(history).length - 1;
}

async function require(command, values, statuses, signal) {
  const answer = await ask(command, values, signal);
  if (answer && !statuses.includes(answer.status)) throw new NotPlayed(answer);
  return answer;
}

// The numbers of a report: its rounds, its totals, and its lines but for those of the rounds.
export function numbersOf(output) {
  const lines = linesOf(output);
  const rounds = lines.map((line) => /^round (\d+) spread (\d+) idle (\d+)$/.exec(line)).filter(Boolean)
    .map(([, round, spread, idle]) => ({ round: Number(round), spread: Number(spread), idle: Number(idle) }));
  const totals = Object.fromEntries(lines.map((line) => /^(\w+) (\d+)$/.exec(line)).filter(Boolean)
    .map(([, name, count]) => [name, Number(count)]));
  return { rounds, totals, lines: lines.slice(rounds.length) };
}

// Plays the trace, and returns its history with how it ended; or null where the signal came first.
export async function historyOf(way, values, signal) {
  const answer = await require(way, values, [WHOLE, STOPPED], signal);
  return answer && { text: answer.output, isStopped: answer.status === STOPPED };
}

// All that is shown of it.
export async function played(way, values, signal) {
  const history = await historyOf(way, values, signal);
  if (!history) return null;
  const numbers = await reportOf(way, values, history, signal);
  if (!numbers) return null;
  const facts = await stepsOf(way, values, history, signal);
  return facts && { way, history, ...numbersOf(numbers.output), facts };
}

// The report on it. `waste` has that of what is played core after core, also where it stopped. Of another history that
// stopped there is none.
async function reportOf(way, values, history, signal) {
  if (way === "play" || way === "simulate") return require("waste", values, [WHOLE, STOPPED], signal);
  if (history.isStopped) return { output: "" };
  return require("report", { ...values, history: history.text }, [WHOLE], signal);
}

// The steps of a history that isn't too long, or a sentence that says why there are none.
async function stepsOf(way, values, history, signal) {
  const entries = entriesIn(history.text);
  if (entries > MOST_STEPS) return `The history has ${entries} entries, and at most ${MOST_STEPS} are shown in steps.`;
  const texts = way === "simulate" ? values : { ...values, history: history.text };
  const answer = await ask("steps", texts, signal);
  if (!answer) return null;
  return answer.status === WHOLE ? JSON.parse(answer.output) : saidWords(answer.said);
}
