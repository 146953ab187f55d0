// The text of a trace as the rows of a form, and back. What the form has no field for is kept as it is.

export const KINDS = { forever: "for ever", end: "then ends", yield: "then gives way", block: "then blocks for" };
const FOREVER = { kind: "forever", units: 1, rounds: 1 };
const THREAD = /^\s*thread\s+(\d+)\s+core\s+(\d+)\s+round\s+(\d+)(?:\s+weight\s+(\d+))?((?:\s+\S+)+)\s*$/;

// The bursts of a program, or null where it isn't one: each with its kind, its units, and the rounds of its block.
export function burstsIn(program) {
  const words = program.trim().split(/\s+/);
  const bursts = [];
  while (words.length) {
    const burst = burstAt(words);
    if (!burst) return null;
    bursts.push(burst);
    const isLast = burst.kind === "end" || burst.kind === "forever";
    if (isLast !== (words.length === 0)) return null;
  }
  return bursts;
}

function burstAt(words) {
  const first = words.shift();
  if (first === "forever") return { ...FOREVER };
  const units = Number(words.shift());
  if (first !== "run" || !Number.isInteger(units)) return null;
  if (words[0] !== "yield" && words[0] !== "block") return { kind: "end", units, rounds: 1 };
  const kind = words.shift();
  const rounds = kind === "block" ? Number(words.shift()) : 1;
  return Number.isInteger(rounds) ? { kind, units, rounds } : null;
}

function programOf(bursts) {
  const words = {
    forever: () => "forever", end: ({ units }) => `run ${units}`, yield: ({ units }) => `run ${units} yield`,
    block: ({ units, rounds }) => `run ${units} block ${rounds}`,
  };
  return bursts.map((burst) => words[burst.kind](burst)).join(" ");
}

function threadIn(line) {
  const found = THREAD.exec(line);
  const bursts = found && burstsIn(found[5]);
  if (!bursts) return null;
  const [number, core, round, weight] = found.slice(1, 5).map((word) => (word === undefined ? null : Number(word)));
  return { number, core, round, weight, bursts };
}

// The form of a text, or the number of the line that it has no place for.
export function formOf(text) {
  const form = { cores: null, rounds: null, threads: [], others: [] };
  for (const [at, line] of text.split("\n").entries()) {
    const head = /^\s*(cores|rounds)\s+(\d+)\s*$/.exec(line);
    if (head && form[head[1]] === null) form[head[1]] = Number(head[2]);
    else if (threadIn(line)) form.threads.push(threadIn(line));
    else if (/^\s*thread\b/.test(line) || head) return at + 1;
    else if (line.trim()) form.others.push(line.trimEnd());
  }
  return form.cores === null || form.rounds === null ? text.split("\n").length : form;
}

function lineOf({ number, core, round, weight, bursts }) {
  const weighs = weight === null ? "" : ` weight ${weight}`;
  return `thread ${number} core ${core} round ${round}${weighs} ${programOf(bursts)}`;
}

// The text of a form. Comments, constants of cores and orders stand between the rounds and the threads.
export function textOf(form) {
  const lines = [`cores ${form.cores}`, `rounds ${form.rounds}`, ...form.others, ...form.threads.map(lineOf)];
  return lines.map((line) => `${line}\n`).join("");
}

// One more thread, as the last one is, with the least number that is free.
export function oneMore(form) {
  const taken = new Set(form.threads.map((thread) => thread.number));
  let number = 1;
  while (taken.has(number)) number++;
  const last = form.threads.at(-1) || { core: 0, round: 1, weight: null, bursts: [FOREVER] };
  return { ...structuredClone(last), number };
}
