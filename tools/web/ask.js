// Asks the workbench's server. It runs the program on the texts, and gives its status, its output, and what was said
// beside.

export class Trouble extends Error {}

async function answerOf(response) {
  const told = await response.json();
  if (!response.ok) throw new Trouble(told.error);
  return told;
}

// What the page is told once.
export async function readTexts() {
  return answerOf(await fetch("texts"));
}

// The answer of a command, or null where the signal has ended the request.
export async function ask(command, values, signal) {
  const headers = { "Content-Type": "application/json" };
  const request = { method: "POST", headers, body: JSON.stringify(values), signal };
  try {
    const answer = await answerOf(await fetch(command, request));
    return signal.aborted ? null : answer;
  } catch (error) {
    if (error.name === "AbortError") return null;
    if (error instanceof Trouble) throw error;
    throw new Trouble("the workbench doesn't answer; has it been ended?");
  }
}

// Asks one thing after the other. What is asked later ends what was asked before, so an older answer never follows a
// newer one.
export class Asker {
  constructor() {
    this.control = new AbortController();
  }

  // Ends what is going on, and returns the signal of what begins.
  begin() {
    this.control.abort();
    this.control = new AbortController();
    return this.control.signal;
  }
}

// A line of the output, without its end.
export function linesOf(text) {
  return text.split("\n").filter((line) => line !== "");
}

// Where a fault is, as the program's front says it: the text's kind, line and column, and a sentence. Or null.
export function faultIn(said) {
  const found = /^(policy|trace|history):(\d+):(?:(\d+):)? (.*)$/m.exec(said);
  return found && { kind: found[1], line: Number(found[2]), column: Number(found[3] || 1), words: found[4] };
}

// What was said, without the names of the program and of the files.
export function saidWords(said) {
  const line = linesOf(said)[0] || "";
  return line.replace(/^(ipanema|tools\/[\w.]+): /, "").replace(/^(policy|trace|history): /, "the $1: ");
}
