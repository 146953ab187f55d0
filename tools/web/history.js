// A history as `tools/history_facts.py` tells it: what the cores have behind each entry, the rounds, and the looks of
// thieves.

export function countOf(core) {
  return core.queue.length + (core.running === null ? 0 : 1);
}

function statesOf(steps, opening) {
  let state = opening;
  return steps.map((step) => {
    state = state.map((core, number) => step.changed[number] || core);
    return state;
  });
}

function roundsOf(all) {
  let round = 0;
  return all.map((entry) => {
    round = entry.kind === "round" ? entry.round : round;
    return round;
  });
}

// How many units of its core each thread has let pass behind each entry, since it last ran or came. A blocked thread
// doesn't wait.
function waitedOf(steps, states) {
  let waited = {};
  return steps.map((step, at) => {
    waited = { ...waited };
    if (step.kind === "work") states[at][step.core].queue.forEach((thread) => { waited[thread] += 1; });
    if (["enter", "wake", "work"].includes(step.kind)) waited[step.thread] = 0;
    return waited;
  });
}

// The attributes of each thread behind each entry, as far as they are told.
function numbersOf(steps, told) {
  let numbers = {};
  return steps.slice(0, told.length).map((step, at) => {
    numbers = told[at] ? { ...numbers, [step.thread]: told[at] } : numbers;
    return numbers;
  });
}

// Each attempt to steal, with what its thief read of the victim.
function looksOf(steps) {
  return steps.flatMap((step, at) => (step.reads || []).filter((read) => read.core === step.victim)
    .map((read) => ({ ...read, at, core: step.core, victim: step.victim })));
}

export class History {
  constructor(facts) {
    this.facts = facts;
    this.entries = facts.illegal ? [...facts.steps, facts.illegal] : facts.steps;
    this.opening = Array(facts.cores).fill({ running: null, queue: [], blocked: [] });
    this.states = statesOf(facts.steps, this.opening);
    this.rounds = roundsOf(this.entries);
    this.waited = waitedOf(facts.steps, this.states);
    this.numbers = numbersOf(facts.steps, facts.attributes.threads);
    this.looks = looksOf(facts.steps);
  }

  // The cores behind the entry. An illegal one leaves them as they were.
  stateAt(at) {
    return this.states[Math.min(at, this.states.length - 1)] || this.opening;
  }

  // How long the thread has waited behind the entry, in units of its core; nothing where it is blocked.
  waitedAt(at, thread) {
    const isBlocked = this.stateAt(at).some((core) => core.blocked.includes(thread));
    return isBlocked ? undefined : (this.waited[Math.min(at, this.waited.length - 1)] || {})[thread];
  }

  // The attributes of the thread behind the entry, or nothing.
  numbersAt(at, thread) {
    const told = Math.min(at, this.states.length - 1);
    return told < this.numbers.length ? this.numbers[told][thread] : undefined;
  }

  // What the report says of the round of the entry, where there is a report.
  roundAt(at) {
    return this.facts.rounds[this.rounds[at] - 1];
  }

  // The last entry of the round, or of the last round that there is.
  endOf(round) {
    return Math.max(0, this.rounds.findLastIndex((one) => one <= round));
  }

  // The looks behind the entry whose attempts are still to come, and how often the number that was seen has changed
  // since.
  pendingLooks(at) {
    const cores = this.stateAt(at);
    return this.looks.filter((look) => look.position <= at + 1 && at < look.at).map((look) => ({
      ...look, changes: look.changes.filter((change) => change <= at).length, now: countOf(cores[look.victim]),
    }));
  }

  // Whether a core without a thread is wasted: another one has several, as was so when the round began.
  isWasted(core, at) {
    const round = this.roundAt(at);
    const isBad = round !== undefined && round.idle > 0;
    return isBad && countOf(core) === 0 && this.stateAt(at).some((other) => countOf(other) > 1);
  }

  // The load of a core, with its running thread.
  loadOf(core) {
    const list = core.running === null ? core.queue : [core.running, ...core.queue];
    return list.reduce((sum, thread) => sum + this.facts.weights[thread], 0);
  }
}

// An eye is whole while what it saw is so, and fades with each change.
export function strength(look) {
  return Math.max(0.3, 0.6 ** look.changes);
}
