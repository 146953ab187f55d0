"""Makes a trace and a history of a record, and asks the judge.

The trace says what the threads turned out to do: which core let each of them in and in which round, how many units each
burst had, how many rounds it slept. Rounds at the end in which nothing is left to be done are cut off, and so is all
that the formats have no room for.
"""

import tempfile
from collections import defaultdict, namedtuple
from pathlib import Path

from ask_ipanema import ask, judge
from common import Refused, keep

ROUND, ENTER, WAKE, WORK, STEAL, FAIL, PASS, DEPARTURE = range(8)
KEEP, QUEUE, BLOCK, END = range(1, 5)
OUTCOMES = {KEEP: "keep", QUEUE: "queue", BLOCK: "block", END: "end"}
AFTER_YIELD = 8                 # added to the outcome of a unit that ended with a yield
ATTEMPTS = (STEAL, FAIL, PASS)
MOST_BURSTS, MOST_ENTRIES = 16, 65536
REPORTED = ("steals", "fails", "bad", "wasted")

Entry = namedtuple("Entry", "at kind round core other outcome weight nanoseconds threads reads")
# How the run ended, its counters, the constants of cores, and whether threads are placed.
Record = namedtuple("Record", "cores placed constants entries departed counters how")
# The verdict's line, the report's totals, what was cut off and why, and counts.
Judged = namedtuple("Judged", "verdict totals threads rounds kept recorded cut record")


class Thread:
    """What became of one thread so far. A trace has no 0, so where a wrong scheduler would need one there is a 1: then
    the judge finds it."""

    def __init__(self, entry):
        self.core, self.begun, self.weight = entry.core, entry.round, max(entry.weight, 1)
        self.bursts, self.units, self.slept_in, self.ended = [], 0, None, False

    def add_unit(self, entry):
        if self.ended:
            return
        self.units += 1
        outcome = outcome_of(entry)
        if entry.outcome & AFTER_YIELD:
            self.bursts.append(f"run {max(self.units, 1)} yield")
            self.units = 0
        elif outcome == BLOCK:
            self.slept_in = entry.round
        elif outcome == END:
            self.bursts.append(f"run {max(self.units, 1)}")
            self.ended = True

    def wake(self, number):
        if self.ended:
            return
        self.bursts.append(f"run {max(self.units, 1)} block {max(number - (self.slept_in or number), 1)}")
        self.units, self.slept_in = 0, None

    def program(self, rounds):
        """Its bursts, as a trace has them. What it does behind the last round isn't known."""
        if self.ended:
            return self.bursts
        if self.slept_in is not None:
            return [*self.bursts, f"run {max(self.units, 1)} block {rounds - self.slept_in + 1}", "forever"]
        return [*self.bursts, "forever"]


def outcome_of(entry):
    return entry.outcome & (AFTER_YIELD - 1)


def read_entry(line):
    head, reads = line.split(" :")
    numbers, threads = head.split(" t")
    entry = Entry(*map(int, numbers.split()), list(map(int, threads.split())), list(map(int, reads.split())))
    names_thread = entry.kind in (ENTER, WAKE, STEAL, DEPARTURE)
    ends_unit = entry.kind == WORK and entry.threads
    if names_thread and not entry.threads or ends_unit and outcome_of(entry) not in OUTCOMES:
        raise ValueError(line)
    if not 0 <= entry.kind <= DEPARTURE:
        raise ValueError(line)
    return entry


def read_record(text):
    """The record, which has to be whole."""
    lines = text.splitlines()
    head = lines[0].split() if lines else []
    if len(head) != 8 or head[:3] != ["record", "1", "cores"] or not head[3].isdigit():
        raise Refused("this isn't a record of tools/kernel")
    constants, entries, counters, how = [], [], {}, ""
    for number, line in enumerate(lines[1:], 2):
        words = line.split()
        try:
            if words[0] == "core":
                constants.append(line)
            elif words[0] == "run":
                how = line[4:]
            elif words[0][0].isalpha():
                counters[words[0]] = float(words[1])
            else:
                entries.append(read_entry(line))
        except (ValueError, IndexError, TypeError) as error:
            raise Refused(f"the record's line {number} isn't one") from error
    if not lines[-1].startswith("end "):
        raise Refused("the record isn't whole: its last line is missing")
    if lines[-1] != f"end {len(entries)}":
        raise Refused(f"the record isn't whole: it has {len(entries)} entries, and its last line counts others")
    departed = min((entry.round for entry in entries if entry.kind == DEPARTURE), default=None)
    history = sorted(entry for entry in entries if entry.kind != DEPARTURE)
    if [entry.at for entry in history] != list(range(len(history))):
        raise Refused("entries of the record are lost, or are there twice")
    if history and history[0].kind != ROUND:
        raise Refused("the record's first entry is no round")
    return Record(int(head[3]), head[5] == "1", constants, history, departed, counters, how)


def rounds_of(entries):
    rounds = []
    for entry in entries:
        if entry.kind == ROUND:
            rounds.append([])
        rounds[-1].append(entry)
    return rounds


def is_complete(one_round, cores):
    return sum(entry.kind in ATTEMPTS for entry in one_round) >= cores


def moves_someone(one_round):
    return any(entry.kind in (ENTER, WAKE) or entry.threads and entry.kind in (WORK, STEAL) for entry in one_round)


def bursts_end(rounds):
    """How many rounds have no thread with more bursts than a trace takes, and which thread is the first that has."""
    bursts = defaultdict(int)
    for at, one_round in enumerate(rounds):
        for entry in one_round:
            if entry.kind == WAKE or entry.kind == WORK and entry.outcome & AFTER_YIELD:
                bursts[entry.threads[0]] += 1
                if bursts[entry.threads[0]] > MOST_BURSTS - 2:
                    return at, entry.threads[0]
    return len(rounds), None


def ends_within_a_round(rounds, cores):
    """Whether the record ended in the middle of a round. Where the one before it isn't complete, the judge has to see
    that.
    """
    return bool(rounds) and not is_complete(rounds[-1], cores) and (len(rounds) < 2 or is_complete(rounds[-2], cores))


def cut(record):
    """The rounds that are judged, and why not all are."""
    rounds, why = rounds_of(record.entries), ""
    if ends_within_a_round(rounds, record.cores):
        rounds.pop()
    if record.departed is not None:
        rounds, why = rounds[:max(record.departed - 1, 0)], f"a departure in round {record.departed}"
    length, thread = bursts_end(rounds)
    if thread is not None:
        rounds, why = rounds[:length], f"thread {thread} has more bursts than a trace takes, from round {length + 1} on"
    while len(rounds) > 1 and is_complete(rounds[-1], record.cores) and not moves_someone(rounds[-1]):
        rounds.pop()
    while sum(map(len, rounds)) > MOST_ENTRIES:
        rounds, why = rounds[:-1], "a history has at most 65536 entries"
    return rounds, why


def history_line(entry, placed):
    reads = " :" + "".join(f" {read}" for read in entry.reads)
    names = " ".join(map(str, entry.threads))
    if entry.kind == ROUND:
        return f"round {entry.round}"
    if entry.kind in (ENTER, WAKE):
        word = "enter" if entry.kind == ENTER else "wake"
        return f"{word} {names} {entry.core} {entry.other}{reads if placed else ''}"
    if entry.kind == WORK:
        return f"work {entry.core} " + (f"{names} {OUTCOMES[outcome_of(entry)]}" if names else "-")
    if entry.kind == STEAL:
        return f"steal {entry.core} {entry.other} {names}{reads}"
    return (f"fail {entry.core} {entry.other}" if entry.kind == FAIL else f"pass {entry.core}") + reads


def threads_of(entries):
    threads = {}
    for entry in entries:
        if entry.kind in (ENTER, WAKE) or entry.kind == WORK and entry.threads:
            thread = threads.setdefault(entry.threads[0], Thread(entry))
            if entry.kind == WAKE:
                thread.wake(entry.round)
            elif entry.kind == WORK:
                thread.add_unit(entry)
    return threads


def trace_lines(record, threads, rounds):
    yield from [f"cores {record.cores}", f"rounds {rounds}", f"entries {MOST_ENTRIES}", *record.constants]
    for number, thread in threads.items():
        program = " ".join(thread.program(rounds))
        yield f"thread {number} core {thread.core} round {thread.begun} weight {thread.weight} {program}"


def write_files(folder, texts):
    """Writes these files into the folder, which is made where it isn't there. Each is there whole, or none is."""
    try:
        folder.mkdir(parents=True, exist_ok=True)
    except OSError as error:
        raise Refused(f"{folder} can't be made: {error.strerror}") from error
    keep({str(folder / name): text.encode() for name, text in texts.items()})


def convert(record, folder):
    """Writes trace and history, and gives their counts and what was cut off."""
    rounds, why = cut(record)
    entries = [entry for one_round in rounds for entry in one_round]
    threads = threads_of(entries)
    lines = [f"history 2 cores {record.cores}", *(history_line(entry, record.placed) for entry in entries)]
    parts = {"trace": trace_lines(record, threads, len(rounds)), "history": lines}
    write_files(folder, {name: "\n".join([*part, ""]) for name, part in parts.items()})
    return len(threads), len(rounds), len(entries), why


def totals_of(policy, folder):
    """What the report adds up."""
    return totals_in(ask((0,), "report", policy, folder / "trace", folder / "history"))


def totals_in(report):
    """The totals of a report, or of what `waste` writes."""
    lines = report.decode("ascii").splitlines()
    return " ".join(line for line in lines if line.split(" ")[0] in REPORTED and len(line.split(" ")) == 2)


def judge_record(policy, text, kept=None):
    """The judge's verdict on a record. Trace and history are left in the folder, if one is named."""
    record = read_record(text)
    with tempfile.TemporaryDirectory(prefix="judge.") as name:
        folder = Path(kept or name)
        counts = convert(record, folder)
        verdict = judge(policy, folder / "trace", folder / "history")
        totals = totals_of(policy, folder) if verdict.word == "whole" else ""
    return Judged(verdict, totals, *counts[:3], len(record.entries), counts[3], record)


def sentence(judged):
    """What is said of a record, in one line."""
    counts = f"{judged.threads} threads, {judged.rounds} rounds, {judged.kept} of {judged.recorded} entries"
    told = [judged.verdict.line, judged.totals or "no totals", f"{counts}, {end_of(judged.record)}"]
    return "; ".join(told + [f"judged before {judged.cut}"] * bool(judged.cut))


def end_of(record):
    """The counters of a record, and how its run ended."""
    counters = ", ".join(f"{name} {int(record.counters.get(name, 0))}" for name in ("departures", "lost", "beside"))
    return f"{counters}; run {record.how} after {record.counters.get('took', 0):.3f} s"


def faults(judged):
    """Why a run isn't a good one: what the verdict, the run's end or its counters say."""
    verdict = [] if judged.verdict.word == "whole" else [judged.verdict.line]
    return verdict + faults_of_run(judged.record)


def faults_of_run(record):
    """What the run's end or its counters say."""
    found = []
    if record.how != "ended":
        found.append(f"the run was {record.how}")
    if record.counters.get("exit") != 64:
        found.append(f"exit kind {int(record.counters.get('exit', 0))}")
    if record.counters.get("lost"):
        found.append(f"{int(record.counters['lost'])} entries are lost")
    return found
