"""What is said of a record under a policy that isn't accepted. The judge speaks of accepted ones alone, so no entry of
such a history is judged, and no law is known of it. Two counts stand in the place of the verdict: of the bad rounds of
the record, and of those that there are where `waste` plays the record's trace.
"""

import tempfile
from collections import Counter, namedtuple
from pathlib import Path

from ask_ipanema import STOPPED, VERDICTS, WHOLE, ask
from judging import BLOCK, END, ENTER, STEAL, WAKE, WORK, convert, cut, end_of, outcome_of, read_record, totals_in

# The obligations that don't hold, the bad rounds of the record, what `waste` adds up, counts, and what was cut off.
Drafted = namedtuple("Drafted", "failing bad totals threads rounds entries cut record")


def failing(policy):
    """What `check` says of each obligation of the policy that doesn't hold. Of an accepted policy there is none."""
    lines = ask({WHOLE} | VERDICTS, "check", policy).decode("ascii").splitlines()
    return [line for line in lines[:-1] if not line.endswith(" holds")]


def moved(entry):
    """By how many threads each of two cores has more behind the entry."""
    if entry.kind in (ENTER, WAKE):
        return {entry.other: 1}
    if entry.kind == STEAL:
        return {entry.core: len(entry.threads), entry.other: -len(entry.threads)}
    ends = entry.kind == WORK and entry.threads and outcome_of(entry) in (BLOCK, END)
    return {entry.core: -1} if ends else {}


def bad_rounds(rounds, cores):
    """How many of the rounds begin with an idle core beside one with two threads or more."""
    threads, bad = Counter(), 0
    for one_round in rounds:
        counts = [threads[core] for core in range(cores)]
        bad += min(counts) == 0 and max(counts) >= 2
        for entry in one_round:
            threads.update(moved(entry))
    return bad


def look_at(policy, text, kept=None):
    """What is known of the record of a draft. Trace and history are left in the folder, if one is named."""
    record = read_record(text)
    with tempfile.TemporaryDirectory(prefix="judge.") as name:
        folder = Path(kept or name)
        threads, rounds, entries, why = convert(record, folder)
        totals = totals_in(ask((WHOLE, STOPPED), "waste", policy, folder / "trace"))
    bad = bad_rounds(cut(record)[0], record.cores)
    return Drafted(failing(policy), bad, totals, threads, rounds, entries, why, record)


def sentence(drafted):
    """What is said of it, in one line."""
    record = drafted.record
    counts = f"{drafted.threads} threads, {drafted.entries} of {len(record.entries)} entries, {end_of(record)}"
    told = [f"a draft, {', '.join(drafted.failing)}", f"recorded: bad {drafted.bad} of {drafted.rounds} rounds",
            f"waste of its trace: {drafted.totals}", counts]
    return "; ".join(told + [f"looked at before {drafted.cut}"] * bool(drafted.cut))
