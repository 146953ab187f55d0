"""The numbers that a policy gives cores and threads, followed along a history, for the pages that step through it.

No history has them: what they are follows from the policy's rules and the trace. They are computed here, as docs/MODEL.md says
("What an event does"), by the reader of tools/whole_policy.py, which has no code of the program. An entry must put its thread where
the rules do. Should one not, nothing is told of threads from there on.
"""

import operator

from ask_ipanema import cores_in, words_in
from common import LONGEST, read_file
from whole_policy import WholePolicy, apart

COMPARISONS = {"==": operator.eq, "!=": operator.ne, "<": operator.lt, "<=": operator.le, ">": operator.gt, ">=": operator.ge}
OWN, THREAD = apart.ATTRIBUTES["self"], apart.ATTRIBUTES["t"]


def value_of(form, values):
    return sum(factor * (1 if at is None else values[at]) for at, factor in form.items())


def holds(condition, values):
    kind = condition[0]
    if kind == "always":
        return True
    if kind == "not":
        return not holds(condition[1], values)
    if kind in ("and", "or"):
        return (all if kind == "and" else any)(holds(part, values) for part in condition[1:])
    return COMPARISONS[kind](value_of(condition[1], values), value_of(condition[2], values))


def events_of(words):
    """The events that a thread meets by its line of the trace, one for each unit; the last ends it, or is met for ever."""
    program, events = words[8:] if "weight" in words else words[6:], []
    while program:
        if program[0] == "forever":
            return events + [("tick", None)]
        events.append(("tick", int(program[1]) - 1))
        last = program[2] if len(program) > 2 else "end"
        events.append((last, 1))
        program = program[{"yield": 3, "block": 4, "end": 2}[last]:]
    return events


class Thread:
    """A thread of the trace: its weight, its attributes, and the events that its units are still to meet."""

    def __init__(self, weight, values, events):
        self.weight, self.values, self.events = weight, values, [list(event) for event in events]

    def meeting(self):
        """The event of the unit that it has just run."""
        while self.events[0][1] == 0:
            self.events.pop(0)
        name, left = self.events[0]
        if left is not None:
            self.events[0][1] -= 1
        return name


class Attributes:
    """The attributes of cores, and of threads as the history goes on."""

    def __init__(self, policy, trace):
        self.policy = WholePolicy(read_file(policy, LONGEST["policy"]).decode("latin-1"))
        self.names = self.policy.attributes
        lines = words_in(trace)
        given = {(int(words[1]), name): int(value) for words in lines if words[0] == "core"
                 for name, value in zip(words[2::2], words[3::2])}
        starts = list(zip(self.names["core"], self.policy.starts["core"]))
        self.cores = [[given.get((core, name), start) for name, start in starts] for core in range(cores_in(trace))]
        weights = self.policy.weights != (1, 1)
        self.threads = {int(words[1]): Thread(int(words[7]) if weights and "weight" in words else 1, list(self.policy.starts["thread"]),
                                              events_of(words)) for words in lines if words[0] == "thread"}

    def after(self, line):
        """The attributes that a legal entry leaves its thread, or None where it meets no event. KeyError: another rule was played."""
        values = line.values
        if line.kind in ("enter", "wake"):
            return self.meet("enqueue", values["thread"], values["target"], line.kind == "enter", "queue")
        if line.kind != "work":
            return None
        event = self.threads[values["thread"]].meeting()
        return None if event == "end" else self.meet(event, values["thread"], values["core"], False, values["outcome"])

    def meet(self, event, number, core, is_fresh, put):
        thread = self.threads[number]
        seen = {apart.WEIGHT: thread.weight, apart.FRESH: int(is_fresh)}
        seen.update({OWN + at: value for at, value in enumerate(self.cores[core])})
        seen.update({THREAD + at: value for at, value in enumerate(thread.values)})
        holding = [case for case in self.policy.handlers[event] if holds(case[0], seen)]
        if [case[2] for case in holding] != [put]:
            raise KeyError(event)
        for at, form in holding[0][1]:
            least, greatest = self.policy.ranges[THREAD + at]
            seen[THREAD + at] = max(least, min(value_of(form, seen), greatest))
        thread.values = [seen[THREAD + at] for at in range(len(thread.values))]
        return thread.values


def told(policy, trace, lines):
    """What a page is told: the names of attributes, those of each core, and of each legal entry those that its thread has behind it."""
    attributes = Attributes(policy, trace)
    found = []
    try:
        for line in lines:
            found.append(attributes.after(line))
    except (KeyError, IndexError):
        pass
    return {"names": attributes.names, "cores": attributes.cores, "threads": found if attributes.names["thread"] else []}
