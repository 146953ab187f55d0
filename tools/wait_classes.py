#!/usr/bin/env python3
"""Tells without the program how long threads wait under an accepted policy, by the policy's text: what `ipanema waits` writes of it.

    tools/wait_classes.py POLICY ..     of each policy these lines. Whether it is accepted isn't asked

It was written from docs/MODEL.md ("How long a thread waits"), docs/COMMANDS.md ("`waits POLICY`") and the definitions in `specs/` of
`wait_classes`. It has no code of the program. Rules are read by tools/whole_policy.py, and expressions kept as they stand: the class
of a policy goes by how its text is written. Where no class applies, one core is played on three traces.
"""

import sys

sys.dont_write_bytecode = True
from attributes import COMPARISONS, OWN, THREAD, holds, value_of
from common import LONGEST, read_file, run, say, write
from history_rules import best
from whole_policy import WholePolicy, apart

CLASS, FOREVER, UNKNOWN = 0, 1, 3
ROUNDS, FIRST = 200, 101


class Form(dict):
    """The linear form of an expression, and how it stands there: a number, ("at", variable), or a sign with what stands on both
    sides. Nothing, where it is a product or has a sign before it."""

    def __init__(self, form, tree):
        super().__init__(form)
        self.tree = tree


class SpelledPolicy(WholePolicy):
    """A policy of which each expression is kept as it stands."""

    def expression(self):
        value = self.term()
        while self.peek() in ("+", "-"):
            sign, other = self.next(), self.term()
            form = apart.plus(value, other if sign == "+" else apart.scaled(-1, other))
            value = Form(form, (sign, value.tree, other.tree))
        return value

    def term(self):
        value = super().term()
        return value if isinstance(value, Form) else Form(value, None)

    def factor(self):
        has_sign, value = self.peek() == "-", super().factor()
        (at, number), = value.items()
        return Form(value, None if has_sign else number if at is None else ("at", at))


# ---- what a case says of an attribute. `at` is the attribute's variable


def known(at, value, tree):
    """The value of an expression where the attribute has that value, if it is a number or the attribute alone."""
    return value if tree == ("at", at) else tree if isinstance(tree, int) else None


def never(at, value, outcome, guard):
    """Whether the condition can't have that outcome where the attribute has that value, as far as comparisons with numbers tell."""
    kind, *parts = guard
    if kind == "always":
        return not outcome
    if kind == "not":
        return never(at, value, not outcome, parts[0])
    if kind in ("and", "or"):
        return (any if (kind == "and") == outcome else all)(never(at, value, outcome, part) for part in parts)
    left, right = (known(at, value, part.tree) for part in parts)
    return left is not None and right is not None and COMPARISONS[kind](left, right) != outcome


def is_positive(tree):
    return tree == ("at", apart.WEIGHT) or isinstance(tree, int) and tree > 0


def moves(at, sign, end, tree):
    """Whether an assignment of that value moves the attribute by that sign, or leaves it at that end of its range."""
    if isinstance(tree, int):
        return tree <= end if sign == "-" else tree >= end
    return tree is not None and tree[0] == sign and tree[1] == ("at", at) and is_positive(tree[2])


def is_moved(at, sign, end, sets):
    """Whether there are assignments to the attribute, and each moves it so."""
    found = [form.tree for place, form in sets if THREAD + place == at]
    return bool(found) and all(moves(at, sign, end, tree) for tree in found)


# ---- the class


def falls(at, low, case):
    """Whether the case, if it keeps its thread, lowers the attribute, whose lower end this is."""
    guard, sets, put = case
    return put != "keep" or never(at, low, True, guard) and is_moved(at, "-", low, sets)


def rises(at, high, case):
    """Whether the case queues its thread and raises the attribute, whose upper end this is, or leaves it there."""
    _, sets, put = case
    return put == "queue" and is_moved(at, "+", high, sets)


def class_of(policy):
    """The class of a policy: ("queue",), ("slices", how often in a row it keeps a thread), ("least", the attribute's name), or ()."""
    cases = [case for event in ("tick", "yield") for case in policy.handlers[event]]
    spans = policy.spans("thread")
    if not policy.elect:
        if all(put == "queue" for _, _, put in cases):
            return ("queue",)
        kept = (high - low for at, (_, low, high) in enumerate(spans) if all(falls(THREAD + at, low, case) for case in cases))
        return next((("slices", keeps) for keeps in kept), ())
    for at, (name, _, high) in enumerate(spans):
        if len(policy.elect) == 1 and policy.elect[0][0] == "min" and policy.elect[0][1].tree == ("at", THREAD + at):
            return ("least", name) if all(rises(THREAD + at, high, case) for case in cases) else ()
    return ()


# ---- a play of one core, whose threads come in the first round and run for ever


class OneCore:
    """A core with these threads, each with its number, its weight and its attributes. As each round begins one runs, or none does."""

    def __init__(self, policy, weights):
        self.policy, self.running, self.queue = policy, None, []
        for number, weight in enumerate(weights, 1):
            self.meet("enqueue", (number, weight, tuple(policy.starts["thread"])), 1)

    def seen(self, thread, fresh=0):
        """What a handler and an order see of the thread."""
        seen = {apart.WEIGHT: thread[1], apart.FRESH: fresh}
        seen.update(enumerate(self.policy.starts["core"], OWN))
        seen.update(enumerate(thread[2], THREAD))
        return seen

    def meet(self, event, thread, fresh=0):
        seen = self.seen(thread, fresh)
        _, sets, put = next(case for case in self.policy.handlers[event] if holds(case[0], seen))
        for place, form in sets:
            low, high = self.policy.ranges[THREAD + place]
            seen[THREAD + place] = max(low, min(value_of(form, seen), high))
        thread = (*thread[:2], tuple(seen[THREAD + place] for place in range(len(thread[2]))))
        if put == "keep":
            self.running = thread
        else:
            self.queue.append(thread)

    def run_unit(self):
        """Runs a unit, and tells which thread it was of."""
        thread, self.running = self.running or best(self.queue, self.policy.elect, self.seen), None
        if thread in self.queue:
            self.queue.remove(thread)
        self.meet("tick", thread)
        return thread[0]

    def state(self):
        return self.running, tuple(self.queue)


def starved(policy, weights):
    """The first thread that waits as round FIRST begins and runs in no round before the first later one that begins alike, and that
    round. None where no round up to the last begins alike, or where each that waits runs."""
    core, ran = OneCore(policy, weights), set()
    for _ in range(1, FIRST):
        core.run_unit()
    first = core.state()
    for later in range(FIRST + 1, ROUNDS + 1):
        ran.add(core.run_unit())
        if core.state() == first:
            return next(((thread[0], later) for thread in first[1] if thread[0] not in ran), None)
    return None


def trace_of(weights):
    threads = "".join(f"thread {number} core 0 round 1 weight {weight} forever\n" for number, weight in enumerate(weights, 1))
    return f"cores 1\nrounds {ROUNDS}\n{threads}"


def waits(text):
    """What `waits` writes of an accepted policy, and its status."""
    policy = SpelledPolicy(text.decode("latin-1"))
    found = class_of(policy)
    if found:
        return f"waits {' '.join(map(str, found))}\n", CLASS
    low, high = policy.weights
    for weights in ((low, low), (low, high), (low, low, low)):
        told = starved(policy, weights)
        if told:
            return f"waits forever thread {told[0]} rounds {FIRST} {told[1]}\n{trace_of(weights)}", FOREVER
    return "waits unknown\n", UNKNOWN


def main(words):
    if not words:
        say("usage: tools/wait_classes.py POLICY ..")
        return 2
    for name in words:
        write(waits(read_file(name, LONGEST["policy"]))[0])
    return 0


if __name__ == "__main__":
    run("tools/wait_classes.py", main)
