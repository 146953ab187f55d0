"""The rules of a policy as functions of values, for tools/try_c. They are read by tools/whole_policy.py, which has no code of the program.

A list of values has those of three cores, `self`, `a` and `b` (thread count, load, attributes), those of two threads, `one` and `other`
(weight, attributes), and whether the thread is fresh.
"""

import sys
from pathlib import Path

sys.path.insert(0, str(Path(__file__).resolve().parent.parent))
from whole_policy import EVENTS, WholePolicy, apart  # pylint: disable=wrong-import-position # the folder of the module is named first


class Rules(WholePolicy):
    """All rules of an accepted policy, each as a function of such values."""

    def read(self):
        super().read()
        core, thread = 2 + len(self.attributes["core"]), 1 + len(self.attributes["thread"])
        self.first = {"self": 0, "a": core, "b": 2 * core, "one": 3 * core, "other": 3 * core + thread, "fresh": 3 * core + 2 * thread}
        self.asked = [self.holds(self.filter), self.before(self.choose, "a", "b"), self.before(self.steal, "one", "other"),
                      self.before(self.elect, "one", "other"), self.before([] if self.place is None else [("min", self.place)], "a", "b"),
                      self.rule("False") if self.batch is None else self.holds(self.batch)]
        self.cases = {event: [self.case(*case) for case in cases] for event, cases in self.handlers.items()}

    @staticmethod
    def rule(text):
        return eval(f"lambda v: {text}")  # pylint: disable=eval-used # the text is made here, of tokens

    def value(self, form, core, thread):
        """The linear form, as Python computes it for these views."""
        owners = [("self", apart.SELF_NR, 2), (core, apart.VICTIM_NR, 2), (thread, apart.WEIGHT, 1), ("fresh", apart.FRESH, 1)]
        places = {number + at: self.first[owner] + at for owner, number, count in owners for at in range(count)}
        for owner, number, fixed in (("self", 6, 2), (core, 14, 2), (thread, 22, 1)):
            places.update({number + at: self.first[owner] + fixed + at for at in range(8)})
        terms = [str(form.get(None, 0)), *(f"{factor} * v[{places[at]}]" for at, factor in form.items() if at is not None)]
        return "(" + " + ".join(terms) + ")"

    def text(self, condition, core, thread):
        kind = condition[0]
        if kind == "always":
            return "True"
        if kind == "not":
            return f"(not {self.text(condition[1], core, thread)})"
        if kind in ("and", "or"):
            return f"({self.text(condition[1], core, thread)} {kind} {self.text(condition[2], core, thread)})"
        return f"({self.value(condition[1], core, thread)} {kind} {self.value(condition[2], core, thread)})"

    def holds(self, condition):
        return self.rule(self.text(condition, "a", "one"))

    def before(self, keys, one, other):
        """Whether the one comes before the other: the lists of what the keys see of each, in the order of Python."""
        sides = [", ".join(self.seen(how, part, side) for how, part in keys) for side in (one, other)]
        return self.rule(f"[{sides[0]}] < [{sides[1]}]")

    def seen(self, how, part, side):
        core, thread = (side, "one") if side in ("a", "b") else ("a", side)
        if how == "prefer":
            return f"not {self.text(part, core, thread)}"
        return f"{'-' if how == 'max' else ''}{self.value(part, core, thread)}"

    def case(self, guard, sets, put):
        return self.holds(guard), [(at, self.rule(self.value(form, "a", "one"))) for at, form in sets], put

    def outcome(self, event, values):
        """Where the event puts the thread and what it makes of its attributes, one setting after the other."""
        holding = [case for case in self.cases[event] if case[0](values)]
        if len(holding) != 1:
            return f"{len(holding)} cases hold"
        left, first = list(values), self.first["one"] + 1
        for at, value in holding[0][1]:
            least, greatest = self.ranges[apart.ATTRIBUTES["t"] + at]
            left[first + at] = max(least, min(value(left), greatest))
        return " ".join([holding[0][2], *map(str, left[first:self.first["other"]])])

    def answers(self, values):
        on = (self.outcome(event, values if event == "enqueue" else values[:-1] + [0]) for event in EVENTS)
        return " ".join([*(str(int(rule(values))) for rule in self.asked), *on])

    def constants(self):
        """What values.c writes of the header's constants."""
        least, greatest = self.weights
        most = apart.MOST_THREADS
        lines = [f"{most} {most * greatest} {least} {greatest} {self.limit} {int(self.place is None)}"]
        for kind in ("core", "thread"):
            lines += [f"{kind} {name} {low} {high} {start}" for (name, low, high), start in zip(self.spans(kind), self.starts[kind])]
        return lines
