"""Reads a policy whole, without the program: its name, its ranges, and all its rules as data.

Conditions and expressions are read by tools/verify_certs, which has no code of the program. A condition is a tree, and an expression its
linear form. The policy is one that the program takes: no fault of its text is looked for.
"""

import importlib.machinery
import importlib.util
from pathlib import Path

EVENTS = ("enqueue", "tick", "yield", "block")
# Where an event puts a thread that has no handler.
PUT = {"enqueue": "queue", "tick": "keep", "yield": "queue", "block": "block"}


def load_apart():
    """The script that reads conditions without the program, as a module."""
    loader = importlib.machinery.SourceFileLoader("verify_certs", str(Path(__file__).resolve().parent / "verify_certs"))
    made = importlib.util.module_from_spec(importlib.util.spec_from_loader("verify_certs", loader))
    loader.exec_module(made)
    return made


apart = load_apart()


class WholePolicy(apart.Policy):
    """The rules of an accepted policy.

    An order is a list of keys, each ("min", form), ("max", form) or ("prefer", condition). The expression of `place` is None
    where a thread stays, and the condition after `while` where a steal moves one thread. A case of a handler is a guard, settings
    (the place of an attribute, and a form), and where the thread goes.
    """

    def read(self):
        self.name = self.tokens[1]
        self.at = 3
        if self.next() == "weight":
            self.weights = self.range()
        spans, self.starts = {"core": [], "thread": []}, {"core": [], "thread": []}
        while self.peek() in spans:
            kind = self.next()
            self.attributes[kind].append(self.next())
            self.next()
            spans[kind].append(self.range())
            self.next()
            self.starts[kind].append(self.integer())
        self.set_ranges(spans)
        self.place = self.placement() if self.takes("place") else None
        self.elect = self.order() if self.takes("elect") else []
        self.handlers = {event: [(("always",), [], put)] for event, put in PUT.items()}
        while self.takes("on"):
            event = self.next()
            self.handlers[event] = self.cases_of_handler()
        self.near = []
        self.filter = self.condition() if self.takes("filter") else self.levels()
        self.next()
        self.choose = [("prefer", near) for near in self.near] + self.order()
        self.next()
        self.steal = self.order()
        self.batch, self.limit = None, 1
        if self.takes("while"):
            self.batch = self.condition()
            self.next()
            self.limit = self.integer()

    def variable(self, owner, name):
        return super().variable("victim" if owner == "core" else owner, name)

    def placement(self):
        if self.takes("here"):
            return None
        self.next()
        return self.expression()

    def order(self):
        keys = [] if self.takes("first") else [self.key()]
        while self.takes(","):
            keys.append(self.key())
        return keys

    def key(self):
        how = self.next()
        return how, self.condition() if how == "prefer" else self.expression()

    def cases_of_handler(self):
        self.next()
        cases = []
        while self.takes("when"):
            guard, sets = self.condition(), []
            self.next()
            while self.takes("t"):
                self.next()
                at = self.attributes["thread"].index(self.next())
                self.next()
                sets.append((at, self.expression()))
                self.next()
            cases.append((guard, sets, self.next()))
        self.next()
        return cases

    def spans(self, kind):
        """The attributes of cores or of threads, each with its range."""
        first = apart.ATTRIBUTES["self" if kind == "core" else "t"]
        return [(name, *self.ranges[first + at]) for at, name in enumerate(self.attributes[kind])]
