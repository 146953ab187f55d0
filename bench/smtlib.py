#!/usr/bin/env python3
"""Writes the obligations of a policy as SMT-LIB, from the policy's own point of view: for each obligation, in order, what
would make it fail, and `(check-sat)`. So `sat` says that it fails, and `unsat` that it holds. The numbers are whole and
unbounded, with the policy's ranges. Nothing here is shared with the program: it reads the policy's text by itself, and
makes no rows of it. It takes texts that the program takes, and looks for no fault in them.
"""
import re
import sys
from pathlib import Path

MOST_THREADS = 1023
EVENTS = ["enqueue", "tick", "yield", "block"]
CORE_NUMBERS = ["nr", "load"]
COMPARISONS = ["==", "!=", "<=", ">=", "<", ">"]
TOKEN = re.compile(r"[ \t\r\n]+|#[^\n]*|([A-Za-z]\w*|\d+|\.\.|==|!=|<=|>=|[.,:(){}+\-*=<>])")


class Policy:
    """What a text says, its conditions already as SMT-LIB."""

    def __init__(self, text):
        self.tokens = [word for word in TOKEN.findall(text) if word]
        self.at = 0
        self.attributes = {"core": {}, "thread": {}}
        self.guards = {event: ["true"] for event in EVENTS}
        self.weights = (1, 1)
        self.read()

    def peek(self):
        return self.tokens[self.at] if self.at < len(self.tokens) else ""

    def next(self):
        self.at += 1
        return self.tokens[self.at - 1]

    def takes(self, word):
        if self.peek() != word:
            return False
        self.at += 1
        return True

    def read(self):
        for _ in ("policy", "its name", "load"):
            self.next()
        if self.next() == "weight":
            self.weights = self.range()
        while self.peek() in ("core", "thread"):
            kind, name = self.next(), self.next()
            self.next()
            self.attributes[kind][name] = self.range()
            self.next()
            self.integer()
        while self.peek() not in ("on", "filter"):
            self.next()
        while self.takes("on"):
            self.handler()
        self.next()
        self.filter = self.condition()
        while self.peek() not in ("while", ""):
            self.next()
        self.batch = self.condition() if self.takes("while") else None

    def range(self):
        low = self.integer()
        self.next()
        return (low, self.integer())

    def integer(self):
        return -int(self.next()) if self.takes("-") else int(self.next())

    def handler(self):
        event = self.next()
        self.next()
        self.guards[event] = []
        while not self.takes("}"):
            if self.takes("when"):
                self.guards[event].append(self.condition())
            else:
                self.next()

    def chain(self, word, part):
        parts = [part()]
        while self.takes(word):
            parts.append(part())
        return parts[0] if len(parts) == 1 else f"({word} {' '.join(parts)})"

    def condition(self):
        return self.chain("or", lambda: self.chain("and", self.unit))

    def unit(self):
        if self.takes("not"):
            return f"(not {self.unit()})"
        if self.takes("always"):
            return "true"
        if self.takes("("):
            inner = self.condition()
            self.next()
            return inner
        left, how, right = self.expression(), self.next(), self.expression()
        if how == "!=":
            return f"(not (= {left} {right}))"
        return f"({'=' if how == '==' else how} {left} {right})"

    def expression(self):
        value = self.term()
        while self.peek() in ("+", "-"):
            value = f"({self.next()} {value} {self.term()})"
        return value

    def term(self):
        value = self.factor()
        while self.takes("*"):
            value = f"(* {value} {self.factor()})"
        return value

    def factor(self):
        if self.takes("-"):
            return f"(- {self.factor()})"
        word = self.next()
        if word.isdigit():
            return str(int(word))
        self.next()
        return f"|{word}.{self.next()}|"


def number(value):
    return str(value) if value >= 0 else f"(- {-value})"


def ranges(policy):
    """The range of each variable."""
    greatest = policy.weights[1]
    found = {"|t.weight|": policy.weights, "|t.fresh|": (0, 1)}
    for owner in ("self", "victim"):
        found[f"|{owner}.nr|"] = (0, MOST_THREADS)
        found[f"|{owner}.load|"] = (0, MOST_THREADS * greatest)
        for name, span in policy.attributes["core"].items():
            found[f"|{owner}.{name}|"] = span
    for name, span in policy.attributes["thread"].items():
        found[f"|t.{name}|"] = span
    return found


def obligations(policy):
    """Of each obligation the name, and the condition under which it fails."""
    least, greatest = policy.weights
    fit = " ".join(f"(<= (* {least} |{c}.nr|) |{c}.load|) (<= |{c}.load| (* {greatest} |{c}.nr|))"
                   for c in ("self", "victim"))
    queued = f"(>= |victim.load| (+ |t.weight| (* {least} (- |victim.nr| 1))))"
    narrows = "(> (- |victim.load| |self.load|) |t.weight|)"
    yield "B1", f"(and {fit} (= |self.nr| 0) (>= |victim.nr| 2) (not {policy.filter}))"
    yield "B2", f"(and {fit} {policy.filter} (not (>= |victim.nr| 2)))"
    yield "B3", f"(and {fit} {policy.filter} {queued} (not {narrows}))"
    if policy.batch is not None:
        yield "B4", f"(and {fit} {policy.batch} (>= |victim.nr| 1) {queued} (not {narrows}))"
    for event in EVENTS:
        guards = policy.guards[event]
        pairs = [f"(and {one} {other})" for at, one in enumerate(guards) for other in guards[at + 1:]]
        yield f"H1.{event}", f"(or false {' '.join(pairs)})"
        yield f"H2.{event}", f"(not (or false {' '.join(guards)}))"


def smtlib(text):
    """The names of the obligations, and what asks for each of them."""
    policy = Policy(text)
    lines = ["(set-logic ALL)"]
    for name, (low, high) in ranges(policy).items():
        lines += [f"(declare-const {name} Int)", f"(assert (<= {number(low)} {name} {number(high)}))"]
    names = []
    for name, fails in obligations(policy):
        names.append(name)
        lines += ["(push)", f"(assert {fails})", "(check-sat)", "(pop)"]
    return names, "\n".join(lines) + "\n"


if __name__ == "__main__":
    sys.stdout.write(smtlib(Path(sys.argv[1]).read_text(encoding="ascii"))[1])
