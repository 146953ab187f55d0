"""What the functions of a policy's header owe, as contracts in ACSL, the language in which frama-c takes them.

They are written from the policy's text, as tools/whole_policy.py reads it, and not from the header. Numbers in them have no bounds.
A contract requires that each field may be read and lies in its range, and that the thread of an event is no part of a core.
"""

import re
from collections import namedtuple

from whole_policy import EVENTS, apart

# The head of a function with its contract, and its body where it isn't the header's.
Contract = namedtuple("Contract", "function head clauses body", defaults=[""])

CUT = """logic integer made_cut(integer value, integer least, integer greatest) =
        value < least ? least : (value > greatest ? greatest : value);"""
BOTH = {"and": "&&", "or": "||"}
FALSE = "\\false"


class Contracts:
    """The contracts of a policy's header, each for a function of it, or for one that is written here and calls them. A draft is
    the header of a policy that isn't accepted."""

    def __init__(self, policy, draft=False):
        self.policy, self.draft = policy, draft
        core = [("nr", *policy.ranges[apart.SELF_NR]), ("load", *policy.ranges[apart.SELF_LOAD])]
        self.fields = {"core": core + [(f"attr_{name}", *span) for name, *span in policy.spans("core")],
                       "thread": [("weight", *policy.weights)] + [(f"attr_{name}", *span) for name, *span in policy.spans("thread")]}

    def named(self, word):
        return f"{self.policy.name}_{word}"

    # Expressions and conditions, where the other core and the thread have such names.

    def variable(self, number, core, thread):
        if number == apart.FRESH:
            return "(fresh ? 1 : 0)"
        for owner, first, kind in (("self", apart.SELF_NR, "core"), (core, apart.VICTIM_NR, "core"), (thread, apart.WEIGHT, "thread")):
            if first <= number < first + 2:
                return f"{owner}->{self.fields[kind][number - first][0]}"
        for owner, first, kind in (("self", 6, "core"), (core, 14, "core"), (thread, 22, "thread")):
            if first <= number < first + 8:
                return f"{owner}->attr_{self.policy.attributes[kind][number - first]}"
        raise KeyError(number)

    def value(self, form, core, thread, now=None):
        """The linear form. Some attributes of the thread may have new values by now, which are named by these words."""
        terms = []
        for number, factor in form.items():
            if number is not None and factor:
                known = number - apart.ATTRIBUTES["t"]
                word = now[known] if now and known in now else self.variable(number, core, thread)
                terms.append(word if factor == 1 else f"{signed(factor)} * {word}")
        if form.get(None) or not terms:
            terms.append(signed(form.get(None, 0)))
        return " + ".join(terms)

    def condition(self, condition, core, thread):
        kind = condition[0]
        if kind == "always":
            return "\\true"
        if kind == "not":
            return f"!{self.condition(condition[1], core, thread)}"
        if kind in BOTH:
            return f"({self.condition(condition[1], core, thread)} {BOTH[kind]} {self.condition(condition[2], core, thread)})"
        return f"({self.value(condition[1], core, thread)} {kind} {self.value(condition[2], core, thread)})"

    def before(self, keys, kind):
        """Whether a comes before b: by the first key that tells the two apart."""
        if not keys:
            return FALSE
        (how, part), rest = keys[0], self.before(keys[1:], kind)
        look = self.condition if how == "prefer" else self.value
        a, b = (look(part, side if kind == "core" else "victim", side if kind == "thread" else "thread") for side in ("a", "b"))
        if how == "prefer":
            return f"(({a} && !{b}) || (({a} <==> {b}) && {rest}))"
        return f"({a} {'<' if how == 'min' else '>'} {b} || ({a} == {b} && {rest}))"

    # What is required of the parameters.

    def fitting(self, kind, name, written=()):
        """That its fields may be read, or written, and lie in their ranges."""
        facts = [f"\\valid_read(&{name}->{field})" for field, _, _ in self.fields[kind]]
        facts += [f"\\valid(&{name}->{field})" for field in written]
        return facts + [f"{least} <= {name}->{field} <= {greatest}" for field, least, greatest in self.fields[kind]]

    def required(self, parameters, more=(), written=()):
        facts = [fact for kind, name in parameters for fact in self.fitting(kind, name, written if kind == "thread" else ())]
        return f"requires fits: {' && '.join([*facts, *more])};"

    def parameters(self, parameters, changed=False):
        kept = {"core": "const ", "thread": "" if changed else "const "}
        return ", ".join(f"{kept[kind]}struct {self.named(kind)} *{name}" for kind, name in parameters)

    # The functions of the header.

    def answer(self, word, parameters, condition):
        """A function that answers whether the condition holds, and changes nothing."""
        clauses = [self.required(parameters), "assigns \\nothing;", f"ensures rule: \\result <==> {condition};"]
        return Contract(self.named(word), f"static inline bool {self.named(word)}({self.parameters(parameters)})", clauses)

    def cut(self):
        word = self.named("cut")
        clauses = ["requires least <= greatest;", "assigns \\nothing;", "ensures rule: \\result == made_cut(value, least, greatest);"]
        return Contract(word, f"static inline int64_t {word}(int64_t value, int64_t least, int64_t greatest)", clauses)

    def event(self, event):
        """The function of an event: of each case the settings, one after the other, cut to the ranges, and where the thread goes."""
        cases, word = self.policy.handlers[event], self.named(f"on_{event}")
        written = [self.fields["thread"][1 + at][0] for at in sorted({at for _, sets, _ in cases for at, _ in sets})]
        parameters = [("core", "self"), ("thread", "thread")]
        clauses = [self.required(parameters, ["\\separated(self, thread)"], written),
                   f"assigns {', '.join(f'thread->{field}' for field in written) or chr(92) + 'nothing'};"]
        clauses += [f"ensures case_{at}: {self.outcome(*case, written)};" for at, case in enumerate(cases, 1)]
        fresh = ", bool fresh" if event == "enqueue" else ""
        return Contract(word, f"static inline enum {self.named('put')} {word}({self.parameters(parameters, True)}{fresh})", clauses)

    def outcome(self, guard, sets, put, written):
        """What is so behind the event where the guard held before it. What the case doesn't set stays."""
        now, lets = {}, []
        for at, form in sets:
            _, least, greatest = self.fields["thread"][1 + at]
            value = self.value(form, "victim", "thread", {known: f"made_{place}" for known, place in now.items()})
            now[at] = len(lets)
            lets.append(f"\\let made_{now[at]} = made_cut({old(value)}, {least}, {greatest}); ")
        facts = [f"\\result == {self.named(f'put_{put}')}"]
        for at, (field, _, _) in enumerate(self.fields["thread"][1:]):
            if field in written:
                facts.append(f"thread->{field} == {f'made_{now[at]}' if at in now else old(f'thread->{field}')}")
        return f"{old(self.condition(guard, 'victim', 'thread'))} ==> ({''.join(lets)}{' && '.join(facts)})"

    # Functions that are written here.

    def constants(self):
        """What the macros of the header are."""
        policy, kinds = self.policy, ("core", "thread")
        facts = {"ACCEPTED": int(not self.draft), "NR_MAX": apart.MOST_THREADS, "LOAD_MAX": self.fields["core"][1][2],
                 "WEIGHT_MIN": policy.weights[0], "WEIGHT_MAX": policy.weights[1], "STEAL_LIMIT": policy.limit,
                 "PLACE_HERE": int(policy.place is None)}
        for kind in kinds:
            for (name, least, greatest), start in zip(policy.spans(kind), policy.starts[kind]):
                ends = {"MIN": least, "MAX": greatest, "START": start}
                facts.update({f"{kind.upper()}_{end}_{name}": value for end, value in ends.items()})
        lists = {f"{kind}_count": len(policy.attributes[kind]) for kind in kinds}
        lists.update({f"{kind}_place_{name}": at for kind in kinds for at, name in enumerate(policy.attributes[kind])})
        return self.checks("constants", {word: f"{self.named(word)} == {value}" for word, value in (facts | lists).items()})

    def lists(self):
        """The two lists of attributes, as constants that count them."""
        lines = []
        for kind in ("core", "thread"):
            lines += [f"#define MADE_PLACE(name) {self.named(kind)}_place_##name,",
                      f"enum {{ {self.named(kind.upper())}_ATTRS(MADE_PLACE) {self.named(kind)}_count }};", "#undef MADE_PLACE"]
        return lines

    def strict(self, word, kind, keys):
        """That the rule of an order is irreflexive, asymmetric and transitive, for all numbers that the fields may be. And where neither a
        is before b nor b before c, a isn't before c. They are checks of an empty function: a lemma would be a premise of all that is
        proved behind it.
        """
        rule = self.before(keys, kind)
        aa, ab, ba, bc, ac = (self.of_numbers(rule, *sides) for sides in ("aa", "ab", "ba", "bc", "ac"))
        laws = {"irreflexive": f"!{aa}", "asymmetric": f"!({ab} && {ba})", "transitive": f"{ab} && {bc} ==> {ac}",
                "ties": f"!{ab} && !{bc} ==> !{ac}"}
        sides = ("self", "a", "b", "c") if kind == "core" else ("a", "b", "c")
        numbers = ", ".join(f"{side}_{field}" for side in sides for field, _, _ in self.fields[kind])
        return self.checks(f"{word}_is_strict", {law: f"\\forall integer {numbers}; {text}" for law, text in laws.items()})

    def checks(self, word, facts):
        """A function that does nothing, in which these hold."""
        body = "\n\t".join(f"//@ check {name}: {fact};" for name, fact in facts.items())
        return Contract(self.named(word), f"static void {self.named(word)}(void)", ["assigns \\nothing;"], body)

    @staticmethod
    def of_numbers(rule, one, other):
        """The rule of the two, by these names, where each field is a number by itself."""
        named = re.sub(r"\b([ab])->", lambda match: f"{one if match.group(1) == 'a' else other}_", rule)
        return named.replace("->", "_")

    def all(self):
        policy, both, cores, threads = self.policy, [("core", "self"), ("core", "victim")], pair("core"), pair("thread")
        batch = FALSE if policy.batch is None else self.condition(policy.batch, "victim", "thread")
        place = [] if policy.place is None else [("min", policy.place)]
        return [self.constants(), self.cut(), self.answer("may_steal", both, self.condition(policy.filter, "victim", "thread")),
                self.answer("choose_before", [("core", "self"), *cores], self.before(policy.choose, "core")),
                self.answer("steal_before", threads, self.before(policy.steal, "thread")),
                self.answer("steal_on", [*both, ("thread", "thread")], batch),
                self.answer("place_before", cores, self.before(place, "core")),
                self.answer("elect_before", threads, self.before(policy.elect, "thread")), *map(self.event, EVENTS),
                self.strict("choose_before", "core", policy.choose), self.strict("steal_before", "thread", policy.steal),
                self.strict("place_before", "core", place), self.strict("elect_before", "thread", policy.elect)]


def pair(kind):
    return [(kind, "a"), (kind, "b")]


def signed(number):
    return f"({number})" if number < 0 else str(number)


def old(text):
    return f"\\old({text})"
