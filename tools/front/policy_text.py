"""Reads the text of a policy, or of one by levels, far enough to say what is wrong with it. The program alone decides; this finds words
for its answer.

The file `grammar` beside this one is the table of what may stand where. It is the grammar of docs/LANGUAGE.md, and tools/try_places
tries it against the program.
"""
import os
import re

RESERVED = """policy load count weight core thread in start place here min max elect choose steal first on enqueue tick yield
block when queue keep filter and or not always self victim t while limit prefer nr fresh""".split()
# In a level text these can't be names either.
LEVEL_WORDS = ["levels", "level", "within"]
EVENTS = ["enqueue", "tick", "yield", "block"]
COMPARISONS = ["==", "!=", "<", "<=", ">", ">="]
TOKEN = re.compile(r"(?P<blank>[ \t\r\n]+|#[^\n]*)|(?P<word>[A-Za-z][A-Za-z0-9_]*)|(?P<number>[0-9]+)|(?P<symbol>\.\.|[=!<>]=|[.,:(){}+*=<>-])")


class Token:
    """A token: its kind (word, number, symbol), its text, its first byte, from 0, and the words that can't be names in its text."""

    def __init__(self, kind, text, at, reserved):
        self.kind, self.text, self.at, self.reserved = kind, text, at, reserved

    def fits(self, terminal):
        if terminal == "NAME":
            return self.kind == "word" and self.text not in self.reserved
        if terminal == "WORD":
            return self.kind == "word"
        if terminal == "NUMBER":
            return self.kind == "number"
        return self.kind in ("word", "symbol") and self.text == terminal


def tokens_of(text):
    """The tokens of a text of bytes, up to a byte that begins none."""
    found, at, text = [], 0, text.decode("latin-1")
    while match := TOKEN.match(text, at):
        if match.lastgroup != "blank":
            found.append((match.lastgroup, match.group(), at))
        at = match.end()
    reserved = RESERVED + LEVEL_WORDS if found and found[0][1] == "levels" else RESERVED
    return [Token(*it, reserved) for it in found]


def is_by_levels(tokens):
    """Whether the text is one by levels: its first token says so."""
    return bool(tokens) and tokens[0].text == "levels"


def read_grammar():
    with open(os.path.join(os.path.dirname(os.path.abspath(__file__)), "grammar"), encoding="ascii") as it:
        return it.read()


class Table:
    """The grammar. A state is a set of stacks of what may still come, each a nested pair (item, rest), with () at its end."""

    def __init__(self, text=None):
        """The text is that of the file `grammar`, or of another table in its notation."""
        lines = [line.split("=", 1) for line in (text or read_grammar()).splitlines() if line]
        self.rules = {name.strip(): self.read(body) for name, body in lines}
        self.kept = {}

    def read(self, body):
        self.left = re.findall(r'"[^"]+"|[A-Za-z]+|[()\[\]*+|]', body)
        return self.choice()

    def choice(self):
        ways = [self.sequence()]
        while self.left and self.left[0] == "|":
            self.left.pop(0)
            ways.append(self.sequence())
        return ways[0] if len(ways) == 1 else ("any", tuple(ways))

    def sequence(self):
        items = []
        while self.left and self.left[0] not in ")]|":
            items.append(self.item())
        return ("all", tuple(items))

    def item(self):
        word = self.left.pop(0)
        if word in "([":
            inner = self.choice()
            self.left.pop(0)
            item = inner if word == "(" else ("maybe", inner)
        else:
            item = ("sign", word.strip('"')) if word[0] == '"' or word.isupper() else ("rule", word)
        while self.left and self.left[0] in "*+":
            item = ("many", item) if self.left.pop(0) == "*" else ("all", (item, ("many", item)))
        return item

    def start(self):
        return self.opened([(("rule", "policy"), ()), (("rule", "levels"), ())])

    def opened(self, stacks):
        """The stacks that these come to, each with a sign on top, or empty."""
        found, left = [], list(stacks)
        while left:
            stack = left.pop()
            if stack == () or stack[0][0] == "sign":
                found.append(stack)
                continue
            (kind, what), rest = stack
            if kind == "rule":
                left.append((self.rules[what], rest))
            elif kind == "any":
                left += [(way, rest) for way in what]
            elif kind == "all":
                for item in reversed(what):
                    rest = (item, rest)
                left.append(rest)
            elif kind == "maybe":
                left += [(what, rest), rest]
            else:
                left += [(what, (stack[0], rest)), rest]
        return frozenset(found)

    def signs(self, state):
        """What may stand next, in the order in which the table has it last."""
        return sorted({stack[0][1] for stack in state if stack}, key=self.order)

    def order(self, sign):
        if not self.kept:
            text = " ".join(str(it) for it in self.rules.values())
            self.kept.update({it: n for n, it in enumerate(re.findall(r"'sign', '([^']+)'", text))})
        return self.kept[sign]

    def after(self, state, token):
        """The state behind that token; it is empty where the token can't stand there."""
        return self.opened({stack[1] for stack in state if stack and token.fits(stack[0][1])})


class Conditions:
    """The conditions of a policy's tokens, and in how many cases an obligation falls (`count_of` in specs/Counts.antt of obligations)."""

    def __init__(self, tokens):
        self.tokens, self.at = tokens, 0

    def guards(self, event):
        """The guards of the handler of the event."""
        found, inside = [], False
        for n, token in enumerate(self.tokens):
            if token.text == "on" and (n == 0 or self.tokens[n - 1].text != "."):
                inside = self.tokens[n + 1].text == event
            if inside and token.text == "when" and self.tokens[n - 1].text != ".":
                found.append(self.read(n + 1))
            inside = inside and token.text != "}"
        return found

    def filter(self):
        return self.levels() if is_by_levels(self.tokens) else self.behind("filter")

    def levels(self):
        """The filter that the levels are compiled to. A later level's `always` isn't in it."""
        near, found = None, None
        for n, token in enumerate(self.tokens):
            if token.text == "level" and self.tokens[n - 1].text != ".":
                self.at = n + 2
                within = self.unit()
                belongs = within
                if near:
                    belongs = ("not", near) if within == ("always",) else ("and", ("not", near), within)
                near = ("or", near, within) if near else within
                part = ("and", belongs, self.read(self.at + 1))
                found = ("or", found, part) if found else part
        return found

    def batch(self):
        """The condition behind `while`, if there is one."""
        return self.behind("while")

    def behind(self, word):
        """The condition behind that word, if it stands anywhere but as an attribute."""
        at = next((n for n, it in enumerate(self.tokens) if it.text == word and self.tokens[n - 1].text != "."), None)
        return None if at is None else self.read(at + 1)

    def read(self, at):
        self.at = at
        return self.chain("or", lambda: self.chain("and", self.unit))

    def take(self):
        self.at += 1
        return self.tokens[self.at - 1].text

    def chain(self, word, part):
        found = part()
        while self.at < len(self.tokens) and self.tokens[self.at].text == word:
            self.take()
            found = (word, found, part())
        return found

    def unit(self):
        first = self.tokens[self.at].text
        if first in ("not", "(", "always"):
            self.take()
            if first == "not":
                return ("not", self.unit())
            found = self.read(self.at) if first == "(" else ("always",)
            self.at += first == "("
            return found
        how = None
        while self.at < len(self.tokens) and (how is None or not self.ends()):
            text = self.take()
            how = text if how is None and text in COMPARISONS else how
        return ("test", how)

    def ends(self):
        """Whether the right side of a comparison has ended."""
        token = self.tokens[self.at]
        behind_dot = self.tokens[self.at - 1].text == "."
        return not behind_dot and token.text in ("and", "or", ")", ":", "choose", "limit", "filter", "level")


def count_of(outcome, cond):
    """In how many cases the condition holds, or doesn't; and how many of its comparisons count twice."""
    kind = cond[0]
    if kind == "always":
        return (1 if outcome else 0), 0
    if kind == "test":
        is_twice = cond[1] == ("!=" if outcome else "==")
        return (2, 1) if is_twice else (1, 0)
    if kind == "not":
        return count_of(not outcome, cond[1])
    links = []
    while cond[0] == kind:
        links.append(cond[2])
        cond = cond[1]
    adds = (kind == "or") == outcome
    count, twice = count_of(outcome, cond)
    for link in reversed(links):
        more, also = count_of(outcome, link)
        count, twice = (count + more if adds else count * more), twice + also
    return count, twice


def cases_of(tokens, name):
    """The number of cases of the obligation of that name, and how many comparisons count twice there; None for an unknown one."""
    conditions = Conditions(tokens)
    if name == "B4":
        batch = conditions.batch()
        return (0, 0) if batch is None else count_of(True, batch)
    if name[0] == "B":
        return count_of(name != "B1", conditions.filter()) if name in ("B1", "B2", "B3") else None
    guards = conditions.guards(name[3:])
    if name.startswith("H1."):
        held = [count_of(True, it) for it in guards]
        pairs = sum(held[i][0] * held[j][0] for i in range(len(held)) for j in range(i + 1, len(held)))
        return pairs, sum(it[1] for it in held)
    count, twice = 1, 0
    for guard in guards:
        more, also = count_of(False, guard)
        count, twice = count * more, twice + also
    return count, twice
