"""What may be referred to at a place of a policy, by the table of docs/LANGUAGE.md ("Names, ranges and phases")."""
import re

ANY = ["nr", "load"]
CORE, OF_CORE, THREAD = (ANY, "core"), ([], "core"), (["weight"], "thread")
# What each part sees: the owners that may stand before a dot, and behind it these names and the attributes of that kind.
SEES = {
    "place": {"core": CORE},
    "elect": {"t": THREAD},
    "steal": {"t": THREAD},
    "while": {"self": CORE, "victim": CORE, "t": THREAD},
    "within": {"self": OF_CORE, "victim": OF_CORE},
    "filter": {"self": CORE, "victim": CORE},
    "choose": {"self": CORE, "victim": CORE},
    "on": {"t": THREAD, "self": OF_CORE},
}
OWNERS = ["self", "victim", "core", "t"]
PUTS = {"enqueue": ["queue"], "tick": ["queue", "keep"], "yield": ["queue", "keep"], "block": ["block"]}
HERE = {
    "place": "`place` sees `core` alone, with `nr`, `load` and attributes of cores",
    "elect": "`elect` sees `t` alone, with `weight` and attributes of threads",
    "steal": "`steal` sees `t` alone, with `weight` and attributes of threads",
    "while": "the condition after `while` sees `self` and `victim`, with `nr`, `load` and attributes of cores, and `t`, with `weight` and attributes of threads",
    "within": "`within` sees `self` and `victim`, with attributes of cores alone",
    "filter": "`filter` sees `self` and `victim`, with `nr`, `load` and attributes of cores",
    "choose": "`choose` sees `self` and `victim`, with `nr`, `load` and attributes of cores",
    "on": "a handler sees `t`, with `weight` and attributes of threads, and of `self` the attributes of cores; `t.fresh` only on `enqueue`",
}


def attributes(tokens, kind):
    """The names of the attributes of cores, or of threads, with the ends of their ranges."""
    found = {}
    for n, token in enumerate(tokens[:-5]):
        if token.text == kind and tokens[n + 2].text == "in" and tokens[n + 1].kind == "word":
            ends = re.match(r"(-?\d+)\.\.(-?\d+)start", "".join(it.text for it in tokens[n + 3 : n + 9]))
            if ends:
                found[tokens[n + 1].text] = (int(ends[1]), int(ends[2]))
    return found


class Place:
    """The place behind those tokens: the part that it is in, of a handler the event, and what may be referred to there."""

    def __init__(self, before):
        self.before, self.part, self.event = before, "", ""
        for n, token in enumerate(before):
            if token.text in SEES and token.text in token.reserved and (n == 0 or before[n - 1].text != "."):
                self.part, self.event = token.text, before[n + 1].text if n + 1 < len(before) else ""

    def sees(self):
        """The owners that may stand here, each with the names that may stand behind its dot."""
        return {owner: self.names(*names) for owner, names in SEES.get(self.part, {}).items()}

    def names(self, fixed, kind):
        fresh = ["fresh"] if kind == "thread" and (self.part, self.event) == ("on", "enqueue") else []
        return fixed + fresh + list(attributes(self.before, kind))

    def behind_dot(self, owner):
        """The names that may stand behind the dot of that owner, at whose end this place is."""
        is_set = self.part == "on" and len(self.before) > 2 and self.before[-3].text in (":", ",")
        return list(attributes(self.before, "thread")) if is_set else self.sees().get(owner, [])

    def narrowed(self, signs):
        """Those of the signs that may stand here: owners of which something is seen, and words that put a thread where the event may."""
        if "queue" in signs:
            may_set = ["t"] if attributes(self.before, "thread") else []
            return [it for it in signs if it in PUTS.get(self.event, []) + may_set]
        if not set(signs) & {"self", "t"}:
            return signs
        owners = [owner for owner, names in self.sees().items() if names]
        return [it for it in signs if it not in OWNERS or it in owners]
