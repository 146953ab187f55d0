"""Finds words for a fault in a line of a trace: which word can't stand there, or which number is out of its range.

The ranges are those of docs/FORMATS.md. Where the program goes by others, only the general sentence is said.
"""
import re

import policy_text
from line_text import CORES, LONGEST_LINE, OF_LONG_LINE, outside
from near_words import alike, mistaken, near, quoted

# What each kind of line is, in the notation of the file `grammar`.
GRAMMAR = """
cores   = "cores" NUMBER
rounds  = "rounds" NUMBER
entries = "entries" NUMBER
core    = "core" NUMBER (NAME VALUE)+
thread  = "thread" NUMBER "core" NUMBER "round" NUMBER ["weight" NUMBER] burst* last
burst   = "run" NUMBER ("yield" | "block" NUMBER)
last    = "run" NUMBER | "forever"
order   = "order" NUMBER NUMBER+
"""
FORMS = {"cores": "cores N", "rounds": "rounds K", "entries": "entries E"}
KINDS = [*FORMS, "core", "thread", "order"]
PATTERNS = {"NUMBER": r"[0-9]{1,19}", "VALUE": r"-?[0-9]{1,19}", "NAME": r"[A-Za-z][A-Za-z0-9_]{0,31}"}
NAMED = {"NUMBER": "a number", "VALUE": "a number", "NAME": "the name of an attribute"}
ASLEEP = "`run U block B` says that a thread sleeps for B rounds"
MEANT = {"sleep": ASLEEP, "wait": ASLEEP, "exit": "A last `run U` ends the thread", "end": "A last `run U` ends the thread"}


class Word:
    """A word of a line."""

    def __init__(self, text):
        self.text = text

    def fits(self, terminal):
        return bool(re.fullmatch(PATTERNS[terminal], self.text)) if terminal in PATTERNS else self.text == terminal


def words_of(line):
    """The words of a line of a trace, each with its column, from 1."""
    return [(it.group().decode("latin-1"), it.start() + 1) for it in re.finditer(rb"[^ \t\r]+", line)]


def says_nothing(line):
    words = words_of(line)
    return not words or words[0][0].startswith("#")


def cores_of(lines):
    """The number that the line `cores N` gives."""
    first = next((words_of(it) for it in lines if not says_nothing(it)), [])
    is_number = len(first) == 2 and first[0][0] == "cores" and Word(first[1][0]).fits("NUMBER")
    return int(first[1][0]) if is_number else CORES


# ---- a line without a form


def of_bad_line(lines, number):
    said = [n for n, it in enumerate(lines[: number - 1], 1) if not says_nothing(it)]
    must = ["cores", "rounds"][len(said)] if len(said) < 2 else None
    if number > len(lines):
        return 1, f"the text ends before the line `{FORMS[must or 'rounds']}`"
    words = words_of(lines[number - 1])
    first, column = words[0] if words else ("", 1)
    if must == "cores" and (other := mistaken(lines[number - 1], "a trace")):
        return column, other
    if must and first != must:
        which = "first" if must == "cores" else "second"
        return column, f"here must stand `{FORMS[must]}`, which is the {which} line that says something{near(first, [must])}"
    if first not in KINDS:
        named = ", ".join(f"`{it}`" for it in KINDS)
        return column, f"no line begins so; lines begin with {named}{near(first, KINDS)}"
    return of_words(first, words)


def of_words(kind, words):
    """The column and a sentence for the first word that can't stand where it does, in a line of that kind."""
    table = policy_text.Table(GRAMMAR)
    state = table.opened([(("rule", kind), ())])
    for word, column in words:
        after = table.after(state, Word(word))
        if not after:
            return column, of_word(word, [*table.signs(state), *([""] if () in state else [])])
        state = after
    word, column = words[-1]
    if () in state:
        return words[0][1], "this line has no form that a trace may have"
    return column + len(word), f"the line stops too soon; what may follow: {listed(table.signs(state))}"


def listed(signs):
    return ", ".join(NAMED.get(it, f"`{it}`" if it else "the end of the line") for it in signs)


def of_word(word, signs):
    if signs == [""]:
        return f"the line is over before {quoted(word)}{hint(word, signs)}"
    return f"{quoted(word)} can't stand here; what may: {listed(signs)}{hint(word, signs)}"


def hint(word, signs):
    """What most likely was meant where just these may stand, or nothing."""
    if word.startswith("#"):
        return ". A comment has a line of its own"
    if "=" in word:
        return f". Words are parted by blanks, as in {quoted(' '.join(word.replace('=', ' ').split()))}"
    if re.fullmatch(r".+[,;:]", word):
        return f". No {quoted(word[-1])} stands behind a word"
    if {"NUMBER", "VALUE"} & set(signs) and re.match(r"[-+.0-9]", word):
        return ". A number has digits alone, at most nineteen"
    if word in MEANT and "block" in signs:
        return f". {MEANT[word]}"
    close = alike(word, [it for it in signs if it.islower()])
    return f". Near is `{close[0]}`" if close else ""


# ---- numbers out of their ranges, and what was given before


def numbers_of(words, cores):
    """The numbers of a line that has a form: the place among its words, what it is, and the ends of its range."""
    kind = words[0][0]
    core = ("a core", 0, cores - 1)
    if kind == "cores":
        return [(1, "the number of cores", 1, CORES)]
    if kind == "rounds":
        return [(1, "the number of rounds", 0, 4096)]
    if kind == "entries":
        return [(1, "the number of entries", 0, 65536)]
    if kind == "core":
        return [(1, *core)] + [(n, "the value of a constant", -1048575, 1048575) for n in range(3, len(words), 2)]
    if kind == "order":
        return [(1, "a round", 1, 4096)] + [(n, *core) for n in range(2, len(words))]
    found = [(1, "the number of a thread", 1, 1023), (3, *core), (5, "a round", 1, 4096)]
    named = {"weight": ("a weight", 1, 1048575), "run": ("the units of a run", 1, 1048575), "block": ("the rounds of a block", 1, 4096)}
    return found + [(n + 1, *named[word]) for n, (word, _) in enumerate(words[6:-1], 6) if word in named]


def of_limit(words, cores):
    bursts = [column for word, column in words if word in ("run", "forever")]
    if words[0][0] == "thread" and len(bursts) > 16:
        return bursts[16], "this is the seventeenth burst, and a thread has at most 16"
    if words[0][0] == "order" and len(words) > 258:
        return words[258][1], "this is the 257th core, and an order has at most 256"
    for n, what, low, high in numbers_of(words, cores):
        word, column = words[n]
        if not low <= int(word) <= high:
            return column, outside(word, low, high, what)
    return words[1][1], "a number is out of its range"


def key_of(words):
    """What a line of a trace may give only once, but for constants."""
    kind = words[0][0]
    return (kind,) if kind in FORMS else (kind, int(words[1][0])) if len(words) > 1 and words[1][0].isdigit() else None


def of_twice(lines, number):
    words = words_of(lines[number - 1])
    kind = words[0][0]
    if kind == "core":
        return constant_twice(lines, number)
    for n, line in enumerate(lines[: number - 1], 1):
        other = words_of(line)
        if other and key_of(other) == key_of(words):
            what = f"`{kind}`" if len(key_of(words)) == 1 else f"{'thread' if kind == 'thread' else 'the order of round'} {words[1][0]}"
            return words[min(1, len(key_of(words)) - 1)][1], f"{what} was given before, in line {n}"
    return words[0][1], "this was given before"


def constant_twice(lines, number):
    given = {}
    for n, line in enumerate(lines[:number], 1):
        words = words_of(line)
        if not words or words[0][0] != "core":
            continue
        for name, column in words[2::2]:
            key = (int(words[1][0]), name)
            if n == number and key in given:
                return column, f"`{name}` of core {key[0]} was given before, in line {given[key]}"
            given.setdefault(key, n)
    return 1, "a constant was given before"


# ---- what doesn't fit the policy


def of_weight(words, ends):
    column = next(words[n + 1][1] for n, it in enumerate(words) if it[0] == "weight") if any(it[0] == "weight" for it in words) else words[0][1]
    weight = next((words[n + 1][0] for n, it in enumerate(words) if it[0] == "weight"), "1")
    return column, outside(weight, *ends, "the policy's weights") if ends else "this weight isn't one of the policy's"


def of_constant(words, ranges, word):
    for name, column in words[2::2]:
        if word == "const-name" and name not in ranges:
            known = f"; it has {', '.join(f'`{it}`' for it in ranges)}" if ranges else ""
            return column, f"the policy has no attribute of cores `{name}`{known}{near(name, ranges)}"
    for (name, _), (value, column) in zip(words[2::2], words[3::2]):
        low, high = ranges.get(name, (0, 0))
        if name in ranges and not low <= int(value) <= high:
            return column, outside(value, low, high, f"`{name}`")
    return words[0][1], "a constant doesn't fit the policy"


def of_trace(text, number, word, ranges):
    """The column and a sentence for that fault in that line of a trace."""
    lines = text.split(b"\n")
    if lines[-1] == b"":
        lines.pop()
    if number <= len(lines) and len(lines[number - 1]) > LONGEST_LINE:
        return OF_LONG_LINE
    if word == "bad-line":
        return of_bad_line(lines, number)
    words = words_of(lines[number - 1])
    if word == "limit":
        return of_limit(words, cores_of(lines))
    if word == "twice":
        return of_twice(lines, number)
    return of_weight(words, ranges["weight"]) if word == "weight-range" else of_constant(words, ranges["core"], word)
