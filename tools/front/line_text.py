"""Finds words for a fault in a line of a history: which number is out of its range, or which form the line lacks.

The ranges are those of docs/FORMATS.md. Where the program goes by others, only the general sentence is said.
"""
import re

from near_words import near

CORES = 64
# Of longer lines no more is said.
LONGEST_LINE = 65536
# A line feed alone ends a line of a history, and of a file of certificates.
OF_WINDOWS = "this line ends as on Windows: a carriage return stands before its line feed; `tr -d '\\r' < OLD > NEW` takes all of them away"
OF_LONG_LINE = 1, f"the fault is in this line, which has more than {LONGEST_LINE:,} bytes"


def outside(word, low, high, what):
    return f"{word} is out of its range, {low}..{high} ({what})"


# Histories: each form as its words, where a letter stands for a number. `T..` is one to eight threads.

WORKS = ["work A -", "work A T keep", "work A T queue", "work A T block", "work A T end"]
ATTEMPTS = ["steal A V T.. :", "fail A V :", "pass A :"]
FIRST_FORMAT = ["round R", "enter T A C :", "wake T A C :", *WORKS, *ATTEMPTS]
SECOND_FORMAT = ["round R", "enter T A C", "enter T A C :", "wake T A C", "wake T A C :", *WORKS, *ATTEMPTS]
STOLEN = 8
FIRST_FORMAT_CORES = 32
MOST_ENTRIES = 65536
HEADER = "history 2 cores N"


def ends_of(cores):
    """What each letter stands for, with the ends of its range."""
    return {"R": ("a round", 1, 4096), "T": ("a thread", 1, 1023), **dict.fromkeys("ACV", ("a core", 0, cores - 1))}


def matched(form, words, ends, read):
    """The numbers of a line by that form, each with its range and its place; nothing where it has another form."""
    parts = form.split(" ")
    if len(words) < len(parts) or (len(words) > len(parts) and parts[-1] != ":"):
        return None
    found = []
    for n, (word, column) in enumerate(words):
        part = parts[n] if n < len(parts) else "READ"
        if part not in ends and part != "READ":
            if word != part:
                return None
        elif not word.isdigit():
            return None
        else:
            found.append((word, column, *ends.get(part, read)))
    return found


def spelled(form):
    """The form with each number of threads that it may have."""
    return [form.replace("T..", " ".join("T" * count)) for count in range(1, STOLEN + 1)] if "T.." in form else [form]


class Excerpt:
    """What must be known of a long text: its first line, that line and whether a line feed ends it, and which line before it opened the
    last round, from 0. Of lines the first 64 kB are kept.
    """

    def __init__(self, file, number):
        self.number, self.first, self.line, self.round, self.is_ended = number, b"", b"", 0, False
        for at in range(number):
            if at and self.line.startswith(b"round "):
                self.round = at - 1
            self.line, self.is_ended = next_line(file)
            self.first = self.first if at else self.line


def next_line(file):
    """The beginning of the next line of the file, and whether a line feed ends it."""
    line = part = file.readline(LONGEST_LINE + 2)
    while part and not part.endswith(b"\n"):
        part = file.readline(1 << 20)
    return line.removesuffix(b"\n"), part.endswith(b"\n")


def of_history(excerpt, cores):
    """The column and a sentence for the line of that excerpt, the first bad one of a history, beside a trace of so many cores."""
    if len(excerpt.line) > LONGEST_LINE:
        return OF_LONG_LINE
    if excerpt.line.endswith(b"\r"):
        return len(excerpt.line), OF_WINDOWS
    if excerpt.first.split(b" ")[0] != b"history":
        return of_entry(excerpt, 0, FIRST_FORMAT, ends_of(FIRST_FORMAT_CORES), ("a position", 0, MOST_ENTRIES), None)
    if excerpt.number == 1:
        return of_header(excerpt.line, cores)
    read = ("a distance", 0, MOST_ENTRIES - excerpt.round)
    return of_entry(excerpt, 1, SECOND_FORMAT, ends_of(CORES), read, cores)


def of_header(line, cores):
    """The same for the first line of the second format."""
    found = re.fullmatch(rb"history 2 cores ([1-9][0-9]*)", line)
    if found is None:
        return 1, f"the first line of a history is `{HEADER}`, or its first entry where it is of the first format"
    if int(found[1][:25]) != cores:
        return found.start(1) + 1, f"this history is of {found[1][:25].decode()} cores, and the trace has {cores}"
    return len(line) + 1, "the last line lacks its line feed"


def of_entry(excerpt, before, entries, ends, read, cores):
    """The same for a line that is to be an entry, of a text with so many lines before its entries. An entry that reads, reads
    as many cores as the trace has, where that number is given.
    """
    if excerpt.number > MOST_ENTRIES + before:
        return 1, f"a history has at most {MOST_ENTRIES} entries"
    line = excerpt.line
    words = [(it.group().decode("latin-1"), it.start() + 1) for it in re.finditer(rb"[^ ]+", line)]
    fitting = [found for entry in entries for form in spelled(entry) if (found := matched(form, words, ends, read)) is not None]
    if not fitting:
        return 1, of_form(words[0][0] if words else "", entries)
    for word, column, what, low, high in fitting[0]:
        if not low <= int(word[:25]) <= high:
            return column, outside(word, low, high, what)
        if len(word) > 1 and word[0] == "0":
            return column, f"{word} has a zero before it, and is spelled {int(word)}"
    if not excerpt.is_ended:
        return len(line) + 1, "the last line lacks its line feed"
    if b" ".join(word.encode("latin-1") for word, _ in words) != line:
        return 1, "one blank stands between two words, and none before or behind them"
    count = sum(what == read[0] for _, _, what, _, _ in fitting[0])
    if cores and ":" in (word for word, _ in words) and count != cores:
        return len(line) + 1, f"behind the colon stands a distance for each core of the trace: {cores}, and here {count}"
    return 1, "this is no line of a history"


def of_form(first, entries):
    """Which forms a line may have that begins with that word."""
    forms = [f"`{it}{' P P ..' if it[-1] == ':' else ''}`" for it in entries if it.split(" ")[0] == first]
    if forms:
        return f"the form of this line is {' or '.join(forms)}, and it has another"
    kinds = ["round", "enter", "wake", "work", "steal", "fail", "pass"]
    return f"no entry begins so; entries begin with `round`, `enter`, `wake`, `work`, `steal`, `fail` and `pass`{near(first, kinds)}"
