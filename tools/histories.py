"""Reads the texts of histories and reports, for the scripts beside this file. Their forms are in docs/FORMATS.md."""

import re
from collections import namedtuple

from common import Refused

MOST_CORES = 64
FIRST_FORMAT_CORES = 32
MOST_STOLEN = 8
MOST_READ = 65536
RANGES = {"round": (1, 4096), "last": (1, 4096), "thread": (1, 1023), **dict.fromkeys(["core", "target", "victim"], (0, MOST_CORES - 1))}
MAX_LINES = {"history": 65536, "report": 200000}

# In the second format no colon stands where nothing is read, and in the first there always is one.
HISTORY_FORMS = {
    "round": "round <round>",
    "enter": "enter <thread> <core> <target><reads>",
    "wake": "wake <thread> <core> <target><reads>",
    "nothing": "work <core> -",
    "work": "work <core> <thread> <outcome>",
    "steal": "steal <core> <victim> <threads><reads>",
    "fail": "fail <core> <victim><reads>",
    "pass": "pass <core><reads>",
}
MAY_READ_NOTHING = ("enter", "wake")
HEADER = re.compile(rb"history 2 cores ([1-9][0-9]?)")

REPORT_FORMS = {
    "round": "round <round> spread <spread> idle <idle>",
    "still": "still <round> <last> spread <spread> bad <bad>",
    "rest": "rest <round> gap <gap>",
    "restless": "rest -",
    "fail": "fail <position> by <by>",
    "rounds": "rounds <count>",
    "entries": "entries <count>",
    "steals": "steals <count>",
    "fails": "fails <count>",
    "bad": "bad <count>",
    "wasted": "wasted <count>",
}
# What `waste` writes: how many steals a stretch has, and failed steals that no entry explains.
WASTE_FORMS = {**REPORT_FORMS, "still": f"{REPORT_FORMS['still']} steals <steals>", "unexplained": "fail <position>"}
TOTALS = ["rounds", "entries", "steals", "fails", "bad", "wasted"]
# Lines that stand where others of their kind do.
SAME_KIND = {"restless": "rest", "unexplained": "fail"}

# A line has the values of the words in angle brackets by their names.
Line = namedtuple("Line", "kind text values")
# Of each still stretch `rests` has the line behind its own. That has no values where no round of the stretch opens at rest.
Report = namedtuple("Report", "rounds stills rests fails unexplained totals")


class History(list):
    """The entries of a history. `cores` is the number that its header names, or None in the first format, which has no header."""

    cores = None


def pattern(form):
    """The regular expression of a form, with a group for each word in angle brackets."""
    number = r"0|[1-9][0-9]{0,18}"
    words = {
        "outcome": "keep|queue|block|end", "threads": rf"(?:{number})(?: (?:{number}))*", "reads": rf"(?: :(?: (?:{number}))*)?",
    }
    return re.compile(re.sub(r"<(\w+)>", lambda name: f"(?P<{name[1]}>{words.get(name[1], number)})", form))


def read_line(text, patterns):
    """The line as its kind and its values, or None where it is of no form."""
    for kind, form in patterns.items():
        found = form.fullmatch(text)
        if found:
            values = {name: value_of(name, word) for name, word in found.groupdict().items()}
            return Line(kind, text, values) if all(is_in_range(*pair) for pair in values.items()) else None
    return None


def value_of(name, word):
    if name == "outcome":
        return word
    return [int(part) for part in word.replace(":", "").split()] if name in ("reads", "threads") else int(word)


def is_in_range(name, value):
    if name == "reads":
        return len(value) <= MOST_CORES and all(read <= MOST_READ for read in value)
    if name == "threads":
        return len(value) <= MOST_STOLEN and all(is_in_range("thread", thread) for thread in value)
    return name not in RANGES or RANGES[name][0] <= value <= RANGES[name][1]


def read_lines(data, what, forms, before=0):
    """The lines of the text, each of one of the forms and ended by a line feed. So many lines stand before it."""
    patterns = {kind: pattern(form) for kind, form in forms.items()}
    parts = data.decode("ascii", "replace").split("\n")
    lines = []
    for number, text in enumerate(parts[:-1], 1):
        line = read_line(text, patterns)
        if line is None or number > MAX_LINES[what]:
            refuse_line(number + before, what)
        lines.append(line)
    if parts[-1]:
        raise Refused(f"line {len(parts) + before} is no line of a {what}: no line feed ends it")
    return lines


def refuse_line(number, what="history"):
    raise Refused(f"line {number} is no line of a {what}")


def read_history(data):
    """The entries of a history of either format. Their reads are positions, whatever the text has."""
    first, feed, rest = data.partition(b"\n")
    if first.split(b" ")[0] != b"history":
        return in_first_format(data)
    header = HEADER.fullmatch(first)
    if header is None or not feed or int(header[1]) > MOST_CORES:
        refuse_line(1)
    return in_second_format(rest, int(header[1]))


def in_first_format(data):
    history = History(read_lines(data, "history", HISTORY_FORMS))
    for number, line in enumerate(history, 1):
        cores = [line.values[name] for name in ("core", "target", "victim") if name in line.values]
        reads = line.values.get("reads", [])
        if max([*cores, len(reads) - 1], default=0) >= FIRST_FORMAT_CORES or ("reads" in line.values) != (" :" in line.text):
            refuse_line(number)
    return history


def in_second_format(data, cores):
    """The entries behind the header. A read is written as its distance from the start of the round, and there is one for each core."""
    history = History(read_lines(data, "history", HISTORY_FORMS, 1))
    history.cores = cores
    start = 0
    for number, line in enumerate(history, 1):
        if "reads" in line.values:
            check_distances(line, cores, number + 1)
            line.values["reads"] = [start + distance for distance in line.values["reads"]]
            if any(read > MOST_READ for read in line.values["reads"]):
                refuse_line(number + 1)
        if line.kind == "round":
            start = number
    return history


def check_distances(line, cores, number):
    """There are as many as cores, or none and no colon where nothing has to be read."""
    count, has_colon = len(line.values["reads"]), " :" in line.text
    nothing = line.kind in MAY_READ_NOTHING and not has_colon
    if not nothing and count != cores:
        refuse_line(number)


def read_report(data):
    """The rounds, the still stretches, the fails and the totals of a report."""
    return report_in(read_lines(data, "report", REPORT_FORMS))


def read_waste(data):
    """The same of what `waste` writes, with the failed steals that no entry explains."""
    return report_in(read_lines(data, "report", WASTE_FORMS))


def read_either(data):
    """The same of a text of either kind. Only `waste` counts the steals of a stretch, and has failed steals without an entry."""
    return (read_waste if re.search(rb"(?m)^still .* steals |^fail [0-9]+$", data) else read_report)(data)


def report_in(lines):
    kinds = [SAME_KIND.get(line.kind, line.kind) for line in lines]
    check_order(kinds)
    rounds = [line for line in lines if line.kind == "round"]
    totals = {line.kind: line.values["count"] for line in lines if "count" in line.values}
    if [line.values["round"] for line in rounds] != list(range(1, totals["rounds"] + 1)):
        raise Refused("a report has one line for each of its rounds, from 1")
    stills, rests = ([line for line, kind in zip(lines, kinds) if kind == wanted] for wanted in ("still", "rest"))
    if any(not line.values["round"] <= line.values["last"] <= totals["rounds"] for line in stills):
        raise Refused("a stretch of still rounds goes from one of its rounds to the same or a later one")
    if any(rest.values and not still.values["round"] <= rest.values["round"] <= still.values["last"] for still, rest in zip(stills, rests)):
        raise Refused("the first round at rest of a stretch is one of its rounds")
    fails, unexplained = ([line for line in lines if line.kind == kind] for kind in ("fail", "unexplained"))
    return Report(rounds, stills, rests, fails, unexplained, totals)


def check_order(kinds):
    """Whether lines of these kinds may stand so in a report: its rounds, its stretches with a line on rest behind each, its fails."""
    order = ["round", "still", "rest", "fail"]
    body = kinds[:-len(TOTALS)]
    if kinds[-len(TOTALS):] != TOTALS or any(kind not in order for kind in body):
        raise Refused("a report ends with its six totals, in their order")
    others = [kind for kind in body if kind != "rest"]
    if others != sorted(others, key=order.index):
        raise Refused("a report has its rounds first, then its still stretches, then its fails")
    if any((kind == "still") != (after == "rest") for kind, after in zip(["", *body], [*body, ""])):
        raise Refused("in a report each still stretch has a line on rest behind it, and nothing else has one")


def threads_of(values):
    """The threads that an entry with these values names, in its order."""
    return values.get("threads", [values["thread"]] if "thread" in values else [])


def cores_of(history):
    """How many cores the header names, or else the entries. An entry with reads has one for each core."""
    if history.cores is not None:
        return history.cores
    named = [line.values[name] + 1 for line in history for name in ("core", "target", "victim") if name in line.values]
    reads = [len(line.values["reads"]) for line in history if "reads" in line.values]
    return max(named + reads, default=0)
