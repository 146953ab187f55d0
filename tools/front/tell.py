"""Says in a sentence why the program ended with status 2, 8, 9 or 10. It is called by speak.bash, whose lines go to standard error.

    tell.py STATUS PROGRAM COMMAND WORD ..

The program is asked once more, for the line that it wrote, and on 9 for those of `why`. Where that isn't possible, or the answer is another, nothing is said.
"""
import os
import re
import subprocess
import sys

sys.dont_write_bytecode = True
sys.path.insert(0, os.path.dirname(os.path.abspath(__file__)))
import line_text as lines
import policy_text as policies
import trace_text as traces
from near_words import mistaken
from policy_faults import of_policy
from policy_places import attributes
from why_text import of_why

FILES = {"check": ["policy"], "explain": ["policy"], "play": ["policy", "trace"], "run": ["policy", "trace"]}
FILES.update({"prove": ["policy"], "bound": ["policy"], "rest": ["policy"], "waits": ["policy"]})
FILES.update({"emit": ["policy"], "draft": ["policy"], "verify": ["policy", "certs"]})
FILES.update(dict.fromkeys(["crew", "simulate", "waste"], ["policy", "trace"]))
FILES.update(dict.fromkeys(["replay", "report", "migrate", "why"], ["policy", "trace", "history"]))
# How many entries a history has where the trace names no limit, and the most that it may name.
ENTRIES, MOST_ENTRIES = 8192, 65536
LONGEST = {"policy": 65536, "trace": 4194304, "history": 33554432, "certs": 33554432}
SECONDS = 60
# How long `why` may take.
WHY_SECONDS = 20


# Status 2. The faults of a policy are told by policy_faults, and those of a trace and of a history by trace_text and line_text.


def of_trace(file, text, number, word, policy):
    ranges = {"weight": weight_range(policy), "core": attributes(policy, "core")}
    column, sentence = traces.of_trace(text, number, word, ranges)
    return f"{file}:{number}:{column}: {sentence}"


def of_history(file, number, trace):
    with open(file, "rb") as text:
        if number == 1 and (other := mistaken(text.read(lines.LONGEST_LINE), "a history")):
            return f"{file}:1:1: {other}"
        text.seek(0)
        excerpt = lines.Excerpt(text, number)
    column, sentence = lines.of_history(excerpt, traces.cores_of(trace.split(b"\n")))
    return f"{file}:{number}:{column}: {sentence}"


def of_certs(file, number):
    feeds, part = 0, b"\n"
    with open(file, "rb") as text:
        first = text.readline(lines.LONGEST_LINE)
        if number == 1 and (other := lines.OF_WINDOWS if first.endswith(b"\r\n") else mistaken(first, "a file of certificates")):
            return f"{file}:1:1: {other}"
        text.seek(0)
        while more := text.read(1 << 20):
            feeds, part = feeds + more.count(b"\n"), more
    if number == feeds + 1 and part.endswith(b"\n"):
        return f"{file}:{number}:1: the text stops too soon: a part is missing"
    return f"{file}:{number}:1: this line can't stand here; docs/FORMATS.md says what a file of certificates is"


def weight_range(tokens):
    ends = re.match(r"weight(\d+)\.\.(\d+)", "".join(it.text for it in tokens[3:8]))
    return (int(ends[1]), int(ends[2])) if ends else None


# Status 8.


def of_stopped(file, text, asked):
    """Before which round it stopped, and which limit lets it go on. `asked` has the words of a call that stops there again, if any."""
    found = [(n, traces.words_of(it)) for n, it in enumerate(text.split(b"\n"), 1) if not traces.says_nothing(it)]
    given = {words[0][0]: (n, int(words[1][0])) for n, words in found if words[0][0] in traces.FORMS}
    threads = [[word for word, _ in words] for _, words in found if words[0][0] == "thread"]
    cores, rounds = given["cores"][1], given["rounds"][1]
    line, limit = given.get("entries", (None, ENTRIES))
    named = f"which line {line} of {file} names" if line else "since no line `entries E` names another"
    return (f"ipanema: it stopped before {round_of(asked)} of {rounds}. That round may have {1 + 2 * cores + len(threads):,} entries, and"
            f" with those before it they might pass the limit of {limit:,}, {named}. {way_out(cores, rounds, threads)}")


def round_of(asked):
    """The round before which it stopped, where another call stops there too."""
    if asked is None:
        return "the round behind the last one that it wrote,"
    ran = subprocess.run(asked, check=False, stdin=subprocess.DEVNULL, stdout=subprocess.PIPE, stderr=subprocess.DEVNULL, timeout=SECONDS)
    return f"round {int(re.search(rb'(?m)^rounds ([0-9]+)$', ran.stdout)[1]) + 1}"


def way_out(cores, rounds, threads):
    """A limit that is enough: each round has its opening, a unit and an attempt of each core, and each thread comes once a burst."""
    comings = sum(words.count("run") + words.count("forever") for words in threads)
    each = 1 + 2 * cores
    enough = min(rounds * (each + len(threads)), rounds * each + comings + len(threads))
    if enough <= MOST_ENTRIES:
        return f"`entries {enough}` is enough for all of them"
    return f"All of them may need {enough:,}, and a limit is at most {MOST_ENTRIES:,}: name that, or fewer rounds"


# Status 9.


def of_not_whole(names, texts, said):
    """Which rule a history breaks, or what it lacks, by the lines of `why`."""
    with open(names["history"], "rb") as it:
        history = it.read(LONGEST["history"])
    weighs = weight_range(policies.tokens_of(texts["policy"])) is not None
    return of_why(names["history"], history, texts["trace"], weighs, said.decode("ascii").split("\n")[:-1])


# Status 10.


def of_too_long(kind, file):
    named = "text of certificates" if kind == "certs" else kind
    return f"{file}: it has {os.path.getsize(file):,} bytes, and a {named} has at most {LONGEST[kind]:,}"


def of_too_many(file, text, name):
    found = policies.cases_of(policies.tokens_of(text), name)
    if not found or found[0] <= 256:
        return f"{file}: {name} has more than 256 cases, the most that are decided"
    count, twice = found
    said = f"{file}: {name} has {count:,} cases, and at most 256 are decided"
    if not twice:
        return said + (". Their numbers multiply where an `or` stands below an `and`" if name in ("B2", "B3", "B4") else ". Their numbers multiply where an `and` stands below an `or`")
    asks = "asks where it is false, so there each `==` counts twice" if name == "B1" or name[:2] == "H2" else "counts each `!=` twice, and each `==` under a `not`"
    return f"{said}. It {asks}: here {twice} do. `self.nr < 1` says what `self.nr == 0` says, and counts once"


def texts_of(command, words):
    """The names of the command's files by their kinds, and what is in those that are short; nothing where one can't be read twice."""
    names = dict(zip(FILES.get(command, []), words))
    if not names or not all(os.path.isfile(it) for it in names.values()):
        return None, None
    texts = {}
    for kind in names.keys() & {"policy", "trace"}:
        with open(names[kind], "rb") as it:
            texts[kind] = it.read(LONGEST[kind] + 1)
    return names, texts


def sentence(status, program, command, words):
    names, texts = texts_of(command, words)
    if status == 8 and names is None:
        return f"ipanema: the next round might not fit the limit of entries; a line `entries E` of the trace names another, up to {MOST_ENTRIES:,}"
    if status == 8:
        asked = None if command in ("run", "crew") else [program, "waste", *words]
        return of_stopped(names["trace"], texts["trace"], asked)
    if names is None and status == 9:
        return None
    if names is None:
        return "ipanema: a text that comes through a pipe is gone now, so its place isn't shown; keep it in a file"
    how = {"stdin": subprocess.DEVNULL, "stdout": subprocess.PIPE, "stderr": subprocess.DEVNULL, "timeout": SECONDS}
    if "/dev/stdin" in names.values() or any(it.startswith(("/dev/fd/", "/proc/")) for it in names.values()):
        del how["stdin"]
    if status == 9:
        command, how["timeout"] = "why", WHY_SECONDS
    ran = subprocess.run([program, command, *words], check=False, **how)
    if ran.returncode != status:
        return None
    if status == 9:
        return of_not_whole(names, texts, ran.stdout)
    kind, *rest = ran.stdout.decode("ascii").split("\n")[0].split(" ")
    if kind == "policy":
        return of_policy(names["policy"], texts["policy"], int(rest[0]), rest[1])
    if kind == "trace":
        return of_trace(names[kind], texts[kind], int(rest[0]), rest[1], policies.tokens_of(texts["policy"]))
    if kind == "history":
        return of_history(names[kind], int(rest[0]), texts["trace"])
    if kind == "certs":
        return of_certs(names[kind], int(rest[0]))
    if kind == "too-long":
        return of_too_long(rest[0], names[rest[0]])
    return of_too_many(names["policy"], texts["policy"], rest[0]) if kind == "too-many-cases" else None


def main(status, program, command, *words):
    said = sentence(int(status), program, command, words)
    if said:
        sys.stdout.buffer.write(os.fsencode(said) + b"\n")


main(*sys.argv[1:])
