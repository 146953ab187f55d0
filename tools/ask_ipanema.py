"""Asks the program `ipanema`, for the scripts beside this file, and reads policies and traces that it has found no fault in."""

import functools
import os
import re
import subprocess
from collections import namedtuple
from pathlib import Path

from common import LONGEST, Refused, passing, read_file
from histories import read_report, read_waste

TOP = Path(__file__).resolve().parent.parent
# The variable IPANEMA may name another program, as it does for tools/ci_recipe.
PROGRAM = Path(os.environ.get("IPANEMA") or TOP / "ipanema")
WHOLE, STOPPED, NOT_WHOLE = 0, 8, 9
VERDICTS = {1, 3}
MEANS = {
    4: "it couldn't read a file", 5: "it couldn't write its output", 6: "it had no memory",
    STOPPED: "the next round might not fit the trace's limit of entries", 70: "it couldn't be built",
}

# What the judge says: a word, how many entries are legal from the first on, and the line itself.
Verdict = namedtuple("Verdict", "word legal line")


# ---- what the program says


@functools.cache
def build():
    """Should the program have to be built, this call says so."""
    subprocess.run([PROGRAM, "make", "1", "1"], stdout=subprocess.DEVNULL, check=False)


def program():
    """The program that ./ipanema uses, without its look at all sources."""
    build()
    said = subprocess.run(["bash", "-pc", 'top="$PWD"; source tools/front/programs.bash; program_of'], cwd=TOP,
                          stdout=subprocess.PIPE, check=False, text=True)
    if said.returncode:
        raise Refused("there is no program; ./ipanema builds one")
    return said.stdout.removesuffix("\n")


def ask(statuses, *words):
    """What `ipanema` writes on these words. It must end with one of the statuses. What it says beside, the script says itself."""
    try:
        build()
        answer = subprocess.run([PROGRAM, *words], stdout=subprocess.PIPE, stderr=subprocess.DEVNULL, check=False)
    except OSError as error:
        raise Refused(f"ipanema can't be run: {error.strerror}") from error
    if answer.returncode not in statuses:
        said = answer.stdout.decode("ascii", "replace").split("\n")
        raise Refused(f"ipanema {words[0]} ends with status {answer.returncode}: {fault_in(said, answer.returncode)}")
    return answer.stdout


def fault_in(said, status):
    """What is wrong, by the status or the lines that the program wrote: those of `check` where the policy isn't accepted."""
    lines = [line for line in said if line]
    if status in MEANS or not lines:
        return MEANS.get(status, "it wrote nothing")
    wrong = [line for line in lines[:-1] if not line.endswith(" holds")]
    return f"the policy is {lines[-1]}, {wrong[0]}" if status in VERDICTS and wrong else lines[-1]


def verdict_in(said):
    """The verdict that the program writes."""
    line = said.decode("ascii").strip()
    word, legal = line.split(" ")
    return Verdict(word, int(legal), line)


def judge(policy, trace, history):
    """The verdict on the history in that file, under an accepted policy."""
    return verdict_in(ask((WHOLE, NOT_WHOLE), "replay", policy, trace, history))


def judge_if_accepted(policy, trace, history):
    """The same, or None where the policy isn't accepted."""
    said = ask({WHOLE, NOT_WHOLE} | VERDICTS, "replay", policy, trace, history)
    return None if said.endswith((b"refused\n", b"undecided\n")) else verdict_in(said)


def report_of(policy, trace, history, verdict):
    """The report of a whole history, or None."""
    if verdict.word != "whole":
        return None
    return read_report(ask((WHOLE,), "report", policy, trace, history))


def played(policy, trace):
    """The history that is played of the trace, or None where the policy isn't accepted."""
    text = ask({WHOLE, STOPPED} | VERDICTS, "play", policy, trace)
    return None if text.endswith((b"refused\n", b"undecided\n")) else text


def simulated(policy, trace):
    """The same under a policy that needn't be accepted."""
    return ask((WHOLE, STOPPED), "simulate", policy, trace)


def waste_of(policy, trace):
    """What that history wastes."""
    return read_waste(ask((WHOLE, STOPPED), "waste", policy, trace))


def told_of(policy, trace, text=None):
    """A history with what the program says of it: its text, the verdict, and the report where there is one.

    Without a text it is what is played, or simulated where the policy isn't accepted. Under such a policy nothing is judged, and a
    text must be the one that is simulated.
    """
    text = text if text is not None else played(policy, trace)
    if text is not None:
        with passing(text) as history:
            verdict = judge_if_accepted(policy, trace, history)
            if verdict:
                return text, verdict, report_of(policy, trace, history, verdict)
    made = simulated(policy, trace)
    if text not in (None, made):
        raise Refused("the policy isn't accepted, so no history is judged; only the one that `ipanema simulate` writes is taken")
    count = entries_in(made)
    return made, Verdict("simulated", count, f"simulated {count}"), waste_of(policy, trace)


def entries_in(text):
    """How many entries the text has, if it is a history: the header of the second format is none."""
    return text.count(b"\n") - text.startswith(b"history ")


# ---- the files


def words_in(name):
    """The words of the lines that say something. `#` begins what says nothing, as in a trace and in a policy."""
    lines = (re.sub(r"#.*", "", line).split() for line in read_file(name, LONGEST["trace"]).decode("latin-1").split("\n"))
    return [words for words in lines if words]


def cores_in(trace):
    """How many cores the trace names in its first line that says something."""
    return int(words_in(trace)[0][1])


def weights_in(policy, trace):
    """The weight of each thread of the trace. The fourth word of a policy says whether it asks for weights."""
    counts = [word for words in words_in(policy) for word in words][3] == "count"
    threads = [words for words in words_in(trace) if words[0] == "thread"]
    return {int(words[1]): 1 if counts or "weight" not in words else int(words[words.index("weight") + 1]) for words in threads}
