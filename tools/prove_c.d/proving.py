"""Has frama-c prove contracts of headers, and reads what it says of each function."""

import functools
import hashlib
import os
import re
import shutil
import subprocess
from collections import namedtuple
from pathlib import Path

from common import Refused, folder
from contracts import CUT, Contracts

# Why no proof can be had, of a function, in the place of goals.
WIDE, UNKNOWN, MISSING = "__int128", "no-contract", "no-function"
# What stands behind a goal for which the prover had no time.
GIVEN_UP = ":timeout"
Verdict = namedtuple("Verdict", "function unproved")
# The solvers, by why3's names, which are those of their programs too. The first proves orders in few steps, on which the second takes
# many; it is asked where it is installed, and the second what it can't prove.
SOLVERS = ("cvc4", "z3") if shutil.which("cvc4") else ("z3",)
PROVERS = ",".join(SOLVERS)
# Which provers are asked, how many seconds and steps one may take for a goal, and how many may be at work at a time.
Limits = namedtuple("Limits", "provers timeout steps par", defaults=[PROVERS, 60, 20_000_000, 2])
# How frama-c is called. A function of which the policy knows nothing is told of by no-contract.
FRAMA_C = ["frama-c", "-wp", "-wp-rte", "-warn-signed-downcast", "-wp-warn-key", "pedantic-assigns=inactive"]
FUNCTION = re.compile(r"^static inline [^\n;]*\n(\w+)\((?:[^{]|\n)*?\)\n\{\n.*?^\}\n", re.MULTILINE | re.DOTALL)
# A goal with what came of it, or, where two provers failed, with a line for each of them.
GOAL = re.compile(r"^\[wp\] \[[^]]*\] Goal typed_(\w+)(?: : (\w+).*)?((?:\n  \S.*)*)", re.MULTILINE)
FAILED = re.compile(r"^  [^:]+: (\w+)", re.MULTILINE)
PROVED = re.compile(r"^\[wp\] Proved goals: +(\d+) / (\d+)$", re.MULTILINE)
KINDS = "ensures|assigns|assert|check|call|requires"
COMMENT = re.compile(r"/\*.*?\*/", re.DOTALL)
DEFINE = re.compile(r"^#define (\w+).*\n", re.MULTILINE)
WORD = re.compile(r"\w+")


def missing(provers=PROVERS):
    """What this machine lacks, in words, or nothing."""
    needed = ["frama-c", "why3", "gcc", *(SOLVERS if provers == PROVERS else ())]
    return next((f"there is no {program}" for program in needed if not shutil.which(program)), "")


def functions_of(header):
    """The functions of a header, by name."""
    return {match.group(1): match.group(0) for match in FUNCTION.finditer(header)}


@functools.cache
def versions():
    """The versions of all that takes part in a proof, as their programs print them."""
    words = [["frama-c", "-version"], ["why3", "--version"], *([solver, "--version"] for solver in SOLVERS)]
    return "".join(subprocess.run(each, stdout=subprocess.PIPE, check=False, text=True).stdout for each in words)


class Job:
    """A policy, and a header that is to be its one, or its draft where it isn't accepted."""

    def __init__(self, policy, header, draft=False):
        self.policy, self.contracts = policy, Contracts(policy, draft)
        self.functions = functions_of(header)
        self.wide = {name for name, text in self.functions.items() if WIDE in text}
        self.header = header
        for name in self.wide:
            self.header = self.header.replace(self.functions[name], "")
        self.all = self.contracts.all()
        if not any(contract.function in self.functions for contract in self.all):
            raise Refused(f"this isn't a header of the policy {policy.name}")
        self.early = {contract.function: why for contract in self.all if (why := self.reason(contract))}
        self.asked = [contract for contract in self.all if contract.function not in self.early]

    def reason(self, contract):
        """Why nothing can be proved of this function, or nothing."""
        if contract.function in self.wide:
            return WIDE
        return "" if contract.body or contract.function in self.functions else MISSING

    @staticmethod
    def contract_text(contract):
        clauses = "\n    ".join(contract.clauses)
        body = f"\n{{\n\t{contract.body}\n}}" if contract.body else ";"
        return f"/*@ {clauses}\n*/\n{contract.head}{body}"

    def text(self):
        """The header with the contracts behind it."""
        return "\n".join([self.header, *self.contracts.lists(), *map(self.contract_text, self.asked)]) + "\n"

    def names(self):
        """All functions, also those of the header for which the policy has no rule."""
        known = [contract.function for contract in self.all]
        return known + [name for name in self.functions if name not in known]

    def sums(self):
        """Of each function that is asked of the checksum of all that its proof rests on: its text and its contract, the header's types, the
        macros and functions that it names, and the provers. The policy's name counts for nothing, nor do comments."""
        frame = functools.reduce(lambda text, gone: text.replace(gone, ""), self.functions.values(), self.header)
        frame = "\n".join([COMMENT.sub("", frame), *self.contracts.lists()])
        types, macros = DEFINE.sub("", frame), {match.group(1): match.group(0) for match in DEFINE.finditer(frame)}
        own = {contract.function: self.contract_text(contract) + self.functions.get(contract.function, "") for contract in self.asked}
        return {name: self.sum([CUT, *self.named_in(types + text, macros | self.functions | own)]) for name, text in own.items()}

    @staticmethod
    def named_in(text, known):
        """The text, and all known ones that are named in it, or in one of these."""
        found, left = {}, [text]
        while left:
            found |= (more := {word: known[word] for word in WORD.findall(left.pop()) if word in known and word not in found})
            left += more.values()
        return [text, *found.values()]

    def sum(self, parts):
        text = re.sub(rf"\b{self.policy.name}_", "made_policy_", "\n".join(parts))
        return hashlib.sha256("\n".join([text, *FRAMA_C, versions()]).encode("latin-1")).hexdigest()

    def verdicts(self, goals):
        """What is said of each function. Of those that were asked of these are the goals that are left."""
        for name in self.names():
            early = self.early.get(name) or (name not in goals and UNKNOWN)
            yield Verdict(name, [early] if early else goals[name])


def environment(work):
    """The variables for frama-c. Which provers there are is found out anew, and no file of the caller's is changed."""
    variables = {**os.environ, "WHY3CONFIG": str(work / "why3.conf"), "TMPDIR": str(work), "PWD": str(work)}
    subprocess.run(["why3", "config", "detect"], env=variables, stdout=subprocess.DEVNULL, stderr=subprocess.DEVNULL, check=False)
    return variables


def ask(work, text, limits, functions):
    """What frama-c writes on these functions of the text. It would cut the names of goals behind 59 letters."""
    (work / "proved.c").write_text(text)
    asked = {"prover": limits.provers, "timeout": limits.timeout, "steps": limits.steps, "par": limits.par, "fct": ",".join(functions),
             "filename-truncation": 200}
    words = FRAMA_C + [word for name, value in asked.items() for word in (f"-wp-{name}", str(value))]
    done = subprocess.run([*words, "proved.c"], cwd=work, env=environment(work), stdout=subprocess.PIPE, stderr=subprocess.STDOUT,
                          check=False, text=True)
    trouble = next((line for line in done.stdout.splitlines() if "rror:" in line or "arning:" in line), "")
    if done.returncode or trouble:
        raise Refused(f"frama-c: {trouble or f'it ends with status {done.returncode}'}")
    return done.stdout


def goals_in(said, functions):
    """Of each function its goals, and whether each was proved. Their number must be the one that frama-c tells."""
    goals, count, proved = {}, 0, 0
    by_length = sorted(functions, key=len, reverse=True)
    for goal, how, provers in GOAL.findall(said):
        function = next((name for name in by_length if re.match(rf"{name}_(?:{KINDS})", goal)), None)
        if function is None:
            raise Refused(f"frama-c: its goal {goal} is of no function")
        hows = [how] if how else FAILED.findall(provers)
        word = goal[len(function) + 1:] + (GIVEN_UP if {"Timeout", "Stepout"}.issuperset(hows) else "")
        goals.setdefault(function, []).append((word, how == "Valid"))
        count, proved = count + 1, proved + (how == "Valid")
    told = PROVED.search(said)
    if not told or (proved, count) != tuple(map(int, told.groups())):
        raise Refused(f"frama-c: it tells of {told.group(0) if told else 'no'} goals, and {count} were read")
    if missed := next((name for name in functions if name not in goals), None):
        raise Refused(f"frama-c: it tells of no goal of {missed}")
    return goals


def prove(jobs, turns=(Limits(),), functions=None):
    """The goals that are left of each function, or of these. What isn't proved within the limits of one turn is asked again in the next. No
    two of the policies have the same name."""
    text = "\n".join([f"/*@ {CUT} */", *(job.text() for job in jobs)])
    left = [contract.function for job in jobs for contract in job.asked] if functions is None else functions
    unproved = {}
    with folder() as name:
        for limits in turns:
            if left:
                goals = goals_in(ask(Path(name), text, limits, left), left)
                unproved |= {function: sorted(goal for goal, proved in goals[function] if not proved) for function in left}
                left = [function for function in left if unproved[function]]
    return unproved
