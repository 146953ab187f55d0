"""What the page of `tools/workbench` is told once: policies and traces of `examples`, what each obligation asks, words
to be coloured, and the commands of the program. All of it is read when the workbench starts."""

import re
import subprocess
from pathlib import Path

from common import Refused

TOP = Path(__file__).resolve().parent.parent.parent
EXAMPLES = TOP / "examples"
LEVELS, GALLERY, PLAIN = "levels", "gallery", "examples"
# The kinds of words that a command may take here.
TAKEN = {"POLICY", "TRACE", "HISTORY", "NAME", "WORKERS"}
# Where traces are.
TRACES = ["", "witnesses", "batch", "fair"]
# What vim spells differently in a pattern.
SPELLED = {r"\%(": "(?:", r"\<": r"\b", r"\>": r"\b", r"\h": "[A-Za-z_]", **{"\\" + sign: sign for sign in "()|?+"}}


# ---- policies and traces


def policies():
    """Each policy with its menu, its name, its text, and the names of its wrong neighbour and of a trace for it."""
    found = [policy_of(PLAIN, path) for path in sorted(EXAMPLES.glob("*.policy"))]
    found += [policy_of(GALLERY, path) for path in sorted((EXAMPLES / "gallery").glob("*.policy"))]
    return found


def policy_of(menu, path):
    text = path.read_text()
    wrong = path.with_name(f"{path.stem}-wrong.policy")
    return {
        "menu": LEVELS if text.startswith("levels ") else menu, "name": path.stem, "text": text,
        "wrong": wrong.stem if wrong.exists() else None, "trace": trace_beside(path.stem.removesuffix("-wrong")),
    }


def trace_beside(name):
    """The name of a trace that fits the policy, if there is one of its own."""
    places = [f"witnesses/{name}.trace", f"witnesses/{name}-wrong.trace", f"{name}/block_and_wake.trace"]
    return next((place.removesuffix(".trace") for place in places if (EXAMPLES / place).exists()), None)


def traces():
    return [{"name": str(path.relative_to(EXAMPLES)).removesuffix(".trace"), "text": path.read_text()}
            for folder in TRACES for path in sorted((EXAMPLES / folder).glob("*.trace"))]


# ---- what an obligation asks, by the table of the gallery


def obligations():
    """A sentence for each kind. Of a handler the table has the event `tick`, and here it is any event, called e."""
    rows = dict(re.findall(r"(?m)^\| `(B\d|H\d)(?:\.tick)?` \| (.*) \|$", (TOP / "docs" / "GALLERY.md").read_text()))
    return {name: re.sub(r"applies to .*", "applies to a thread at the event e.", asks) for name, asks in rows.items()}


# ---- colours, by the word lists of the file for vim


def colours():
    """For policies and traces: kinds of words with their patterns. Where several fit, the first counts."""
    parts = re.split(r"(?m)^(?:if expand\('%:e'\) ==# '|elseif expand\('%:e'\) ==# '|else$|endif$)",
                     (TOP / "tools" / "ipanema.vim").read_text())
    trace, _, policy, number = parts[-4:]
    return {"policy": rules_of(policy + number), "trace": rules_of(trace + number)}


def rules_of(text):
    """In vim a keyword comes before a match, and of two matches the later one."""
    keywords, matches = [], []
    for form, kind, rest in re.findall(r"(?m)^\s*syntax (keyword|match) ipanema(\w+) (.*)$", text):
        if form == "keyword":
            keywords.append([kind.lower(), rf"\b(?:{'|'.join(rest.split())})\b"])
        else:
            matches.insert(0, [kind.lower(), pattern_of(rest.strip("/"))])
    return keywords + matches


def pattern_of(text):
    """A pattern of vim as one of JavaScript. A sign with a backslash in the one is a sign without it in the other."""
    def spell(found):
        word = found[0]
        return SPELLED.get(word) or (word if word[0] == "\\" else "\\" + word)

    return re.sub(r"\\%\(|\\.|[()|?+]", spell, text)


# ---- the program


def commands(program):
    """The commands that the program's help names, each with the kinds of its words, and what it does."""
    said = subprocess.run([program, "help"], capture_output=True, text=True, check=False)
    if said.returncode:
        raise Refused(f"ipanema help ends with status {said.returncode}")
    rows = re.findall(r"(?m)^ +ipanema (\w+)((?: [A-Z]+)+) {2,}(.+)$", said.stderr)
    return {name: {"words": words.split(), "does": does} for name, words, does in rows if set(words.split()) <= TAKEN}


def told(program, version):
    return {
        "policies": policies(), "traces": traces(), "obligations": obligations(), "colours": colours(),
        "commands": commands(program), "version": version,
    }
