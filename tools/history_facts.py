"""Tells a history for a page that steps through it, for `tools/classroom` and `tools/workbench`: its entries, what the
judge says of it, and its report.

    tools/history_facts.py POLICY TRACE            of the history that is played, as JSON. Where the policy isn't
                                                   accepted, it is the one that is simulated
    tools/history_facts.py POLICY TRACE HISTORY    of that history; under a policy that isn't accepted it must be the
                                                   one that is simulated
"""

import json
import sys

sys.dont_write_bytecode = True
from ask_ipanema import cores_in, entries_in, told_of, weights_in
from attributes import told as told_attributes
from common import Refused, read_file, run, say, write
from histories import read_history
from history_steps import Walk, words_of
from legal_instead import instead_of

MOST_ENTRIES = 600


def require_few(text):
    entries = entries_in(text)
    if entries > MOST_ENTRIES:
        raise Refused(f"the history has {entries} entries, and a page takes at most {MOST_ENTRIES}")


def facts_of(policy, trace, text, verdict, report):
    """All that a page is told, of a history and what was said of it."""
    lines, walk = read_history(text), Walk(cores_in(trace))
    steps = [walk.step(line) for line in lines[:verdict.legal]]
    for line in report.fails if report else []:
        steps[line.values["position"]]["cause"] = line.values["by"]
    for line in report.unexplained if report else []:
        steps[line.values["position"]]["unexplained"] = True
    before = text.decode("ascii", "replace").split("\n")[:verdict.legal + text.startswith(b"history ")]
    return {
        "cores": cores_in(trace), "steps": steps, "illegal": illegal_in(policy, trace, before, lines, walk, verdict),
        "verdict": verdict_words(verdict), "word": verdict.word, "unjudged": max(len(lines) - verdict.legal - 1, 0),
        "rounds": [line.values for line in report.rounds] if report else [],
        "report": report_lines(report) if report else [], "weights": weights_in(policy, trace),
        "attributes": told_attributes(policy, trace, lines[:verdict.legal]),
    }


def illegal_in(policy, trace, before, lines, walk, verdict):
    """The first entry that isn't legal, or None: what it read, the program's line, and an entry that is legal in its place, or None."""
    if verdict.word != "illegal":
        return None
    line = lines[verdict.legal]
    instead = instead_of(policy, trace, before, line, walk)
    return {"kind": "illegal", "text": line.text, "words": words_of(line), "core": line.values.get("core"), "reads": walk.reads(line),
            "says": verdict.line, "instead": instead}


def report_lines(report):
    """The lines of a report, but for those of its rounds."""
    stretches = [line for pair in zip(report.stills, report.rests) for line in pair]
    fails = sorted(report.fails + report.unexplained, key=lambda line: line.values["position"])
    return [line.text for line in stretches + fails] + [f"{name} {count}" for name, count in report.totals.items()]


def verdict_words(verdict):
    return f"{verdict.line}: " + {
        "whole": "every entry is legal, and no more is due.",
        "illegal": f"the entry at position {verdict.legal} isn't legal after those before it.",
        "short": "every entry is legal, but more have to come.",
        "simulated": "the policy isn't accepted. This is what it does.",
    }[verdict.word]


def read_facts(policy, trace, *history):
    """The facts of the history in the third file, or of what is played where only two are named."""
    text = read_file(*history) if history else None
    if text is not None:
        require_few(text)
    text, *said = told_of(policy, trace, text)
    require_few(text)
    return facts_of(policy, trace, text, *said)


def main(words):
    if len(words) not in (2, 3):
        say("usage: tools/history_facts.py POLICY TRACE [HISTORY] > FACTS.json")
        return 2
    write(json.dumps(read_facts(*words)) + "\n", "text")
    return 0


if __name__ == "__main__":
    run("tools/history_facts.py", main)
