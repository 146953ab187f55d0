"""What `tools/try_workbench` tries of the policy's part: verdicts, points, faults, undo and menus. What is seen there must
be what `./ipanema` writes."""

import subprocess
import time

from browser import CONTROL
from web.page import OBLIGATIONS, TOP, WRONG_LINE, require

EXAMPLES = TOP / "examples"
GALLERY = sorted((EXAMPLES / "gallery").glob("*.policy"))
# Holds back what is answered on the policy `eager`, so that it comes behind what is asked later.
HOLD_BACK = """(() => { const real = window.fetch; window.fetch = async (...words) => {
    const response = await real(...words);
    if (words[1] && words[1].body.includes("policy eager")) await new Promise((go) => { setTimeout(go, 1500); });
    return response;
}; })()"""


def asked(*words):
    """The lines that ./ipanema writes on these words, and what it says beside."""
    done = subprocess.run([TOP / "ipanema", *words], capture_output=True, text=True, check=False)
    return done.stdout.rstrip("\n").split("\n"), done.stderr


def file_of(policy):
    return next(path for folder in (EXAMPLES, EXAMPLES / "gallery") if (path := folder / f"{policy}.policy").exists())


def try_gallery(page):
    """Each policy of the gallery and its wrong neighbour: the lines of `check`, and the point of what fails."""
    for path in GALLERY:
        lines, _ = asked("check", path)
        page.type_policy(path.read_text())
        require(lines[-1], page.judged(), f"the verdict on {path.stem}")
        require(lines[:-1], page.value(OBLIGATIONS), f"the obligations of {path.stem}")
        fails = [line.split()[0] for line in lines if line.endswith(" fails")]
        if fails:
            check_point(page, path, fails[0])
        page.check_layout(f"of {path.stem}")


def check_point(page, path, name):
    """The first failing obligation is drawn by itself, with the numbers of `explain`, and read aloud."""
    told = asked("explain", path, name)[0][0]
    page.until_text("#point code", told, f"the point of {path.stem}")
    numbers = dict(word.split("=") for word in told.split()[2:])
    drawn = page.value("[...document.querySelectorAll('#point .core')].map((one) => one.querySelectorAll('b').length)")
    wanted = [min(int(numbers[f"{side}.nr"]), 9) for side in ("self", "victim")] if name.startswith("B") else []
    require(wanted, drawn, f"how many threads the point of {path.stem} has")
    require(True, len(page.text("#point .aloud")) > 60, f"whether the point of {path.stem} is read aloud")


def try_obligations(page):
    """A pressed obligation says what it asks, and shows its point if it fails."""
    page.choose_policy("eager")
    page.view("more")
    page.click("[data-name='H2.tick']")
    asks = "H2.tick: At least one rule applies to a thread at the event tick."
    require(asks, page.text("#asks"), "what H2.tick asks")
    told = asked("explain", file_of("eager"), "B3")[0][0]
    page.until("!document.getElementById('point').textContent.includes('B3 fails')", "another point")
    page.until("(document.querySelector(\"[data-name='B3']\").click(), true)", "B3")
    page.until_text("#point code", told, "the point of B3")
    require(False, page.value("document.getElementById('point').hidden"), "whether the point is hidden")


def try_faults(page):
    """Each kind of fault: the program's line, its sentence, and the line of the text."""
    for path in sorted((EXAMPLES / "faults").glob("*.policy")):
        if path.read_bytes().isascii():
            check_fault(page, path)
    page.type_policy("policy p\nload count # \N{LATIN SMALL LETTER A WITH DIAERESIS}\n")
    require("policy 22 not-ascii", page.judged(), "the answer on a sign that isn't ASCII")
    require(2, page.value(WRONG_LINE), "the marked line of that sign")


def check_fault(page, path):
    lines, said = asked("check", path)
    page.type_policy(path.read_text())
    require(lines[0], page.judged(), f"the answer on {path.stem}")
    if lines[0].startswith("policy "):
        _, line, _, sentence = said.split(":", 3)
        require(f"Line {line}: {sentence.strip()}", page.text("#fault"), f"the sentence on {path.stem}")
        require(int(line), page.value(WRONG_LINE), f"the marked line of {path.stem}")
    page.check_layout(f"of the fault {path.stem}")


def try_undo(page):
    """What is chosen in a menu can be undone like what is typed."""
    page.choose_policy("basic")
    page.choose_policy("fair")
    page.focus("#policy .typed")
    page.browser.press("z", CONTROL)
    page.until_typed("policy", file_of("basic").read_text(), "the text before")
    page.judged()


def try_late_answers(page):
    """An answer that comes late never stands in the place of that on a newer text."""
    page.value(HOLD_BACK)
    for name in ("knapsack", "eager", "basic"):
        page.type_policy(file_of(name).read_text())
        time.sleep(0.4)
    require("accepted", page.judged(), "the last verdict")
    time.sleep(2)
    require("accepted", page.text("#answer"), "the verdict that stays")


def try_neighbour(page):
    """From a policy to its wrong neighbour and back, with the trace that shows it."""
    require("accepted", page.choose_policy("counts"), "the verdict on counts")
    page.click("#neighbour")
    require("refused", page.judged(), "the verdict on its wrong neighbour")
    wanted = (EXAMPLES / "witnesses" / "counts-wrong.trace").read_text()
    require(wanted, page.typed("trace"), "the trace that comes with it")
    page.click("#neighbour")
    require("accepted", page.judged(), "the verdict on the right one")
    require(file_of("counts").read_text(), page.typed("policy"), "the right one")


POLICY_TRIALS = [try_gallery, try_obligations, try_faults, try_undo, try_late_answers, try_neighbour]
