"""What `tools/try_workbench` tries by the mouse: clicks on the text of both editors, on views, on bars, and on what
opens."""

from web.page import require
from web.policy_trials import EXAMPLES, file_of

# How far a point beside a text is from it: in the number column, and right of a line's last letter.
BESIDE = 40
# In each editor: a text before the letter that is clicked, that letter, what is typed in its place, and where a change
# is seen, with what stands there then.
EDITS = {
    "policy": ("self.nr >= ", "3", "2", "#answer", "accepted"),
    "trace": ("thread 2 core ", "1", "7", "#trace .said", "Line 4: 7 is out of its range, 0..1 (a core)"),
}
# Whether all of an element lies within the view.
IS_SEEN = """(() => { const [box, room] = ["#happens %s", "#happens"]
    .map((name) => document.querySelector(name).getBoundingClientRect());
  return box.height > 0 && box.top >= room.top - 1 && box.bottom <= room.bottom + 1; })()"""


def try_clicks(page):
    """A click on the text of an editor puts the caret there, and what is typed is judged."""
    for part, (before, letter, typed, place, wanted) in EDITS.items():
        text, at = begin(page, part, before)
        page.browser.click(*page.letter(part, at))
        require([at, at], page.selected(part), f"the caret behind a click on {letter} in the {part}")
        page.browser.press("Delete")
        page.browser.type(typed)
        require(text[:at] + typed + text[at + 1:], page.typed(part), f"what is typed in the {part}")
        page.until_text(place, wanted, f"what is said of the {part}")
        try_edges(page, part, at)


def begin(page, part, before):
    """The text of the editor, and the number of the letter behind that part of it. No field has the focus."""
    page.choose_policy("timid", "witnesses/timid")
    page.view("trace")
    page.until_typed("trace", (EXAMPLES / "witnesses" / "timid.trace").read_text(), "the trace")
    page.value("document.activeElement.blur()")
    text = page.typed(part)
    return text, text.index(before) + len(before)


def try_edges(page, part, at):
    """Left of a line and right of it a click goes to its first letter and behind its last one."""
    text = page.typed(part)
    start, end = text.rindex("\n", 0, at) + 1, text.index("\n", at)
    for place, step in ((start, -BESIDE), (end, BESIDE)):
        x, y = page.letter(part, place)
        page.browser.click(x + step, y)
        require([place, place], page.selected(part), f"the caret behind a click {step} points beside the {part}")
    for place in (0, len(text) - 1):
        page.browser.click(*page.letter(part, place))
        require([place, place], page.selected(part), f"the caret behind a click on letter {place} of the {part}")


def try_long(page):
    """So it is in a text that is scrolled, and in a line that is as long as three."""
    text = file_of("timid").read_text() + f"# {'many words ' * 18}\n" + "# a line\n" * 60
    page.type_policy(text)
    page.judged()
    for at in (text.index("# many"), text.index("# many") + 150, text.index("# a line"), len(text) - 4):
        page.value("document.activeElement.blur()")
        page.browser.click(*page.letter("policy", at))
        require([at, at], page.selected("policy"), f"the caret behind a click on letter {at} of a long text")


def try_select(page):
    """A double click selects a word that typing replaces, and with its button held down the mouse selects."""
    for part, (before, letter, typed, place, wanted) in EDITS.items():
        text, at = begin(page, part, before)
        x, y = page.letter(part, at)
        page.browser.click(x + 2, y, 2)
        require([at, at + len(letter)], page.selected(part), f"what a double click selects in the {part}")
        page.browser.type(typed)
        page.until_text(place, wanted, f"what is said of the {part}")
        page.browser.drag(page.letter(part, 0), page.letter(part, at))
        require([0, at], page.selected(part), f"what the mouse selects in the {part}")
        page.browser.type("# ")
        require("# " + typed + text[at + 1:], page.typed(part), f"what is typed over the selection in the {part}")


def try_mouse(page):
    """Behind a click on a view the arrow keys step in it. A click on a bar goes to its round, and they go on there."""
    page.choose_policy("timid", "witnesses/timid")
    page.point_at("#tab-happens")
    page.until_text("#happens .said", "Simulated", "the steps")
    page.browser.press("Home")
    page.browser.press("ArrowRight")
    require("1", page.value("document.getElementById('happens').dataset.at"), "the entry behind a step")
    page.focus("#policy .typed")
    page.point_at("#happens .bar[data-round='2'] .back")
    for words in ("Round 2 begins.", "Core 0 has no thread to run.",
                  "Core 0 looks at the cores and finds none to steal from."):
        require(words, page.text("#sentence"), "what is said from the bar on")
        page.browser.press("ArrowRight")


def try_opens(page):
    """What opens below the steps is scrolled into view, and the view goes on to its end."""
    page.choose_policy("timid", "witnesses/timid")
    page.view("happens")
    page.until_text("#happens .said", "Simulated", "the steps")
    for opened, seen in ((".steps details", "#legend .item:last-child"), (".lines", ".lines pre")):
        page.value(f"document.querySelector('#happens {opened} summary').scrollIntoView({{ block: 'nearest' }})")
        page.point_at(f"#happens {opened} summary")
        page.until(f"document.querySelector('#happens {opened}').open", f"what {opened} opens")
        page.until(IS_SEEN % seen, f"{seen} in view")


MOUSE_TRIALS = [try_clicks, try_long, try_select, try_mouse, try_opens]
