"""The page of a workbench in a browser, for `tools/try_workbench`: what a user does there, and what is seen."""

import json
import os
import signal
import subprocess
import sys
import time
from contextlib import contextmanager
from pathlib import Path

from browser import CONTROL, Wrong
from common import folder, keep

TOP = Path(__file__).resolve().parent.parent.parent

# What runs out of its box: a text that is wider than the element that holds it, or that ends right of the window.
OUTSIDE = """[...document.querySelectorAll(
    "button, h1, h2, h3, p, th, td, label, summary, code, .core, .core *, .total, .word")].filter((one) => {
  const box = one.getBoundingClientRect();
  if (!box.width || one.closest("svg, .editor, dialog:not([open])")) return false;
  const isWide = one.scrollWidth > one.clientWidth + 1 && getComputedStyle(one).display !== "inline";
  return isWide || box.right > window.innerWidth + 1;
}).map((one) => `${one.tagName} ${one.className} ${one.textContent.slice(0, 40)}`)"""
OBLIGATIONS = """[...document.querySelectorAll("#obligations button")].map((one) => one.textContent)"""
IS_JUDGED = """!document.getElementById("policy").classList.contains("old")
    && document.getElementById("answer").textContent"""
WRONG_LINE = """1 + [...document.querySelectorAll("#policy .line")].findIndex((one) => one.matches(".wrong"))"""
# Where a letter of an editor is drawn: the point at its left edge, in the middle of its height. Behind the last letter
# of a line it is the line's end.
LETTER = """((part, at) => {
  const before = document.querySelector(`#${part} .typed`).value.slice(0, at).split("\\n");
  const row = document.querySelectorAll(`#${part} .line`)[before.length - 1];
  row.scrollIntoView({ block: "nearest" });
  const range = document.createRange();
  let rest = before.at(-1).length;
  const texts = document.createTreeWalker(row, NodeFilter.SHOW_TEXT);
  for (let text = texts.nextNode(); text; text = texts.nextNode()) {
    range.setStart(text, Math.min(rest, text.length));
    range.setEnd(text, Math.min(rest + 1, text.length));
    if (rest < text.length) break;
    rest -= text.length;
  }
  const box = range.getBoundingClientRect();
  return [box.left + 1, box.top + box.height / 2];
})"""


def require(wanted, seen, what):
    if wanted != seen:
        raise Wrong(f"{what} is {seen!r}, and should be {wanted!r}")


@contextmanager
def workbench(*words):
    """A workbench on these words, as long as it is tried. It must end by Ctrl-C, and leave nothing."""
    with folder() as place:
        # It hears an interrupt also where this script was begun to ignore it.
        process = subprocess.Popen(["env", "--default-signal=INT", sys.executable, TOP / "tools" / "workbench", *words],
                                   stdout=subprocess.PIPE, stderr=subprocess.DEVNULL, text=True,
                                   env={**os.environ, "TMPDIR": place})
        try:
            yield process.stdout.readline().strip()
        finally:
            process.send_signal(signal.SIGINT)
            process.wait(30)
            process.stdout.close()
        require([], [path.name for path in Path(place).iterdir()], "what the workbench leaves")


class Page:
    """The page of a workbench in a browser, in a window of that size."""

    def __init__(self, browser, address, size):
        self.browser, self.address = browser, address
        browser.open(address, *size)
        self.ready()

    def ready(self):
        self.until("document.body.dataset.ready", "the page")
        self.judged()

    # ---- what is seen

    def value(self, expression):
        return self.browser.value(expression)

    def until(self, expression, what):
        return self.browser.until(expression, what)

    def text(self, selector):
        """The text of the first element that is meant, or nothing."""
        return self.value(f"(document.querySelector({json.dumps(selector)}) || {{}}).textContent || ''")

    def until_text(self, selector, begins, what):
        """The text of an element, once it begins so."""
        begins, selector = json.dumps(begins), json.dumps(selector)
        return self.until(f"""(() => {{ const one = document.querySelector({selector});
            return one && one.textContent.startsWith({begins}) && one.textContent; }})()""", what)

    def typed(self, part):
        """The text of an editor."""
        return self.value(f"document.querySelector('#{part} .typed').value")

    def until_typed(self, part, text, what):
        self.until(f"document.querySelector('#{part} .typed').value === {json.dumps(text)}", what)

    def count(self, selector):
        return self.value(f"document.querySelectorAll({json.dumps(selector)}).length")

    def until_count(self, selector, count, what):
        self.until(f"document.querySelectorAll({json.dumps(selector)}).length === {count}", what)

    def judged(self):
        """The word of the verdict, once it is that of the text."""
        return self.until(IS_JUDGED, "a verdict")

    def check_layout(self, what):
        require([], self.value(OUTSIDE), f"what runs out of its box, {what},")

    def check_quiet(self):
        """No error on the console, and nothing asked of another address."""
        for error in self.browser.errors():
            raise Wrong(f"the console has {error}")
        own = (self.address.rsplit("/", 2)[0], "data:", "blob:")
        others = [one for one in self.browser.addresses() if not one.startswith(own)]
        require([], others, "what was asked of other addresses")

    # ---- what is done

    def click(self, selector):
        self.value(f"document.querySelector({json.dumps(selector)}).click()")

    def point_at(self, selector):
        """Clicks with the mouse on the middle of an element."""
        self.browser.click(*self.value(f"""(() => {{
            const box = document.querySelector({json.dumps(selector)}).getBoundingClientRect();
            return [box.x + box.width / 2, box.y + box.height / 2]; }})()"""))

    def letter(self, part, at):
        """The point of the window where the letter with that number is drawn, in the text of an editor."""
        return self.value(f"{LETTER}({json.dumps(part)}, {at})")

    def selected(self, part):
        """From where to where the text of an editor is selected, if the editor has the focus. A caret has both alike."""
        return self.value(f"""(() => {{ const area = document.querySelector("#{part} .typed");
            return document.activeElement === area && [area.selectionStart, area.selectionEnd]; }})()""")

    def view(self, name):
        self.click(f"#tab-{name}")

    def focus(self, selector):
        self.value(f"document.querySelector({json.dumps(selector)}).focus()")

    def fill(self, selector, value, event):
        """Gives the last field that is meant a value, as a user does."""
        self.value(f"""(() => {{ const field = [...document.querySelectorAll({json.dumps(selector)})].at(-1);
            field.value = {json.dumps(value)}; field.dispatchEvent(new Event({json.dumps(event)})); }})()""")

    def choose(self, menu, name):
        self.fill(f"#{menu}", name, "change")

    def choose_policy(self, name, trace=None):
        """Chooses a policy, and perhaps a trace for it."""
        self.choose("policies", name)
        word = self.judged()
        if trace:
            self.choose("traces", trace)
        return word

    def type_policy(self, text):
        """Types the policy in place of what is there."""
        self.focus("#policy .typed")
        self.browser.press("a", CONTROL)
        self.browser.type(text)
        self.value("document.getElementById('policy').classList.add('old')")

    def download(self, name):
        """The text of a file that the page offers, as the browser keeps it."""
        with folder() as place:
            self.browser.send("Browser.setDownloadBehavior", behavior="allow", downloadPath=place)
            self.click(f"#more .download[download={json.dumps(name)}]")
            kept = Path(place) / name
            for _ in range(200):
                if kept.exists() and kept.stat().st_size:
                    return kept.read_text()
                time.sleep(0.05)
        raise Wrong(f"{name} isn't kept by the browser")

    def picture(self, name):
        keep({str(TOP / "docs" / f"workbench_{name}.png"): self.browser.picture()})
