"""What `tools/try_workbench` tries of traces, of what happens, and of the whole page. What is seen there must be what
`./ipanema` writes."""

import json

from browser import CONTROL, SHIFT, Wrong
from web.mouse_trials import MOUSE_TRIALS
from web.page import require
from web.policy_trials import EXAMPLES, POLICY_TRIALS, asked, file_of

SHOWS = "B1 of timid: core 0 stays idle beside core 1 with 2 threads, rounds 2 to 9."
# What is played: a policy, a trace, and how.
PLAYS = [("timid", "witnesses/timid", "simulate"), ("basic", "eight_threads", "play"), ("basic", "stale_read", "crew"),
         ("fair", "fair/block_and_wake", "play"), ("basic", "two_thieves", "run")]
# Holds back all answers until the trial lets them go.
HOLD_BACK = """(() => { const real = window.fetch; const wait = new Promise((go) => { window.go_on = go; });
    window.fetch = async (...words) => {
      const response = await real(...words);
      if (words[0] !== "check" && words[0] !== "explain") await wait;
      return response;
    }; })()"""
IS_FRESH = "!document.getElementById('{}').classList.contains('old')"
# The names of rounds that are shown, and those of them that the edge cuts.
SHOWN = """[...document.querySelectorAll("#happens #lanes .mark.round text")].filter((one) => {
    const [box, room] = [one, document.querySelector("#happens #lanes")].map((part) => part.getBoundingClientRect());
    return one.getAttribute("visibility") !== "hidden" && box.right > room.left && box.left < room.right && (%s);
})"""
CUT = SHOWN % "box.right > room.right + 1 || box.left < room.left - 1" + ".map((one) => one.textContent)"
WHOLE = SHOWN % "true" + ".length"
SCRIPT = "<script>document.title = 'run'</script>"


# ---- the trace


def try_witness(page):
    """The smallest trace that shows a failing obligation."""
    page.choose_policy("timid", "one_core")
    page.view("trace")
    page.click("#witness")
    page.until_typed("trace", (EXAMPLES / "witnesses" / "timid.trace").read_text(), "the smallest trace")
    page.until_text("#trace .said", SHOWS, "what it shows")
    made = page.text("#trace .made")
    require(True, made.endswith(" for B1 of timid. It stands in the place of another."), f"whether {made!r} says it")
    page.check_layout("of a trace")
    page.value("document.querySelector('#trace .made').textContent = ''")
    page.click("#witness")
    page.until("document.querySelector('#trace .made').textContent.endsWith('It is the one that stood here.')",
               "that it was made again")
    page.type_policy(file_of("timid").read_text().replace(">= 3", ">= 2"))
    require("accepted", page.judged(), "the verdict on another text")
    require("", page.text("#trace .said"), "what stands there of the policy before")


def try_form(page):
    """The form and the text of a trace are the same, and a fault is marked."""
    page.choose_policy("timid", "witnesses/timid")
    page.view("trace")
    page.click("#trace .form > button")
    page.fill("#trace .fields:first-child label:first-child input", "3", "input")
    page.fill("#trace .burst select", "block", "change")
    wanted = "".join(f"{line}\n" for line in (
        "cores 3", "rounds 9", "thread 1 core 1 round 1 forever", "thread 2 core 1 round 1 forever",
        "thread 3 core 1 round 1 run 1 block 1 run 1"))
    require(wanted, page.typed("trace"), "the text of the form")
    page.check_layout("of a form")
    page.focus("#trace .fields input")
    page.browser.press("a", CONTROL)
    for digit in "12":
        page.browser.type(digit)
    require("cores 12", page.typed("trace").split("\n")[0], "what is typed in a field")
    page.fill("#trace .typed", "cores 2\nrounds 9\nthread 1 core 7 round 1 forever\n", "input")
    page.until_count("#trace .line.wrong", 1, "the marked line of the trace")
    require("Line 3: 7 is out of its range, 0..1 (a core)", page.text("#trace .said"), "the sentence on the trace")
    page.check_layout("of a fault of a trace")


# ---- what happens


def try_play(page):
    """The numbers and the steps of what is played are those of the program."""
    for policy, trace, way in PLAYS:
        files = file_of(policy), EXAMPLES / f"{trace}.trace"
        page.choose_policy(policy, trace)
        page.view("happens")
        page.choose("way", way)
        numbers = dict(line.split() for line in asked("waste", *files)[0][-6:])
        entries = json.dumps(f"{numbers['entries']} entries")
        page.until(f"document.querySelector('#happens .totals').textContent.includes({entries})", f"{way} of {policy}")
        page.until_text("#happens .said", "Simulated" if way == "simulate" else "Whole", "the steps")
        if way in ("play", "simulate"):
            shown = [f"{count} {name}" in page.text("#happens .totals") for name, count in numbers.items()]
            require([True] * len(numbers), shown, f"which numbers of {policy} are there")
            check_steps(page, asked(way, *files)[0][1:])
        page.check_layout(f"of {way} of {policy}")
    for cores in (4, 16):
        page.fill("#trace .typed", crowded(cores), "input")
        page.until_count("#happens .core", cores, f"{cores} cores")
        page.browser.press("End")
        page.check_layout(f"of steps on {cores} cores")


def try_waits(page):
    """While something is played, the answer before is grey, and the view says so."""
    for view, said in (("happens", "Whole"), ("beside", "")):
        page.choose_policy("timid", "witnesses/timid")
        page.click("#keep")
        page.view(view)
        page.until_count(f"#{view} .core", 2 if view == "happens" else 4, "what stands there before")
        page.until(IS_FRESH.format(view), "an answer that isn't grey")
        page.value(HOLD_BACK)
        try:
            page.choose_policy("basic")
            page.until_text(f"#{view} .said", "playing ..", "what stands there meanwhile")
            require(False, page.value(IS_FRESH.format(view)), "whether the answer before isn't grey")
        finally:
            page.value("window.go_on()")
        page.until(IS_FRESH.format(view), "an answer that isn't grey")
        require(said, page.text(f"#{view} .said")[:5], "what stands there then")


def try_rounds(page):
    """The name of a round is shown where all of it is in sight. Idle cores are explained where none is overloaded."""
    page.choose_policy("timid", "witnesses/timid")
    page.view("happens")
    page.until_text("#happens .said", "Simulated", "the steps")
    page.focus("#happens")
    page.browser.press("Home")
    require("Entry 0 of 0 to 46 · round 1, begun with spread 0 and idle 0: no core was overloaded",
            page.text("#happens #place"), "how round 1 begins")
    for _ in range(13):
        require([], page.value(CUT), "which names of rounds are cut")
        require(True, page.value(WHOLE) > 0, "whether the name of a round is there")
        page.browser.press("ArrowRight")
    page.value("document.querySelector('#happens #lanes').scrollLeft += 30")
    page.until(f"{CUT}.length === 0", "names of rounds that aren't cut, behind a scroll,")


def crowded(cores):
    """A trace with many threads on the first cores, so that there is much to be drawn."""
    lines = [f"thread {thread} core {thread % 3} round 1 forever" for thread in range(1, 17)]
    return "".join(f"{line}\n" for line in [f"cores {cores}", "rounds 2", *lines])


def check_steps(page, history):
    """The steps go through the program's lines, by the keys."""
    page.focus("#happens")
    page.browser.press("Home")
    for at, line in enumerate(history):
        require([at, line], page.value("""[Number(document.getElementById("happens").dataset.at),
            document.querySelector("#entries [aria-current] code").textContent]"""), f"the entry at {at}")
        page.browser.press("ArrowRight")
    page.browser.press("Home")


def compare(page):
    """Puts timid before basic, on the smallest trace under which timid wastes."""
    page.choose_policy("timid", "witnesses/timid")
    page.click("#keep")
    page.until_count("#beside section", 2, "two policies")
    page.choose_policy("basic")
    page.until_text("#beside .after h3", "after: basic accepted", "the second policy")


def try_beside(page):
    """Timid wastes and basic doesn't, side by side."""
    compare(page)
    rows = page.value("""Object.fromEntries([...document.querySelectorAll("#beside tr")].map((row) =>
        [row.children[0].textContent, [row.children[1].textContent, row.children[2].textContent]]))""")
    require(["refused", "accepted"], rows["verdict"], "the verdicts side by side")
    require(["8", "1"], rows["bad rounds"], "the bad rounds side by side")
    require(["0", "1"], rows["steals"], "the steals side by side")
    require(1, page.count("#beside .before .core.wasted"), "how many cores are wasted before")
    require(0, page.count("#beside .after .core.wasted"), "how many cores are wasted after")
    page.check_layout("of two policies")
    for cores in (4, 16):
        page.fill("#trace .typed", crowded(cores), "input")
        page.until_count("#beside .after .core", cores, f"{cores} cores")
        page.check_layout(f"of two policies on {cores} cores")


def try_names(page):
    """Two policies of one name are told apart: the second one is marked where its text is another."""
    page.choose_policy("timid", "witnesses/timid")
    page.click("#keep")
    page.until_text("#beside .after h3", "after: timid unchanged refused", "the same policy")
    page.type_policy(file_of("timid").read_text().replace(">= 3", ">= 2"))
    page.until_text("#beside .after h3", "after: timid changed accepted", "the changed policy")
    require("before: timid refused", page.text("#beside .before h3"), "the policy before")
    require(["", "before: timid ", "after: timid changed"],
            page.value("[...document.querySelectorAll('#beside tr:first-child th')].map((one) => one.textContent)"),
            "the heads of the table")
    page.check_layout("of two policies of one name")


def try_more(page):
    """The other commands write what the program writes, and Perfetto's file can be kept."""
    page.choose_policy("basic", "one_core")
    page.view("more")
    commands = page.value("fetch('texts').then((response) => response.json()).then(({ commands }) => commands)")
    files = {"POLICY": EXAMPLES / "basic.policy", "TRACE": EXAMPLES / "one_core.trace"}
    shown = page.value("[...document.querySelectorAll('#more [data-command]')].map((one) => one.dataset.command)")
    for name in shown[:-2]:
        page.click(f"#more [data-command={name}]")
        lines, _ = asked(name, *(files[word] for word in commands[name]["words"]))
        page.until_text("#more .output", "\n".join(lines), f"what {name} writes")
        page.check_layout(f"of {name}")
    page.click("#more [data-command=save]")
    for kind in ("policy", "trace"):
        require(page.typed(kind), page.download(f"basic.{kind}"), f"the {kind} that is kept as a file")
    page.view("happens")
    page.until_text("#happens .said", "Whole", "a history")
    page.view("more")
    page.click("#more [data-command=perfetto]")
    page.until_text("#more .download", "Download basic.json", "Perfetto's file")


# ---- the whole page


def try_link(page):
    """A link has policy and trace in it, and nothing of it is sent to the server."""
    page.choose_policy("numa")
    page.click("#link")
    link = page.value("document.getElementById('link-out').value")
    page.check_layout("of a link")
    page.click("#link-close")
    page.choose_policy("basic")
    page.browser.go("about:blank")
    page.browser.go(link)
    page.ready()
    require(file_of("numa").read_text(), page.typed("policy"), "the policy of the link")
    require([], [one for one in page.browser.addresses() if "policy=" in one], "what the server is sent of a link")


def try_scripts(page):
    """Scripts in names, in texts and in links are shown as texts."""
    page.type_policy(f"policy p<img src=x onerror=alert(1)>\n# {SCRIPT}\n")
    page.judged()
    page.browser.go("about:blank")
    page.browser.go(f"{page.address}#policy={SCRIPT}&trace=<b>{SCRIPT}")
    page.ready()
    require("Nailbracken workbench", page.value("document.title"), "the title")
    require(SCRIPT, page.typed("policy"), "the policy that is a script")
    require(0, page.count("main script, main img, .layer b"), "how many elements are made of texts")


def try_keyboard(page):
    """By the keyboard alone: a policy is typed, and the verdict, the steps and the comparison are reached."""
    browser = page.browser
    page.choose("traces", "witnesses/timid")
    page.value("document.activeElement.blur()")
    browser.press("F8")
    browser.press("a", CONTROL)
    browser.type(file_of("timid").read_text())
    page.until_text("#answer", "refused", "the verdict by keys")
    browser.press("F8")
    require("tab", page.value("document.activeElement.getAttribute('role')"), "what F8 leads to")
    for _ in ("point", "trace", "happens", "beside", "more"):
        browser.press("ArrowRight")
    browser.press("Enter", CONTROL)
    page.until_text("#happens .said", "Simulated", "what happens by keys")
    require("happens", page.value("document.activeElement.id"), "what Ctrl and Enter lead to")
    browser.press("End")
    require(True, page.value("Number(document.getElementById('happens').dataset.at) > 0"), "whether a key steps")
    browser.press("Tab", SHIFT)
    require("tab-happens", page.value("document.activeElement.id"), "what is before the view")
    reach(page, "keep")
    browser.press("Enter")
    page.until_count("#beside section", 2, "two policies by keys")


def reach(page, name):
    """Goes back by the tab key until the element has the focus."""
    for _ in range(60):
        if page.value("document.activeElement.id") == name:
            return
        page.browser.press("Tab", SHIFT)
    raise Wrong(f"the keyboard doesn't reach {name}")


def try_ended(page):
    """A page whose workbench has ended says so."""
    page.type_policy(file_of("basic").read_text() + "# more\n")
    page.until_text("#fault", "the workbench doesn't answer; has it been ended?", "what a page says that is left alone")


TRIALS = {trial.__name__.removeprefix("try_"): trial for trial in (
    *POLICY_TRIALS, *MOUSE_TRIALS, try_witness, try_form, try_play, try_waits, try_rounds, try_beside, try_names,
    try_more, try_link, try_scripts, try_keyboard)}
