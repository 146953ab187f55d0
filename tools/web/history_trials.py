"""What the page of tools/classroom shows, for tools/try_classroom, and what it should show by the lines of a history."""

# What the page shows: the cores as a text each, the position, what is marked in the list, and the entry that explains a fail.
LOOK = """(() => {
// The boxes of all texts of these parts that are seen, each without what its line has above and below the letters.
const boxesOf = (parts) => parts.flatMap((part) => {
  const texts = document.createTreeWalker(part, NodeFilter.SHOW_TEXT);
  const found = [];
  for (let text = texts.nextNode(); text; text = texts.nextNode()) {
    const range = document.createRange();
    range.selectNodeContents(text);
    for (const box of range.getClientRects()) {
      const [edge, wide] = [box.height * 0.25, box.width];
      if (wide && text.data.trim()) {
        found.push({ words: text.data.trim(), left: box.left + 1, right: box.right - 1, top: box.top + edge, bottom: box.bottom - edge });
      }
    }
  }
  return found;
});
const meet = (one, other) => one.left < other.right && other.left < one.right && one.top < other.bottom && other.top < one.bottom;
const pairsIn = (boxes) => boxes.flatMap((one, at) => boxes.slice(at + 1).filter((other) => meet(one, other))
  .map((other) => `${one.words} and ${other.words}`));
const textsOver = () => [["header", "#told", "#cores", "#legend"], ["#names"], ["#lanes .eye", "#lanes .read"]].flatMap((parts) =>
  pairsIn(boxesOf(parts.flatMap((part) => [...document.querySelectorAll(part)]))));
return JSON.stringify({
  cores: [...document.querySelectorAll(".core")].map((core) => ["runs", "queue", "blocked"].map((kind) =>
    [...core.querySelectorAll(`.${kind} b`)].map((thread) => Number(thread.dataset.thread)))),
  weights: [...document.querySelectorAll(".core b")].map((thread) =>
    [Number(thread.dataset.thread), thread.querySelector("sub") ? Number(thread.querySelector("sub").textContent.slice(1)) : 1]),
  at: Number(document.body.dataset.at),
  address: window.location.hash,
  marked: [...document.querySelectorAll("[aria-current]")].map((entry) => entry.querySelector("code").textContent),
  cause: document.getElementById("cause").textContent,
  stale: document.querySelectorAll("#lanes .read.stale").length,
  fresh: document.querySelectorAll("#lanes .read.fresh").length,
  eyes: [...document.querySelectorAll("#lanes .eye")].map((eye) =>
    [eye.dataset.core, eye.dataset.victim, eye.dataset.saw].map(Number).concat(eye.classList.contains("faded"))).sort(),
  cards: document.querySelectorAll(".core .eye").length,
  wasted: [...document.querySelectorAll(".core.wasted")].map((core) => Number(core.dataset.core)),
  waits: [...document.querySelectorAll(".core b")].map((thread) =>
    [Number(thread.dataset.thread), thread.querySelector("sup") ? Number(thread.querySelector("sup").textContent) : 0]),
  own: [...document.querySelectorAll(".core .own")].map((own) => own.textContent),
  told: [...document.querySelectorAll(".core b")].map((thread) =>
    [Number(thread.dataset.thread), [...thread.querySelectorAll(".card span")].map((line) => line.textContent)]),
  legend: Math.round(document.getElementById("legend").getBoundingClientRect().bottom - window.innerHeight),
  over: textsOver(),
  outside: [...document.querySelectorAll(".core *")].filter((part) =>
    part.getBoundingClientRect().right > part.closest(".core").getBoundingClientRect().right).map((part) => part.textContent),
}); })()"""


def cores_after(lines, cores):
    """The running, queued and blocked threads of each core, read off the lines of a legal history."""
    places, running, blocked = {}, {}, {}
    for kind, *words in (line.split(" ") for line in lines):
        if kind in ("enter", "wake"):
            blocked.pop(words[0], None)
            places[words[0]] = words[2]
        elif kind == "steal":
            for thread in words[2:words.index(":")]:
                del places[thread]
                places[thread] = words[0]
        elif kind == "work" and words[1] != "-":
            work(places, running, blocked, *words)
    return [[[int(running[core])] if core in running else [],
             [int(thread) for thread, place in places.items() if place == core and running.get(core) != thread],
             [int(thread) for thread, place in blocked.items() if place == core]] for core in map(str, range(cores))]


def work(places, running, blocked, core, thread, outcome):
    running.pop(core, None)
    del places[thread]
    if outcome in ("keep", "queue"):
        places[thread] = core
    if outcome == "keep":
        running[core] = thread
    if outcome == "block":
        blocked[thread] = core


def wasted_at(lines, at, cores):
    """The cores without a thread behind the entry, where another has several, and it was so when its round began."""
    begins = max((start for start in range(at + 1) if lines[start].startswith("round")), default=None)
    moments = [] if begins is None else [begins, at + 1]
    counts = [[len(runs + queue) for runs, queue, _ in cores_after(lines[:moment], cores)] for moment in moments]
    if not counts or any(0 not in now or max(now) < 2 for now in counts):
        return []
    return [core for core, count in enumerate(counts[-1]) if not count]


def count_after(lines, position, core):
    return sum(map(len, cores_after(lines[:position], core + 1)[core][:2]))


def is_stale(lines, core, read, at):
    """Whether the number of the core's threads changed between the moment that was read and the entry."""
    return len({count_after(lines, position, core) for position in range(read, at + 1)}) > 1


class Entry(str):
    """A line of a history. `reads` has the positions at which it read the cores."""

    reads = []


def entries_in(lines):
    """The entries of a history. In the second format, which has a header, reads count from behind the last round."""
    is_second, start, entries = lines[:1] != [] and lines[0].startswith("history "), 0, []
    for at, line in enumerate(lines[is_second:], 1):
        entry = Entry(line)
        entry.reads = [start + int(read) for read in line.partition(" :")[2].split()]
        entries.append(entry)
        if is_second and line.startswith("round "):
            start = at
    return entries


def eyes_at(lines, at):
    """The looks behind the entry whose attempts come later: the thief, its victim, the number it saw, and whether that changed."""
    eyes = []
    for line in lines[at + 1:]:
        kind, *words = line.partition(" :")[0].split()
        if kind in ("steal", "fail"):
            thief, victim = map(int, words[:2])
            read = line.reads[victim]
            if read <= at + 1:
                eyes.append([thief, victim, count_after(lines, read, victim), is_stale(lines, victim, read, at + 1)])
    return sorted(eyes)


def waited_after(lines):
    """How many units its core has run of other threads since each thread ran or came, of those that aren't blocked."""
    places, waited = {}, {}
    for kind, *words in (line.partition(" :")[0].split(" ") for line in lines):
        if kind in ("enter", "wake"):
            places[words[0]], waited[words[0]] = words[2], 0
        elif kind == "steal":
            places.update(dict.fromkeys(words[2:], words[0]))
        elif kind == "work" and words[1] != "-":
            core, thread, outcome = words
            waited.update({other: waited[other] + 1 for other, place in places.items() if place == core and other != thread})
            waited[thread] = 0
            if outcome in ("block", "end"):
                del places[thread]
    return {int(thread): waited[thread] for thread in places}


def nodes_of(trace):
    """What stands at each core under a policy whose one attribute of cores is its node, which is 0 where no line says more."""
    lines = [line.split() for line in trace.read_text().splitlines() if line and not line.startswith("#")]
    given = {words[1]: words[3] for words in lines if words[0] == "core"}
    return [f"node {given.get(str(core), 0)}" for core in range(int(lines[0][1]))]


def left_after(lines):
    """The number `left` of each thread under slices of four units: a unit that is kept takes one away, and a queued one begins anew."""
    left = {}
    for kind, *words in (line.partition(" :")[0].split(" ") for line in lines):
        if kind == "enter":
            left[int(words[0])] = 3
        elif kind == "work" and words[-1] in ("keep", "queue"):
            left[int(words[1])] = left[int(words[1])] - 1 if words[-1] == "keep" else 3
    return left
