"""Steps through a history, for the scripts beside this file: what each entry does at the cores, what it read, and it in words.

The cores are as docs/MODEL.md says ("Entries, and the state after a history"): no policy is needed to follow a legal history,
since each entry says where its thread goes.
"""

OUTCOMES = {
    "keep": "and keeps it",
    "queue": "and queues it",
    "block": "and it blocks",
    "end": "and it ends",
}


class Core:
    """The running thread of a core or None, its queue in order of arrival, and its blocked threads."""

    def __init__(self):
        self.running, self.queue, self.blocked = None, [], []

    def count(self):
        """How many threads it has. Blocked ones don't count."""
        return len(self.queue) + (self.running is not None)

    def work(self, thread, outcome):
        """Runs a unit of the thread, which the core may have to take from its queue first."""
        if self.running != thread:
            self.queue.remove(thread)
        self.running = thread if outcome == "keep" else None
        if outcome == "queue":
            self.queue.append(thread)
        elif outcome == "block":
            self.blocked.append(thread)

    def shown(self):
        return {"running": self.running, "queue": list(self.queue), "blocked": list(self.blocked)}


def touched(line):
    """The cores that an entry may change."""
    names = {"enter": ["target"], "wake": ["core", "target"], "work": ["core"], "steal": ["core", "victim"]}
    return {line.values[name] for name in names.get(line.kind, [])}


def move(cores, line):
    """What a legal entry does at the cores."""
    values = line.values
    if line.kind == "work":
        cores[values["core"]].work(values["thread"], values["outcome"])
    if line.kind == "wake":
        cores[values["core"]].blocked.remove(values["thread"])
    if line.kind in ("enter", "wake"):
        cores[values["target"]].queue.append(values["thread"])
    if line.kind == "steal":
        for thread in values["threads"]:
            cores[values["victim"]].queue.remove(thread)
            cores[values["core"]].queue.append(thread)


def words_of(line):
    """An entry as a sentence or two."""
    values = line.values
    core = f"Core {values.get('core')}"
    if line.kind in ("enter", "wake"):
        return coming_words(line.kind, core, values)
    if line.kind == "work":
        return f"{core} runs a unit of thread {values['thread']}, {OUTCOMES[values['outcome']]}."
    if line.kind == "steal":
        return f"{core} steals {named(values['threads'])} from core {values['victim']}."
    return {
        "round": f"Round {values.get('round')} begins.",
        "nothing": f"{core} has no thread to run.",
        "fail": f"{core} tries to steal from core {values.get('victim')} and fails.",
        "pass": f"{core} looks at the cores and finds none to steal from.",
    }[line.kind]


def named(threads):
    """The threads in words, as `thread 2` or `threads 2, 3 and 4`."""
    *front, last = map(str, threads)
    return f"threads {', '.join(front)} and {last}" if front else f"thread {last}"


def coming_words(kind, core, values):
    verb = "lets thread {} in" if kind == "enter" else "wakes thread {}"
    place = "keeps it" if values["core"] == values["target"] else f"puts it at core {values['target']}"
    return f"{core} {verb.format(values['thread'])} and {place}."


def read_of(core, seen, position, counts):
    """What an entry at the position saw of a core: how many threads, how many are there now, and what changed that in between.

    `counts` has the thread counts of the cores after each number of entries, up to the position.
    """
    changes = [at for at in range(seen, position) if counts[at + 1][core] != counts[at][core]]
    return {
        "core": core, "position": seen, "saw": counts[seen][core], "now": counts[position][core],
        "changes": changes, "by": changes[0] if changes else None,
    }


def cause_of(line, reads):
    """The first entry that explains a failed steal: it changed the thief or the victim after that was read."""
    if line.kind != "fail":
        return None
    changes = [read["by"] for read in reads if read["core"] in (line.values["core"], line.values["victim"])]
    return min((change for change in changes if change is not None), default=None)


class Walk:
    """The cores as a legal history goes on, and their thread counts behind each number of entries."""

    def __init__(self, cores):
        self.stand = [Core() for _ in range(cores)]
        self.counts = [[0] * cores]

    def reads(self, line):
        """What an entry that comes next has read. A read of a moment that hasn't come is left out."""
        position = len(self.counts) - 1
        return [read_of(core, seen, position, self.counts) for core, seen in enumerate(line.values.get("reads", []))
                if seen <= position and core < len(self.stand)]

    def step(self, line):
        """Takes the next entry, and tells what is shown of it."""
        reads = self.reads(line)
        move(self.stand, line)
        self.counts.append([core.count() for core in self.stand])
        changed = {core: self.stand[core].shown() for core in touched(line)}
        return {**described(line), "reads": reads, "cause": cause_of(line, reads), "changed": changed}


def steps_of(lines, cores):
    """For each entry of a legal history, one after the other, what is shown of it. `cores` is how many cores there are."""
    walk = Walk(cores)
    for line in lines:
        yield walk.step(line)


def described(line):
    """An entry without what it did: its kind, its text, its words and its values."""
    values = {name: value for name, value in line.values.items() if name != "reads"}
    return {"kind": line.kind, "text": line.text, "words": words_of(line), **values}
