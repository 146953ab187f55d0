"""Finds words for what `why` writes of a history that isn't whole: which rule an entry breaks, and what is legal in its place.

The rules are those of docs/FORMATS.md ("What `why` writes"). What stands around the entry is read from the history here. The
program has found the entries before it legal.
"""
from trace_text import cores_of

LEAVES = ("block", "end")
# How many entries, cores or threads a sentence names at most.
MOST = 3
OUTCOMES = {"keep": "stays", "queue": "goes to the queue", "block": "blocks", "end": "ends"}


def counted(number, what="thread"):
    """A number of things in words, as `no thread` or `2 threads`."""
    return f"{ {0: 'no', 1: 'one'}.get(number, f'{number:,}') } {what}{'s' * (number > 1)}"


def listed(words, last_one="and"):
    """Words as `a`, `a and b` or `a, b and c`. Of many the first stand for all."""
    shown = [str(word) for word in words]
    if len(shown) > MOST + 1:
        shown = [*shown[:MOST], f"{len(shown) - MOST} more"]
    front = ", ".join(shown[:-1])
    return f"{front} {last_one} {shown[-1]}" if front else shown[-1]


def named(what, numbers):
    """Numbers of that kind, as `core 1` or `cores 1 and 2`."""
    return f"{what}{'s' * (len(numbers) > 1)} {listed(numbers)}"


def either(texts):
    """Entries, each of which may come."""
    return listed([f"`{text}`" for text in texts], "or")


class Entry:
    """An entry as a line of a history: its words before its reads, and its reads as positions."""

    def __init__(self, text, start):
        front, colon, reads = text.partition(" :")
        self.words, self.looks = front.split(" "), colon + reads
        self.kind, self.reads = self.words[0], [start + int(word) for word in reads.split()]

    def core(self):
        """The core that acts, or None where a round begins."""
        return None if self.kind == "round" else int(self.words[self.place_of_core()])

    def place_of_core(self):
        return 2 if self.kind in ("enter", "wake") else 1

    def at(self, number):
        """The column of that word, from 1."""
        return len(" ".join(self.words[:number])) + bool(number) + 1

    def column_of_read(self, core):
        return self.at(len(self.words)) + 2 + sum(len(word) + 1 for word in self.looks.split()[1:core + 1])


class Scene:
    """What there is behind the first entries of a history: how many threads each core has and what they weigh, and what was
    seen of that in the open round. Under a policy that `weighs` each thread has the weight of its line, and else none is told.
    """

    def __init__(self, history, count, trace, weighs):
        lines = history.decode("ascii").split("\n")[:-1]
        self.header = int(bool(lines) and lines[0].startswith("history "))
        self.trace = [line.split() for line in trace.decode("latin-1").split("\n")]
        self.cores, self.weighs = cores_of(trace.split(b"\n")), weighs
        threads = [words for words in self.trace if words[:1] == ["thread"]]
        self.weights = {int(words[1]): int(words[7]) if weighs and words[6] == "weight" else 1 for words in threads}
        self.now, self.start, self.round, self.count = [(0, 0)] * self.cores, 0, 0, count
        self.rows, self.worked, self.attempted, self.entered = [list(self.now)], {}, {}, {}
        for number, text in enumerate(lines[self.header:self.header + count]):
            self.step(Entry(text, 0), number)
        rest = lines[self.header + count:]
        self.entry = Entry(rest[0], self.start * self.header) if rest else None

    def step(self, entry, number):
        words, line = entry.words, number + self.header + 1
        if entry.kind == "round":
            self.start, self.round, self.rows, self.worked, self.attempted = number + 1, int(words[1]), [], {}, {}
        elif entry.kind in ("enter", "wake"):
            self.add(1, words[3], words[1:2])
            if entry.kind == "enter":
                self.entered[int(words[1])] = line
        elif entry.kind == "work":
            self.worked[entry.core()] = line
            if words[-1] in LEAVES:
                self.add(-1, words[1], words[2:3])
        else:
            self.attempted[entry.core()] = line
        if entry.kind == "steal":
            self.add(1, words[1], words[3:])
            self.add(-1, words[2], words[3:])
        self.rows.append(list(self.now))

    def add(self, sign, core, threads):
        count, load = self.now[int(core)]
        self.now[int(core)] = count + sign * len(threads), load + sign * sum(self.weights[int(it)] for it in threads)

    def line(self):
        """The number of the line of the entry, or behind the last."""
        return self.header + self.count + 1

    def looked(self, cores):
        """What the entry saw of these cores, its own last. A core that isn't there it can't have seen."""
        own = self.entry.core()
        saw = {core: self.rows[self.entry.reads[core] - self.start][core] for core in [*cores, own] if core < self.cores}
        others = [f"{self.shown(look)} at core {core}" for core, look in saw.items() if core != own]
        return listed([*others, f"{self.shown(saw[own])} of its own"])

    def shown(self, look):
        """How many threads a core has, and what they weigh where that counts."""
        count, load = look
        weigh = f" that {'weigh' if count > 1 else 'weighs'} {load:,}" if self.weighs and count else ""
        return counted(count) + weigh

    def most_rounds(self):
        return next((int(words[1]) for words in self.trace if words[:1] == ["rounds"]), 0)

    def comes(self, thread):
        """Where the thread has come, or where the trace has it come."""
        if thread in self.entered:
            return f"thread {thread} has entered in line {self.entered[thread]}"
        for number, words in enumerate(self.trace, 1):
            if words[:1] == ["thread"] and int(words[1]) == thread:
                return f"line {number} of the trace has thread {thread} come by core {words[3]} in round {words[5]}"
        return f"the trace has no thread {thread}"


class Reason:
    """The rule that an entry breaks, in words. `told` is what the program wrote behind its name."""

    def __init__(self, scene, rule, legal):
        self.scene, self.entry, self.legal = scene, scene.entry, legal
        self.name, *self.told = rule.split(" ")[1:]
        self.core = self.entry.core()

    def sentence(self):
        """The column, and the sentence with what is legal."""
        column, said = getattr(self, "of_" + self.name.replace("-", "_"))()
        return column, f"{said}. {self.instead()}"

    def instead(self):
        """What is legal in the place of the entry: by its own looks where that is known, and else what the program wrote."""
        known = self.with_own_looks()
        if known is not None:
            return f"What is legal{' with these looks' if self.entry.reads else ''}: `{known}`"
        own = [text for text in self.legal if self.core is not None and Entry(text, 0).core() == self.core]
        if own:
            return f"What is legal{', by looks made just now' if ' : ' in own[0] else ''}: {either(own)}"
        return f"What is legal here: {either(self.legal)}" if self.legal else "Nothing is legal here"

    def with_own_looks(self):
        """The legal entry that has the looks of this one, where the rule tells it."""
        words = {
            "choice": ["pass", str(self.core)] if self.told == ["-"] else None,
            "filter": ["fail", *self.entry.words[1:3]] if self.told == ["false"] else None,
            "threads": [*self.entry.words[:3], *self.told],
            "place": [*self.entry.words[:3], *self.told],
            "number": ["round", *self.told],
        }.get(self.name)
        return " ".join(words) + self.entry.looks if words else None

    # A sentence for each rule, without its end, and its column.

    def of_waits(self):
        left = [Entry(text, 0).core() for text in self.legal]
        return 1, f"round {self.entry.words[1]} begins before {self.have_made(left)}"

    def have_made(self, cores):
        return f"{named('core', cores)} {'have' if cores[1:] else 'has'} made an attempt of round {self.scene.round}"

    def of_none_due(self):
        why = "all threads of the trace have ended"
        if self.scene.round >= self.scene.most_rounds():
            why = f"the trace has {counted(self.scene.most_rounds(), 'round')}"
        return 1, f"round {self.entry.words[1]} begins, and none is due: {why}"

    def of_number(self):
        return 7, f"the next round is {self.told[0]}, and here stands {self.entry.words[1]}"

    def of_none_open(self):
        return 1, f"core {self.core} acts before the first round"

    def of_no_core(self):
        column = self.entry.at(self.entry.place_of_core())
        return column, f"there is no core {self.core}: the trace has {self.scene.cores}, numbered from 0"

    def of_enters(self):
        if self.entry.kind != "enter":
            return 1, f"core {self.core} must let thread {self.told[0]} in, before it wakes or runs any"
        thread, wanted = int(self.entry.words[1]), self.next_one()
        return 7, f"thread {thread} enters, and {wanted} that core {self.core} lets in; {self.scene.comes(thread)}"

    def next_one(self):
        wanted = "no thread is left" if self.told == ["-"] else f"thread {self.told[0]} is the next"
        return f"in round {self.scene.round} {wanted}"

    def of_wakes(self):
        if self.entry.kind == "work":
            return 1, f"core {self.core} must wake thread {self.told[0]}, before it runs any"
        return 6, f"thread {self.entry.words[1]} wakes, and {self.next_one()} that core {self.core} wakes"

    def of_worked(self):
        line = self.scene.worked[self.core]
        return 1, f"core {self.core} has run its unit of round {self.scene.round} already, in line {line}"

    def of_to_work(self):
        return 1, f"core {self.core} makes its attempt before its unit of round {self.scene.round}"

    def of_attempted(self):
        line = self.scene.attempted[self.core]
        return 1, f"core {self.core} has made its attempt of round {self.scene.round} already, in line {line}"

    def of_reads(self):
        count = len(self.entry.reads)
        wanted = f"it must have a read of each core, so {self.told[0]}"
        if self.told == ["0"]:
            wanted = "the policy places a thread without a look"
        stands = f"here {'stand' if count > 1 else 'stands'} {counted(count, 'read')}"
        return self.entry.at(len(self.entry.words)), f"{wanted}, and {stands}"

    def of_read(self):
        core, saw, first, last = (int(word) for word in self.told if word.isdigit())
        column = self.entry.column_of_read(core)
        if saw < first:
            return column, f"core {core} was read at position {saw}, before round {self.scene.round}, which starts at {first}"
        if self.scene.header:
            behind = f"{saw - first} behind the `round` line, and this entry stands {last - first} behind it"
            return column, f"core {core} was read {behind}"
        return column, f"core {core} was read at position {saw}, ahead of this entry, which is at {last}"

    def of_place(self):
        thread, target, wanted = self.entry.words[1], self.entry.words[3], self.told[0]
        saw = f"core {self.core} saw {self.scene.looked([int(wanted), int(target)])}: " if self.entry.reads else ""
        return self.entry.at(3), f"{saw}the policy places thread {thread} on core {wanted}, and here it comes to core {target}"

    def of_unit(self):
        thread, *outcome = self.entry.words[2:]
        here = f"it runs thread {thread}, which {OUTCOMES[outcome[0]]}" if outcome else "it has no thread to run"
        if self.told[0] == "-":
            return self.entry.at(2), f"core {self.core} has no thread to run, and here {here}"
        if self.told[0] == "none":
            return self.entry.at(2), f"the thread that core {self.core} runs next has no unit left, and here {here}"
        if thread == self.told[0]:
            here = f"it {OUTCOMES[outcome[0]]}"
        column = self.entry.at(3 if thread == self.told[0] else 2)
        return column, f"core {self.core} runs thread {self.told[0]}, which then {OUTCOMES[self.told[1]]}, and here {here}"

    def of_choice(self):
        tried = [int(word) for word in self.entry.words[2:3]]
        wanted = [int(word) for word in self.told if word != "-"]
        saw = f"core {self.core} saw {self.scene.looked(wanted + tried)}"
        if not wanted:
            return self.entry.at(2), f"{saw}, so the filter holds of no other core, and it can only pass"
        here = f"tries core {tried[0]}" if tried else "passes"
        return self.entry.at(len(tried) * 2), f"{saw}, so the policy chooses core {wanted[0]}, and here it {here}"

    def of_filter(self):
        victim = int(self.entry.words[2])
        now = [self.scene.shown(self.scene.now[core]) for core in (victim, self.core)]
        now = f"core {victim} has {now[0]} by now, and core {self.core} has {now[1]}"
        if self.told == ["true"]:
            return 1, f"{now}: the filter still holds and a thread waits, so it must steal, and here it fails"
        return 1, f"{now}: the filter holds no more or no thread waits, so nothing is taken, and the attempt fails"

    def of_threads(self):
        taken = named("thread", self.entry.words[3:])
        return self.entry.at(3), f"the steal takes {named('thread', self.told)}, and here it takes {taken}"


def of_short(scene, legal):
    """What a history lacks that stops too soon."""
    if not legal:
        return f"the history stops too soon, and no history has more than its {scene.count:,} entries"
    if legal[0].startswith("round "):
        return f"the history stops too soon: {legal[0]} is due"
    left = [Entry(text, 0).core() for text in legal]
    made = f"{named('core', left)} {'have' if left[1:] else 'has'} yet to make an attempt of round {scene.round}"
    return f"the history stops too soon: {made}. What may come next: {either(legal)}"


def of_why(file, history, trace, weighs, lines):
    """The sentence for the lines that `why` wrote of a history. Some policies weigh threads, and others count them alone."""
    verdict, count = lines[0].split(" ")
    scene = Scene(history, int(count), trace, weighs)
    legal = [line.removeprefix("legal ") for line in lines if line.startswith("legal ")]
    column, said = (1, of_short(scene, legal)) if verdict == "short" else Reason(scene, lines[1], legal).sentence()
    return f"{file}:{scene.line()}:{column}: {said}"
