"""Judges a history without the program: which rule its first illegal entry breaks, and which entries may come next.

It was written from docs/MODEL.md, docs/LANGUAGE.md and docs/FORMATS.md, and has no code of the program. Policy and trace are
ones that the program takes: no fault of their texts is looked for. Policies are read by tools/whole_policy.py.
"""

import copy

from attributes import holds, value_of
from common import Refused
from histories import MAX_LINES, read_history
from whole_policy import WholePolicy, apart

NUMBERS = {"self": (apart.SELF_NR, apart.SELF_LOAD), "victim": (apart.VICTIM_NR, apart.VICTIM_LOAD)}


def best(items, order, values_of):
    """The best of the items by the keys of an order, of equals the first, or None where there are none."""
    def rank(item):
        values, ranks = values_of(item), []
        for how, key in order:
            ranks.append(not holds(key, values) if how == "prefer" else {"min": 1, "max": -1}[how] * value_of(key, values))
        return ranks
    return min(items, key=rank, default=None)


def numbered(first, values):
    """Values of variables, numbered from the first on."""
    return dict(enumerate(values, first))


class Planned:
    """A thread of the trace as it stands: its weight, its attributes, and where it is in its program."""

    def __init__(self, words, weighs, starts):
        self.number, self.core, self.round = int(words[1]), int(words[3]), int(words[5])
        self.weight = int(words[7]) if weighs and words[6] == "weight" else 1
        self.values, self.burst, self.done, self.is_over = list(starts), 0, 0, False
        self.bursts = bursts_of(words[8 if words[6] == "weight" else 6:])

    def meets(self):
        """The event that its next unit meets, and the rounds of a block: of the last unit of a burst what the line says."""
        units, event, rounds = self.bursts[self.burst]
        return (event, rounds) if units == self.done + 1 else ("tick", 0)

    def ran(self):
        """Goes on by a unit. A burst without end stays as it is."""
        units = self.bursts[self.burst][0]
        if units == self.done + 1:
            self.burst, self.done = self.burst + 1, 0
        elif units:
            self.done += 1

    def seen(self):
        return {apart.WEIGHT: self.weight, **numbered(apart.ATTRIBUTES["t"], self.values)}


def bursts_of(words):
    """The bursts of a program: how many units, what the last one meets, and the rounds of a block. Without end there are 0."""
    if not words:
        return []
    if words[0] == "forever":
        return [(0, "tick", 0)]
    ending = words[2] if len(words) > 2 else "end"
    rounds = int(words[3]) if ending == "block" else 0
    return [(int(words[1]), ending, rounds), *bursts_of(words[4 if ending == "block" else 3:])]


class Place:
    """A core: its running thread or None, its queue, its blocked threads with their rounds, and its constants."""

    def __init__(self, constants):
        self.running, self.queue, self.blocked, self.constants = None, [], [], constants
        self.begin()

    def begin(self):
        """A round begins."""
        self.let_in, self.worked, self.attempted = set(), False, False

    def threads(self):
        return self.queue + [self.running] * (self.running is not None)


def lines_of(text):
    """The words of the lines of a trace that say something."""
    lines = (line.split() for line in text.decode("latin-1").split("\n"))
    return [words for words in lines if words and words[0][0] != "#"]


class Judge:
    """What there is to know behind the entries so far."""

    def __init__(self, policy, trace):
        self.policy, lines = WholePolicy(policy.decode("latin-1")), lines_of(trace)
        names = list(zip(self.policy.attributes["core"], self.policy.starts["core"]))
        given = {(int(words[1]), name): int(value) for words in lines if words[0] == "core"
                 for name, value in zip(words[2::2], words[3::2])}
        self.cores = [Place([given.get((core, name), start) for name, start in names]) for core in range(int(lines[0][1]))]
        self.most_rounds = int(lines[1][1])
        weighs = "weight" in self.policy.tokens[2:4]
        planned = [Planned(words, weighs, self.policy.starts["thread"]) for words in lines if words[0] == "thread"]
        self.threads = {thread.number: thread for thread in planned}
        self.rounds = self.start = self.position = 0
        self.seen = [[(0, 0)] * len(self.cores)]

    def copy(self):
        """Another one that stands there. The policy doesn't change, nor does what was seen."""
        return copy.deepcopy(self, {id(kept): kept for kept in [self.policy, *self.seen]})

    # ---- what there is to see

    def look(self, core):
        """The thread count and the load of a core, as it is."""
        threads = self.cores[core].threads()
        return len(threads), sum(self.threads[thread].weight for thread in threads)

    def values(self, owner, core, look):
        """What the names of that owner stand for, of a core that looked so."""
        return {**dict(zip(NUMBERS[owner], look)), **numbered(apart.ATTRIBUTES[owner], self.cores[core].constants)}

    def pair(self, core, own, victim, other):
        return {**self.values("self", core, own), **self.values("victim", victim, other)}

    def looks(self, reads):
        """What was seen of each core by reads that may be made."""
        return [self.seen[at][core] for core, at in enumerate(reads)]

    # ---- what a core may do

    def next_to_enter(self, core):
        """The first thread of the trace that the core has still to let in, or None."""
        return next((number for number, thread in self.threads.items() if thread.core == core and thread.round == self.rounds
                     and number not in self.cores[core].let_in), None)

    def next_to_wake(self, core):
        return next((number for number, wakes in self.cores[core].blocked if wakes <= self.rounds), None)

    def target(self, core, reads):
        """Where the policy places a thread that comes by the core."""
        if self.policy.place is None:
            return core
        seen = [self.values("victim", at, look) for at, look in enumerate(self.looks(reads))]
        return min(range(len(seen)), key=lambda at: value_of(self.policy.place, seen[at]))

    def elected(self, core):
        """The thread that runs the next unit, or None."""
        place = self.cores[core]
        if place.running is not None:
            return place.running
        return best(place.queue, self.policy.elect, lambda number: self.threads[number].seen())

    def case(self, event, number, core, is_fresh):
        """The one case of the event's handler that holds of the thread at the core, and what it sees."""
        constants = numbered(apart.ATTRIBUTES["self"], self.cores[core].constants)
        seen = {**self.threads[number].seen(), apart.FRESH: int(is_fresh), **constants}
        return next(case for case in self.policy.handlers[event] if holds(case[0], seen)), seen

    def unit(self, core):
        """What the next unit of the core comes to, in the words of its entry."""
        number = self.elected(core)
        if number is None:
            return "-"
        event = self.threads[number].meets()[0]
        return f"{number} {'end' if event == 'end' else self.case(event, number, core, False)[0][2]}"

    def choice(self, core, reads):
        """The core that it chooses to steal from by these reads, or None."""
        looks = self.looks(reads)
        seen = {at: self.pair(core, looks[core], at, look) for at, look in enumerate(looks) if at != core}
        candidates = [at for at, values in seen.items() if holds(self.policy.filter, values)]
        return best(candidates, self.policy.choose, lambda at: seen[at])

    def moved(self, core, victim):
        """The threads that a steal takes now, in the order of their moves. There are none where it fails."""
        own, other, queue, found = self.look(core), self.look(victim), list(self.cores[victim].queue), []
        condition, most = self.policy.filter, 1
        while queue and len(found) < most:
            thread = self.threads[best(queue, self.policy.steal, lambda number: self.threads[number].seen())]
            if not holds(condition, {**self.pair(core, own, victim, other), **thread.seen()}):
                break
            found.append(thread.number)
            queue.remove(thread.number)
            own, other = (own[0] + 1, own[1] + thread.weight), (other[0] - 1, other[1] - thread.weight)
            condition, most = self.policy.batch, self.policy.limit
        return found

    # ---- rules, each with whether it is kept, and its line

    def broken(self, line):
        """The line of the first rule that the entry breaks, or None."""
        rules = self.rules_of_round(line.values["round"]) if line.kind == "round" else self.rules_of_turn(line)
        return next((f"rule {text}" for is_kept, text in rules if not is_kept), None)

    def is_complete(self):
        return self.rounds == 0 or all(place.attempted for place in self.cores)

    def is_due(self):
        return self.rounds < self.most_rounds and not all(thread.is_over for thread in self.threads.values())

    def rules_of_round(self, number):
        yield self.is_complete(), "waits"
        yield self.is_due(), "none-due"
        yield number == self.rounds + 1, f"number {self.rounds + 1}"

    def rules_of_turn(self, line):
        core = line.values["core"]
        yield self.rounds > 0, "none-open"
        yield core < len(self.cores), "no-core"
        if line.kind in ("steal", "fail", "pass"):
            yield from self.rules_of_attempt(line, core)
            return
        wanted = line.values["thread"] if line.kind == "enter" else None
        yield self.next_to_enter(core) == wanted, f"enters {or_dash(self.next_to_enter(core))}"
        if line.kind != "enter":
            wanted = line.values["thread"] if line.kind == "wake" else None
            yield self.next_to_wake(core) == wanted, f"wakes {or_dash(self.next_to_wake(core))}"
        yield from self.rules_of_work(line, core) if line.kind in ("work", "nothing") else self.rules_of_coming(line, core)

    def rules_of_work(self, line, core):
        yield not self.cores[core].worked, "worked"
        told = "-" if line.kind == "nothing" else f"{line.values['thread']} {line.values['outcome']}"
        yield self.unit(core) == told, f"unit {self.unit(core)}"

    def rules_of_coming(self, line, core):
        yield from self.rules_of_reads(line.values["reads"], len(self.cores) if self.policy.place else 0)
        target = self.target(core, line.values["reads"])
        yield line.values["target"] == target, f"place {target}"

    def rules_of_reads(self, reads, count):
        yield len(reads) == count, f"reads {count}"
        for core, at in enumerate(reads):
            yield self.start <= at <= self.position, f"read {core} saw {at} from {self.start} to {self.position}"

    def rules_of_attempt(self, line, core):
        yield self.cores[core].worked, "to-work"
        yield not self.cores[core].attempted, "attempted"
        yield from self.rules_of_reads(line.values["reads"], len(self.cores))
        victim = self.choice(core, line.values["reads"])
        yield line.values.get("victim") == victim, f"choice {or_dash(victim)}"
        moved = [] if victim is None else self.moved(core, victim)
        yield (line.kind == "steal") == bool(moved), f"filter {str(bool(moved)).lower()}"
        yield line.values.get("threads", []) == moved, f"threads {' '.join(map(str, moved))}"

    # ---- what a legal entry does

    def step(self, line):
        values = line.values
        if line.kind == "round":
            self.rounds, self.start = self.rounds + 1, self.position + 1
            for place in self.cores:
                place.begin()
        elif line.kind in ("enter", "wake"):
            self.come(line.kind == "enter", values["thread"], values["core"], values["target"])
        elif line.kind in ("work", "nothing"):
            self.work(values["core"])
        else:
            self.attempt(values["core"], values.get("victim"), values.get("threads", []))
        self.position += 1
        self.seen.append([self.look(core) for core in range(len(self.cores))])

    def come(self, is_fresh, number, core, target):
        place = self.cores[core]
        if is_fresh:
            place.let_in.add(number)
        else:
            place.blocked = [pair for pair in place.blocked if pair[0] != number]
        self.meet("enqueue", number, target, is_fresh, 0)

    def work(self, core):
        place, number = self.cores[core], self.elected(core)
        place.worked = True
        if number is None:
            return
        thread = self.threads[number]
        event, rounds = thread.meets()
        if place.running is None:
            place.queue.remove(number)
        place.running = None
        thread.ran()
        if event == "end":
            thread.is_over = True
        else:
            self.meet(event, number, core, False, self.rounds + rounds)

    def meet(self, event, number, core, is_fresh, wakes):
        """The thread, which stands nowhere, meets the event at the core."""
        (_, sets, put), seen = self.case(event, number, core, is_fresh)
        for at, form in sets:
            name = apart.ATTRIBUTES["t"] + at
            least, greatest = self.policy.ranges[name]
            seen[name] = max(least, min(value_of(form, seen), greatest))
        thread, place = self.threads[number], self.cores[core]
        thread.values = [seen[apart.ATTRIBUTES["t"] + at] for at in range(len(thread.values))]
        if put == "keep":
            place.running = number
        elif put == "queue":
            place.queue.append(number)
        else:
            place.blocked.append((number, wakes))

    def attempt(self, core, victim, moved):
        self.cores[core].attempted = True
        for number in moved:
            self.cores[victim].queue.remove(number)
            self.cores[core].queue.append(number)

    # ---- what may come next

    def legal(self):
        """The lines of the entries that may come next, if there is room for one."""
        if self.position >= MAX_LINES["history"]:
            return []
        turns = [core for core, place in enumerate(self.cores) if self.rounds and not place.attempted]
        found = [self.legal_of(core) for core in turns]
        if self.is_complete() and self.is_due():
            found.append(f"round {self.rounds + 1}")
        return [f"legal {text}" for text in found]

    def legal_of(self, core):
        """What the core does next, by looks that are made just now."""
        now = [self.position] * len(self.cores)
        reads = " :" + f" {self.position - self.start}" * len(self.cores)
        for kind, number in (("enter", self.next_to_enter(core)), ("wake", self.next_to_wake(core))):
            if number is not None:
                return f"{kind} {number} {core} {self.target(core, now)}{reads if self.policy.place else ''}"
        if not self.cores[core].worked:
            return f"work {core} {self.unit(core)}"
        victim = self.choice(core, now)
        if victim is None:
            return f"pass {core}{reads}"
        moved = self.moved(core, victim)
        return f"{'steal' if moved else 'fail'} {core} {victim}{''.join(f' {number}' for number in moved)}{reads}"


def or_dash(number):
    return "-" if number is None else number


def lines_for(policy, trace, history):
    """The lines that `why` writes, of texts as bytes. Of a history that is none it is the line of its fault."""
    judge = Judge(policy, trace)
    try:
        entries = read_history(history)
        if entries.cores not in (None, len(judge.cores)):
            return ["history 1 bad-line"]
    except Refused as fault:
        return [f"history {str(fault).split()[1]} bad-line"]
    return told_of(judge, entries)


def told_of(judge, entries):
    """The lines of `why` for these entries, from the judge's position on."""
    for line in entries[judge.position:]:
        rule = judge.broken(line)
        if rule:
            return [f"illegal {judge.position}", rule, *judge.legal()]
        judge.step(line)
    if judge.is_complete() and not judge.is_due():
        return [f"whole {judge.position}"]
    return [f"short {judge.position}", *judge.legal()]
