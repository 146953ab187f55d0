"""The picture of a history by rounds, for tools/pictures: which thread each core runs, which wait there, and which core is idle."""

from collections import namedtuple

from drawing import BAD, BLUE, INK, PALE, RED, Picture, legend
from histories import cores_of
from history_steps import Core, move

LEFT, TOP, RIGHT = 70, 104, 20
WIDTH, GAP, RUN, WAIT = 64, 8, 28, 18
# Where the legend ends.
LEGEND = 580
# How many waiting threads of a core are drawn; of the others there is their number.
MOST = 3

# What a core did in a round: the thread that ran a unit or None, those that wait there at its end, and whether the round was bad for it.
Cell = namedtuple("Cell", "ran waiting is_bad")


def rounds_in(history):
    """The numbers of the rounds, each with its entries."""
    rounds = []
    for line in history:
        if line.kind == "round":
            rounds.append((line.values["round"], []))
        elif rounds:
            rounds[-1][1].append(line)
    return rounds


def cells_of(history, count):
    """Of each round its number, and the cells of its cores."""
    cores = [Core() for _ in range(count)]
    found = []
    for number, lines in rounds_in(history):
        counts = [core.count() for core in cores]
        ran = {line.values["core"]: line.values["thread"] for line in lines if line.kind == "work"}
        for line in lines:
            move(cores, line)
        is_bad = 0 in counts and max(counts) > 1
        found.append((number, [Cell(ran.get(at), waiting(core, ran.get(at)), is_bad and not counts[at])
                               for at, core in enumerate(cores)]))
    return found


def waiting(core, ran):
    """The threads of the core that haven't run: one that has just run its unit and was queued doesn't count here."""
    return [thread for thread in core.queue if thread != ran]


class Lanes:
    """A lane for each core, from the top, with room for those that wait there, and a column for each round."""

    def __init__(self, found, count):
        rows = [max([min(len(cells[at].waiting), MOST + 1) for _, cells in found], default=0) for at in range(count)]
        self.tops = [TOP + sum(RUN + WAIT * row + GAP * 2 for row in rows[:at]) for at in range(count)]
        self.bottom = TOP + sum(RUN + WAIT * row + GAP * 2 for row in rows)
        self.right = max(LEFT + len(found) * (WIDTH + GAP), LEGEND)

    def x(self, column):
        return LEFT + GAP + column * (WIDTH + GAP)


def draw_rounds_of(history):
    count = cores_of(history)
    found = cells_of(history, count)
    lanes = Lanes(found, count)
    picture = Picture(lanes.right + RIGHT, lanes.bottom + 34)
    picture.words(LEFT, 28, "Cores by rounds", 17, font_weight="bold")
    picture.words(LEFT, 48, f"rounds {len(found)}, cores {count}", 12, PALE)
    legend(picture, LEFT, 74, [
        ("a thread runs", lambda x, y: picture.rect(x - 8, y - 6, 16, 12, BLUE)),
        ("a thread waits", lambda x, y: picture.rect(x - 8, y - 6, 16, 12, "#ffffff", stroke=BLUE)),
        ("idle beside a core with two threads", lambda x, y: picture.rect(x - 8, y - 6, 16, 12, BAD, stroke=RED)),
    ])
    for at, top in enumerate(lanes.tops):
        picture.words(LEFT - 4, top + RUN / 2 + 4, f"core {at}", 12, anchor="end")
    for column, (number, cells) in enumerate(found):
        picture.words(lanes.x(column) + WIDTH / 2, lanes.bottom + 16, f"round {number}", 11, PALE, "middle")
        for at, cell in enumerate(cells):
            draw_cell(picture, lanes.x(column), lanes.tops[at], cell, f"round {number}, core {at}")
    return picture.svg()


def draw_cell(picture, x, top, cell, place):
    picture.group(f"{place}: {words_of(cell)}")
    if cell.ran is not None:
        box(picture, x, top, RUN, f"{cell.ran} runs", BLUE, BLUE, "#ffffff")
    elif cell.is_bad:
        box(picture, x, top, RUN, "idle", BAD, RED, RED)
    else:
        box(picture, x, top, RUN, "idle" if not cell.waiting else "", "#ffffff", PALE, PALE)
    for row, text in enumerate(waiting_texts(cell.waiting)):
        box(picture, x, top + RUN + 2 + WAIT * row, WAIT - 3, text, "#ffffff", BLUE, INK)
    picture.end()


def box(picture, x, y, height, text, fill, stroke, ink):
    picture.rect(x, y, WIDTH, height, fill, stroke=stroke)
    if text:
        picture.words(x + WIDTH / 2, y + height / 2 + 4, text, 12 if height == RUN else 11, ink, "middle")


def waiting_texts(threads):
    """A text for each waiting thread that is drawn, and one for the others."""
    texts = [f"{thread} waits" for thread in threads[:MOST]]
    return texts + [f"{len(threads) - MOST} more"] if len(threads) > MOST else texts


def words_of(cell):
    runs = "idle" if cell.ran is None else f"thread {cell.ran} runs"
    return f"{runs}; waiting: {' '.join(map(str, cell.waiting)) or 'none'}"
