"""The pictures of reports, for tools/pictures: spread and idle cores by round, of one report or of two beside each other."""

from drawing import BAD, BLUE, GRID, ORANGE, PALE, RED, RESTED, STILL, Picture, legend, short, ticks
from histories import Line

WIDTH, LEFT, RIGHT = 960, 70, 24
# Of two reports each has this width, with the scale at the left of the first.
HALF, BETWEEN = 430, 34


class Panel:
    """A plot by rounds with an axis from 0 to the most. `name` is written beside its scale, where it has one."""

    def __init__(self, picture, top, height, rounds, most, name, left=LEFT, right=WIDTH - RIGHT):
        self.picture, self.top, self.height, self.rounds = picture, top, height, max(rounds, 1)
        self.left, self.right = left, right
        self.bottom, self.most = top + height, max(most, 1)
        self.step = (right - left) / self.rounds
        for value in ticks(self.most, 6):
            picture.line(left, self.y(value), right, self.y(value), GRID)
            if name:
                picture.words(left - 8, self.y(value) + 4, str(value), 11, anchor="end")
        middle = top + height / 2
        if name:
            picture.words(18, middle, name, 12, anchor="middle", transform=f"rotate(-90 18 {short(middle)})")

    def x(self, number):
        return self.left + (number - 0.5) * self.step

    def y(self, value):
        return self.bottom - self.height * value / self.most

    def axes(self):
        self.picture.line(self.left, self.top, self.left, self.bottom)
        self.picture.line(self.left, self.bottom, self.right, self.bottom)


def draw_report(report):
    picture = Picture(WIDTH, 560)
    picture.words(LEFT, 28, "Spread and idle cores by round", 17, font_weight="bold")
    picture.words(LEFT, 48, words_of(report), 12, PALE)
    report_legend(picture, 74, [report])
    most = most_of([report])
    spread = Panel(picture, 96, 220, len(report.rounds), most["spread"], "spread")
    draw_spread(picture, spread, report.rounds)
    idle = Panel(picture, 366, 120, len(report.rounds), most["idle"], "idle cores")
    draw_idle(picture, idle, report.rounds)
    draw_stills(picture, spread, report)
    draw_rounds(picture, idle, len(report.rounds))
    return picture.svg()


def draw_two(names, reports):
    """The two reports beside each other. Both have the scales of the greater numbers, and as many rounds."""
    picture = Picture(LEFT + 2 * HALF + BETWEEN + RIGHT, 580)
    picture.words(LEFT, 28, "Spread and idle cores by round, on one scale", 17, font_weight="bold")
    report_legend(picture, 54, reports)
    most, rounds = most_of(reports), max(len(report.rounds) for report in reports)
    for at, (name, report) in enumerate(zip(names, reports)):
        left = LEFT + at * (HALF + BETWEEN)
        picture.words(left, 82, name, 14, font_weight="bold")
        picture.words(left, 100, words_of(report), 12, PALE)
        spread = Panel(picture, 116, 220, rounds, most["spread"], "" if at else "spread", left, left + HALF)
        draw_spread(picture, spread, report.rounds)
        idle = Panel(picture, 386, 120, rounds, most["idle"], "" if at else "idle cores", left, left + HALF)
        draw_idle(picture, idle, report.rounds)
        draw_stills(picture, spread, report)
        draw_rounds(picture, idle, rounds)
    return picture.svg()


def most_of(reports):
    """The greatest spread and the most idle cores of a round."""
    lines = [line for report in reports for line in report.rounds]
    return {name: max([line.values[name] for line in lines], default=0) for name in ("spread", "idle")}


def words_of(report):
    """The totals of a report, and how many failed steals no entry explains."""
    totals = ", ".join(f"{name} {count}" for name, count in report.totals.items())
    return totals + (f", unexplained {len(report.unexplained)}" if report.unexplained else "")


def is_stuck(still):
    """Whether `waste` says of a stretch that it has bad rounds, and no thread was stolen in it."""
    return bool(still.values["bad"]) and still.values.get("steals") == 0


def report_legend(picture, y, reports):
    rested = [("at rest", lambda x, y: picture.rect(x - 8, y - 2, 16, 4, RESTED))]
    stuck = [("still, bad, and nothing stolen", lambda x, y: picture.rect(x - 8, y - 4, 16, 8, RED))]
    has_rested = any(line.values for report in reports for line in report.rests)
    has_stuck = any(is_stuck(line) for report in reports for line in report.stills)
    legend(picture, LEFT, y, [
        ("spread of loads", lambda x, y: spread_mark(picture, x, y)),
        ("idle cores while one is overloaded", lambda x, y: picture.rect(x - 4, y - 6, 8, 12, ORANGE)),
        ("bad round", lambda x, y: picture.rect(x - 7, y - 6, 14, 12, BAD)),
        ("still rounds", lambda x, y: picture.rect(x - 8, y - 4, 16, 8, STILL)),
    ] + (rested if has_rested else []) + (stuck if has_stuck else []))


def spread_mark(picture, x, y):
    picture.line(x - 9, y, x + 9, y, BLUE, stroke_width=2)
    picture.circle(x, y, 3, BLUE)


def draw_spread(picture, panel, rounds):
    for line in rounds:
        if line.values["idle"]:
            left = panel.x(line.values["round"]) - panel.step / 2
            picture.rect(left, panel.top, panel.step, panel.height, BAD, shape_rendering="crispEdges")
    points = [(panel.x(line.values["round"]), panel.y(line.values["spread"])) for line in rounds]
    path = " ".join(f"{short(x)},{short(y)}" for x, y in points)
    picture.add("polyline", points=path, fill="none", stroke=BLUE, stroke_width=2)
    for line, (x, y) in zip(rounds, points):
        picture.group(line.text)
        picture.circle(x, y, 3 if panel.step > 7 else 1, BLUE)
        picture.end()
    panel.axes()


def draw_idle(picture, panel, rounds):
    width = max(min(panel.step * 0.7, 40), 0.5)
    for line in rounds:
        if line.values["idle"]:
            top = panel.y(line.values["idle"])
            picture.group(line.text)
            picture.rect(panel.x(line.values["round"]) - width / 2, top, width, panel.bottom - top, ORANGE)
            picture.end()
    panel.axes()


def draw_stills(picture, panel, report):
    """A bar under the spread for each stretch of still rounds, and a line below it where the stretch is at rest."""
    for still, rest in zip(report.stills, report.rests):
        draw_bar(picture, panel, still, 12, 8, RED if is_stuck(still) else STILL)
        if rest.values:
            draw_bar(picture, panel, Line(rest.kind, rest.text, {**rest.values, "last": still.values["last"]}), 23, 4, RESTED)


def draw_bar(picture, panel, line, below, height, fill):
    """A bar from the round of a line to its last one, so far below the plot."""
    gap = min(panel.step / 8, 2)
    picture.group(line.text)
    left, right = panel.x(line.values["round"]) - panel.step / 2 + gap, panel.x(line.values["last"]) + panel.step / 2 - gap
    picture.rect(left, panel.bottom + below, right - left, height, fill)
    picture.end()


def draw_rounds(picture, panel, rounds):
    for number in [1, *ticks(rounds, 16)]:
        if 1 <= number <= rounds and (number == 1 or panel.x(number) - panel.x(1) > 20):
            picture.line(panel.x(number), panel.bottom, panel.x(number), panel.bottom + 5)
            picture.words(panel.x(number), panel.bottom + 19, str(number), 11, anchor="middle")
    picture.words((panel.left + panel.right) / 2, panel.bottom + 42, "round", 12, anchor="middle")
