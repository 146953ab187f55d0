"""Shapes of an SVG, for the pictures of tools/pictures. They need nothing but Python's own library."""

from html import escape

INK, PALE, GRID = "#222222", "#777777", "#dddddd"
BLUE, ORANGE, RED, GREEN, PURPLE = "#1f5fa8", "#c96a00", "#c0202a", "#2e7d32", "#6a3d9a"
BAD, STILL, RESTED = "#fbe0dc", "#9aa7b4", GREEN


class Picture:
    """Shapes of an SVG, one after the other."""

    def __init__(self, width, height):
        self.width, self.height, self.shapes = width, height, []

    def add(self, name, inside=None, **settings):
        words = " ".join(f'{key.rstrip("_").replace("_", "-")}="{value}"' for key, value in settings.items())
        self.shapes.append(f"<{name} {words}/>" if inside is None else f"<{name} {words}>{inside}</{name}>")

    def rect(self, x, y, width, height, fill, **more):
        self.add("rect", x=short(x), y=short(y), width=short(width), height=short(height), fill=fill, **more)

    def line(self, x1, y1, x2, y2, stroke=INK, **more):
        self.add("line", x1=short(x1), y1=short(y1), x2=short(x2), y2=short(y2), stroke=stroke, **more)

    def circle(self, x, y, r, fill, **more):
        self.add("circle", cx=short(x), cy=short(y), r=r, fill=fill, **more)

    def polygon(self, points, fill, **more):
        self.add("polygon", points=" ".join(f"{short(x)},{short(y)}" for x, y in points), fill=fill, **more)

    def words(self, x, y, text, size=12, fill=INK, anchor="start", **more):
        self.add("text", escape(text), x=short(x), y=short(y), font_size=size, fill=fill, text_anchor=anchor, **more)

    def group(self, title):
        """What is added until `end` shows this title where the pointer rests."""
        self.shapes.append(f"<g><title>{escape(title)}</title>")

    def end(self):
        self.shapes.append("</g>")

    def svg(self):
        size = f'width="{short(self.width)}" height="{short(self.height)}"'
        head = f'<svg xmlns="http://www.w3.org/2000/svg" {size} font-family="sans-serif">'
        back = '<rect width="100%" height="100%" fill="#ffffff"/>'
        return "\n".join([head, back, *self.shapes, "</svg>"]) + "\n"


def short(number):
    return f"{number:.2f}".rstrip("0").rstrip(".")


def ticks(most, count):
    """Round numbers from 0 to the most, not many more than so many."""
    step = 1
    while most / step > count:
        step = step * 5 // 2 if str(step)[0] == "2" else step * 2
    return range(0, most + 1, step)


def legend(picture, x, y, marks):
    """A row of marks with their names. A mark is a name and a function that draws it at a place."""
    for name, draw in marks:
        draw(x + 8, y)
        picture.words(x + 22, y + 4, name)
        x += 36 + 6.6 * len(name)
