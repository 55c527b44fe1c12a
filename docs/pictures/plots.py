"""Plots of what bench/growth and bench/scale printed, which stands in growth.txt and scale.txt beside this file: each a picture of panels
with both scales by powers of ten."""
import math
import os

import svg

HERE = os.path.dirname(os.path.abspath(__file__))
# a panel's size; what is free left of it, right of it, above it and below it; and what is free above all panels
PANEL, LEFT, RIGHT, ABOVE, BELOW, HEAD = (330, 210), 72, 30, 46, 96, 44
STORE, OTHER, THIRD, FOURTH = "#b45f06", "#1f5592", "#3f6b2c", "#7b3fa0"


def rows(name):
    """The lines of a table that are no comment, cut at their spaces."""
    with open(os.path.join(HERE, name), encoding="utf-8") as file:
        return [line.split() for line in file if line.strip() and not line.startswith("#")]


def short(value):
    """A number of an axis, as 2,000 or 0.5."""
    return f"{value:,.0f}" if value >= 1 else f"{value:.12g}"


class Panel:
    """A plot of lines, each a name, a colour and its points."""

    def __init__(self, title, across, up, lines):
        self.title, self.across, self.up, self.lines = title, across, up, lines
        points = [point for _, _, line in lines for point in line]
        self.left, self.right = min(x for x, _ in points), max(x for x, _ in points)
        low, high = min(y for _, y in points), max(y for _, y in points)
        self.low, self.high = 10 ** math.floor(math.log10(low)), 10 ** math.ceil(math.log10(high * 1.0001))

    def place(self, corner, point):
        x = math.log(point[0] / self.left) / math.log(self.right / self.left)
        y = math.log(point[1] / self.low) / math.log(self.high / self.low)
        return corner[0] + 10 + x * (PANEL[0] - 20), corner[1] + PANEL[1] * (1 - y)

    def steps(self):
        """The heights that have a line: powers of ten, and twice and five times these where they are few."""
        decades = round(math.log10(self.high / self.low))
        found = [self.low * 10 ** power * part for power in range(decades) for part in ((1, 2, 5) if decades < 3 else (1,))]
        return [*found, self.high]

    def draw(self, picture, corner):
        x, y = corner
        width, height = PANEL
        picture.text(x, y - 26, self.title, 14, bold=True)
        picture.text(x, y - 9, self.up, 12, ink=svg.PALE)
        for step in self.steps():
            _, at = self.place(corner, (self.left, step))
            picture.line([(x, at), (x + width, at)], svg.EDGE)
            picture.text(x - 6, at + 4, short(step), 11.5, "end", svg.PALE)
        for value in sorted({point[0] for _, _, line in self.lines for point in line}):
            at, _ = self.place(corner, (value, self.low))
            picture.line([(at, y + height), (at, y + height + 4)], svg.PALE)
            picture.text(at, y + height + 17, short(value), 11.5, "middle", svg.PALE)
        picture.text(x + width / 2, y + height + 33, self.across, 12, "middle", svg.PALE)
        for name, ink, line in self.lines:
            picture.line([self.place(corner, point) for point in line], ink, 2)
            for point in line:
                picture.dot(*self.place(corner, point), ink, f"{name}, {short(point[0])}: {point[1]:g}")
        for place, (name, ink, _) in enumerate(self.lines):
            at, down = x + place % 2 * 180, y + height + 58 + place // 2 * 22
            picture.line([(at, down - 4), (at + 16, down - 4)], ink, 3)
            picture.text(at + 21, down, name, 12)


def of_panels(title, says, panels):
    """A picture of panels, two in a row."""
    wide, high = LEFT + PANEL[0] + RIGHT, ABOVE + PANEL[1] + BELOW
    picture = svg.Picture(2 * wide, HEAD + -(-len(panels) // 2) * high, title, says)
    picture.text(24, 32, title, 17, bold=True)
    for number, panel in enumerate(panels):
        panel.draw(picture, (LEFT + number % 2 * wide, HEAD + ABOVE + number // 2 * high))
    return picture.whole()


def growth():
    table = rows("growth.txt")
    named = [("setup", "Setup", "milliseconds"), ("addition", "One addition after it", "microseconds"),
             ("rare", "One search, one document found", "microseconds"),
             ("frequent", "One search, 57 of 1,000 documents found", "microseconds")]
    panels = []
    for what, title, unit in named:
        taken = [[float(cell) for cell in row[1:]] for row in table if row[0] == what]
        lines = [("this store, in one process", STORE, [(size, ours) for size, ours, _ in taken]),
                 ("FTS5, in plain text", OTHER, [(size, theirs) for size, _, theirs in taken])]
        panels.append(Panel(title, "documents of 60 words in the setup", unit, lines))
    return of_panels("Processor time as the documents grow, beside SQLite's FTS5",
                     "A setup, an addition and two kinds of search, of this store and of SQLite's FTS5 in plain text.", panels)


def series(table, kind, what, place):
    """The numbers at this place of the rows of a kind, beside their second column."""
    return [(float(row[1]), float(row[3 + place])) for row in table if row[:1] + row[2:3] == [kind, what]]


def scale():
    table = rows("scale.txt")
    kept = [("client's journal", STORE, series(table, "added", "journals", 0)), ("server's journal", OTHER, series(table, "added", "journals", 1)),
            ("client's memory", THIRD, series(table, "again", "memory", 0)), ("server's memory", FOURTH, series(table, "again", "memory", 1))]
    done = [("additions, on a disk", STORE, series(table, "disk", "addition", 0)),
            ("additions, in memory", OTHER, series(table, "added", "addition", 0)),
            ("searches, one found", THIRD, series(table, "added", "rare", 0)),
            ("searches, 5.7 % found", FOURTH, series(table, "added", "frequent", 0))]
    begun = [("client", STORE, series(table, "disk", "start", 0)), ("server", OTHER, series(table, "disk", "start", 1))]
    together = [("of all together", STORE, series(table, "owners", "addition", 0))]
    return of_panels("What an archive takes, by its pairs of a word and a document", "Bytes a pair, additions and searches a second, seconds to start again.",
                     [Panel("Kept", "pairs", "bytes a pair", kept), Panel("Done over TCP, by one client", "pairs", "a second", done),
                      Panel("Started again from their journals", "pairs", "seconds", begun),
                      Panel("Additions of several owners on one disk", "owners who add at once", "a second", together)])
