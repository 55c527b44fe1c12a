"""A picture as SVG text: lines, boxes and texts on a light card, so that it can be read on a light page and on a dark one."""
from xml.sax.saxutils import escape

SANS = "-apple-system, 'Segoe UI', Helvetica, Arial, 'DejaVu Sans', sans-serif"
MONO = "ui-monospace, Menlo, Consolas, 'DejaVu Sans Mono', monospace"
CARD, EDGE, INK, PALE = "#fbfbf8", "#c9c9c2", "#1f2328", "#6a6f76"


def number(value):
    """A coordinate, the same on each machine."""
    return f"{value:.1f}".rstrip("0").rstrip(".")


class Picture:
    def __init__(self, width, height, title, says):
        self.lines = [
            f'<svg xmlns="http://www.w3.org/2000/svg" viewBox="0 0 {width} {height}" width="{width}" height="{height}" role="img"'
            ' aria-labelledby="title says">',
            f'<title id="title">{escape(title)}</title>',
            f'<desc id="says">{escape(says)}</desc>',
        ]
        self.box(0.5, 0.5, width - 1, height - 1, CARD, EDGE, round_by=10)

    def box(self, x, y, width, height, fill, edge, round_by=4, dashed=False, tip=None):
        shape = (f'<rect x="{number(x)}" y="{number(y)}" width="{number(width)}" height="{number(height)}" rx="{round_by}"'
                 f' fill="{fill}" stroke="{edge}"' + (' stroke-dasharray="3 2"' if dashed else ""))
        self.lines.append(f"{shape}><title>{escape(tip)}</title></rect>" if tip else shape + "/>")

    def text(self, x, y, words, size=13, at="start", ink=INK, mono=False, bold=False):
        weight = ' font-weight="600"' if bold else ""
        self.lines.append(f'<text x="{number(x)}" y="{number(y)}" font-family="{MONO if mono else SANS}" font-size="{size}"{weight}'
                          f' text-anchor="{at}" fill="{ink}" pointer-events="none">{escape(words)}</text>')

    def line(self, points, ink, width=1.0, dashed=False):
        places = " ".join(f"{number(x)},{number(y)}" for x, y in points)
        self.lines.append(f'<polyline points="{places}" fill="none" stroke="{ink}" stroke-width="{number(width)}"'
                          + (' stroke-dasharray="5 4"' if dashed else "") + "/>")

    def dot(self, x, y, ink, tip):
        self.lines.append(f'<circle cx="{number(x)}" cy="{number(y)}" r="3.2" fill="{ink}"><title>{escape(tip)}</title></circle>')

    def arrow(self, x, y, end, ink):
        """From x to the end, both at the height y."""
        back = 7 if end < x else -7
        self.line([(x, y), (end + back, y)], ink, 1.4)
        self.lines.append(f'<polygon points="{number(end)},{number(y)} {number(end + back)},{number(y - 3.5)}'
                          f' {number(end + back)},{number(y + 3.5)}" fill="{ink}"/>')

    def whole(self):
        return "\n".join([*self.lines, "</svg>"]) + "\n"
