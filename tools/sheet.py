"""A sheet of paper on which tools/scenes.py draws. It is as wide as a phone can show without making letters too small.

A browser that has no font of its own choice for a page takes a narrower one than DejaVu Sans, so words get room by the
widths of that font. The sheet knows the places of words and lines, and says which of them cover others."""
import itertools
import math
import textwrap
from xml.sax.saxutils import escape

from roles import DARK, LIGHT, PATTERNS

WIDTH = 460
# The height of letters, and how many parts of it are above and below the line.
SIZE, ABOVE, BELOW = 13, 0.76, 0.22
# How wide letters of DejaVu Sans are at most, in hundredths of their height; bold ones are wider by this factor.
WIDTHS = [
    (30, "'ijlIJ"), (36, " ,./:;\\|f-"), (41, "()[]t!r"), (53, '"*_`sz?'), (59, "cLFkvxy"),
    (64, "PTYaoeESbdghnpqu$0123456789{}"), (70, "KAVBRXZC"), (77, "UHNDG"), (83, "&OQw"), (86, "#+<=>^~M"),
]  # fmt: skip
WIDEST, BOLD = 100, 1.16
WIDTH_OF = {letter: width for width, letters in WIDTHS for letter in letters}
# How far the tip of an arrow reaches, and how wide half of it is.
TIP, HALF = 8, 4
# How much room the words of a box have at its edges.
EDGE = 8
STYLE = (
    """
text{font:13px sans-serif;fill:#222} .name{font-weight:bold} .note{fill:#555} .lit{fill:#fff}
.paper{fill:#fff} .box{fill:#f4f4f4;stroke:#999} .group{fill:none;stroke:#999;stroke-dasharray:4 3}
.line{stroke:#555;stroke-width:1.3;fill:none} .point{fill:#555} .life{stroke:#bbb;stroke-width:1;fill:none}
.thick{stroke:#1c3a57;stroke-width:3;fill:none} .heavy{fill:#1c3a57}
"""
    + LIGHT
    + """
@media (prefers-color-scheme:dark){
text{fill:#ddd} .note{fill:#aaa} .lit{fill:#0d1117}
.paper{fill:#0d1117} .box{fill:#161b22;stroke:#666} .group{stroke:#777}
.line{stroke:#aaa} .point{fill:#aaa} .thick{stroke:#b9d8f2} .heavy{fill:#b9d8f2} .life{stroke:#444}
"""
    + DARK
    + "\n}\n"
)
# The class of an arrow's tip, by the class of its line.
TIPS = {"line": "point", "hop": "tip", "thick": "heavy"}


def width_of(words, kind=""):
    """Returns how wide these words are at most."""
    width = sum(WIDTH_OF.get(it, WIDEST) for it in words) * SIZE / 100
    return width * BOLD if kind == "name" else width


def crosses(line, area):
    """Returns whether a line, which is level or upright, passes through an area."""
    (x, y), (to_x, to_y) = line
    left, top, right, bottom = area
    return min(x, to_x) < right and max(x, to_x) > left and min(y, to_y) < bottom and max(y, to_y) > top


class Sheet:
    """The parts drawn so far, of a picture of this height, with its name, its title and its text for those who can't
    see it."""

    def __init__(self, name, height, title, told):
        self.name, self.height, self.title, self.told = name, height, title, told
        self.parts, self.areas, self.lines, self.wrong = [], [], [], []

    def text(self, x, y, words, kind="", anchor="start"):
        """Writes words on this line, which begin there, end there or have their middle there."""
        width = width_of(words, kind)
        left = x - {"start": 0, "middle": width / 2, "end": width}[anchor]
        self.areas.append((words, (left, y - SIZE * ABOVE, left + width, y + SIZE * BELOW)))
        if left < 0 or left + width > WIDTH or y + SIZE * BELOW > self.height:
            self.wrong.append(f"{words!r} runs off the sheet")
        anchored = "" if anchor == "start" else f' text-anchor="{anchor}"'
        classed = f' class="{kind}"' if kind else ""
        self.parts.append(f'<text x="{x:g}" y="{y:g}"{classed}{anchored}>{escape(words)}</text>')

    def rect(self, x, y, width, height, kind):
        """Draws a rectangle of this class."""
        self.parts.append(f'<rect class="{kind}" x="{x:g}" y="{y:g}" width="{width:g}" height="{height:g}"/>')

    def box(self, x, y, width, rows):
        """Draws a box with rows of words. A row is the class of its words, and the words; if the class is a role, a
        sample of it comes before them. Returns the lower end of the box."""
        height = 20 * len(rows) + 10
        self.rect(x, y, width, height, "box")
        for at, (kind, words) in enumerate(rows):
            self.row(x + EDGE, y + 20 * at + 19, x + width - EDGE, kind, words)
        return y + height

    def row(self, x, y, end, kind, words):
        """Writes words that begin there and must end before that, behind a sample of their role if they have one."""
        is_of_role = kind not in ("", "name", "note")
        if is_of_role:
            self.rect(x, y - 10, 20, 11, kind)
        begin, kind = (x + 26, "") if is_of_role else (x, kind)
        if begin + width_of(words, kind) > end:
            self.wrong.append(f"{words!r} runs out of its box")
        self.text(begin, y, words, kind)

    def line(self, points, kind="line"):
        """Draws a line through these points."""
        if kind != "life":
            self.lines += itertools.pairwise(points)
        path = "".join(f"{'L' if at else 'M'}{x:g},{y:g}" for at, (x, y) in enumerate(points))
        self.parts.append(f'<path class="{kind}" d="{path}"/>')

    def arrow(self, points, kind="line"):
        """Draws a line through these points with a tip at its end."""
        (x, y), (to_x, to_y) = points[-2:]
        length = math.hypot(to_x - x, to_y - y)
        along, across = (to_x - x) / length, (to_y - y) / length
        back = (to_x - along * TIP, to_y - across * TIP)
        self.line([*points[:-1], back], kind)
        sides = [(back[0] + side * across * HALF, back[1] - side * along * HALF) for side in (1, -1)]
        corners = "L".join(f"{a:.4g},{b:.4g}" for a, b in [(to_x, to_y), *sides])
        self.parts.append(f'<path class="{TIPS[kind]}" d="M{corners}z"/>')

    def dot(self, x, y):
        """Draws a request that is executed there."""
        self.parts.append(f'<circle class="done" cx="{x:g}" cy="{y:g}" r="4.5"/>')

    def faults(self):
        """Yields the faults in the places of words and lines."""
        yield from (f"{self.name}: {it}" for it in self.wrong)
        for (words, area), (other, its) in itertools.combinations(self.areas, 2):
            if area[0] < its[2] and its[0] < area[2] and area[1] < its[3] and its[1] < area[3]:
                yield f"{self.name}: {words!r} lies over {other!r}"
        for (words, area), line in itertools.product(self.areas, self.lines):
            if crosses(line, area):
                yield f"{self.name}: a line passes through {words!r}"

    def painted(self):
        """Returns the picture as SVG."""
        size = f'width="{WIDTH}" height="{self.height}" viewBox="0 0 {WIDTH} {self.height}"'
        head = f'<svg xmlns="http://www.w3.org/2000/svg" {size}\n role="img" aria-labelledby="title told">'
        told = "\n".join(textwrap.wrap(escape(self.told), 100))
        told = f'<title id="title">{escape(self.title)}</title>\n<desc id="told">{told}</desc>'
        style = f'<style>{STYLE}</style>{PATTERNS}<rect class="paper" width="100%" height="100%"/>'
        return "\n".join([head, told, style, *self.parts, "</svg>", ""])
