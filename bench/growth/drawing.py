"""Draws how throughput and latency grow, as an SVG. Each system has a card for each dimension. A card has a plot of
requests a second, and below it one of the slowest of 100 requests if the system tells times. Both have logarithmic
scales."""
import html
import math

WIDTH, COLUMNS, GAP, TOP = 1020, 3, 14, 74
CARD, HEIGHT = (WIDTH - (COLUMNS + 1) * GAP) // COLUMNS, 284
LEFT, RIGHT = 50, 14
# The top of each of the two plots of a card, and its height.
PLOTS = ((46, 104), (178, 66))
TITLES = ("requests a second", "slowest of 100")
STYLE = """
text{font:11px sans-serif;fill:#222} .title{font-size:16px;font-weight:bold} .name{font-size:12px;font-weight:bold}
.small{font-size:10px;fill:#555} .paper{fill:#fff} .card{fill:#f7f7f7;stroke:#ddd} .grid{stroke:#ddd;stroke-width:1}
.ours{stroke:#1f6fb5;stroke-width:2;fill:none} .ours.mark{fill:#1f6fb5} .range{stroke-width:1}
.locks{stroke:#b4500f;stroke-width:2;fill:none;stroke-dasharray:5 3} .locks.mark{fill:#fff;stroke-dasharray:none}
@media (prefers-color-scheme:dark){
text{fill:#e6e6e6} .small{fill:#aaa} .paper{fill:#0d1117} .card{fill:#161b22;stroke:#30363d} .grid{stroke:#30363d}
.ours{stroke:#6cb6ff} .ours.mark{fill:#6cb6ff} .locks{stroke:#f0a35e} .locks.mark{fill:#161b22}
}
"""
UNITS = ((1e9, "G"), (1e6, "M"), (1e3, "k"))
TIMES = ((1e9, "s"), (1e6, "ms"), (1e3, "us"), (1, "ns"))


def count(number):
    """Returns a number as 20, 4,096, 20k or 3M."""
    if 1000 <= number < 100_000 and number % 1000:
        return f"{number:,}"
    for size, letter in UNITS:
        if number >= size:
            return f"{number / size:.3g}{letter}"
    return f"{number:.3g}"


def duration(nanoseconds):
    size, name = next((it for it in TIMES if nanoseconds >= it[0]), TIMES[-1])
    return f"{nanoseconds / size:.3g} {name}"


def ticks(low, high):
    """Returns round numbers of a logarithmic scale from low to high, at most five of them."""
    for steps in ((1, 2, 5), (1, 3), (1,)):
        powers = range(math.floor(math.log10(low)), math.ceil(math.log10(high)) + 1)
        found = [step * 10**power for power in powers for step in steps if low <= step * 10**power <= high]
        if len(found) <= 5:
            return found
    return found[:: math.ceil(len(found) / 5)]


class Scale:
    """A logarithmic scale of values, from the top of a plot to its bottom."""

    def __init__(self, values, top, height):
        self.low, self.high = min(values, default=1) / 1.2, max(values, default=1) * 1.2
        self.top, self.height = top, height

    def at(self, value):
        part = math.log(max(value, self.low) / self.low) / math.log(self.high / self.low)
        return self.top + self.height * (1 - part)


def text(x, y, words, kind="", anchor="start"):
    kind = f' class="{kind}"' if kind else ""
    return f'<text x="{x:.1f}" y="{y:.1f}" text-anchor="{anchor}"{kind}>{html.escape(words)}</text>'


def line(x1, y1, x2, y2, kind):
    return f'<line x1="{x1:.1f}" y1="{y1:.1f}" x2="{x2:.1f}" y2="{y2:.1f}" class="{kind}"/>'


def mark(x, y, side):
    if side == "ours":
        return f'<circle cx="{x:.1f}" cy="{y:.1f}" r="3" class="ours mark"/>'
    return f'<rect x="{x - 3:.1f}" y="{y - 3:.1f}" width="6" height="6" class="locks mark"/>'


def places(row_count):
    """Returns the places of this many values, from left to right."""
    room = CARD - LEFT - RIGHT
    return [LEFT + room * (at + 0.5) / row_count for at in range(row_count)]


def curve(xs, scale, middles, ranges, side):
    ys = [scale.at(it) for it in middles]
    yield f'<polyline points="{" ".join(f"{x:.1f},{y:.1f}" for x, y in zip(xs, ys))}" class="{side}"/>'
    for x, (low, high) in zip(xs, ranges):
        yield line(x, scale.at(low), x, scale.at(high), f"{side} range")
    for x, y in zip(xs, ys):
        yield mark(x, y, side)


def plot(rows, what, place, shown):
    """Draws a plot of one figure of both sides in each row: the medians and quartiles."""
    sides = {side: [getattr(it, side)[what] for it in rows] for side in ("locks", "ours")}
    values = [value for side in sides.values() for three in side for value in three if value > 0]
    scale, xs = Scale(values, *place), places(len(rows))
    for tick in ticks(scale.low, scale.high):
        yield line(LEFT, scale.at(tick), CARD - RIGHT, scale.at(tick), "grid")
        yield text(LEFT - 5, scale.at(tick) + 4, shown(tick), "small", "end")
    for side, threes in sides.items():
        yield from curve(xs, scale, [it[1] for it in threes], [(it[0], it[2]) for it in threes], side)


def card(name, rows):
    yield f'<rect width="{CARD}" height="{HEIGHT}" rx="6" class="card"/>'
    yield text(12, 20, name, "name")
    for what, title, place, shown in zip(("rate", "p99"), TITLES, PLOTS, (count, duration)):
        if all(what in it.ours for it in rows):
            yield text(12, place[0] - 8, title, "small")
            yield from plot(rows, what, place, shown)
    for x, row in zip(places(len(rows)), rows):
        yield text(x, HEIGHT - 22, count(row.value), "", "middle")
    yield text(CARD / 2, HEIGHT - 7, rows[0].unit, "small", "middle")


def legend():
    for x, side, words in ((GAP, "ours", "ours"), (110, "locks", "locks in Rust")):
        yield line(x, 58, x + 34, 58, side)
        yield mark(x + 17, 58, side)
        yield text(x + 40, 62, words)
    yield text(GAP + 250, 62, "the middle of the rounds, and the quartiles as upright lines", "small")


def picture(cards, told):
    """Returns the whole picture of these cards, which have names and rows. `told` must say on which machine it was
    measured, and when."""
    height = TOP + math.ceil(len(cards) / COLUMNS) * (HEIGHT + GAP)
    size = f'width="{WIDTH}" height="{height}" viewBox="0 0 {WIDTH} {height}"'
    parts = [f'<svg xmlns="http://www.w3.org/2000/svg" {size}><style>{STYLE}</style>']
    parts += [f'<rect width="{WIDTH}" height="{height}" class="paper"/>', text(GAP, 24, "How it grows", "title")]
    parts += [text(GAP, 42, told, "small"), *legend()]
    for at, (name, rows) in enumerate(cards.items()):
        x, y = GAP + at % COLUMNS * (CARD + GAP), TOP + at // COLUMNS * (HEIGHT + GAP)
        parts += [f'<g transform="translate({x} {y})">', *card(name, rows), "</g>"]
    return "\n".join([*parts, "</svg>\n"])
