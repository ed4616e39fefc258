"""What is aimed at, row by row (bench/aims.list), and the table of docs/PERFORMANCE.md that says where it is met."""
import dataclasses
import itertools
import math
import pathlib
import re

import figures
import measure
from rows import RATE

FILE = pathlib.Path(__file__).resolve().parent / "aims.list"
PAGE = measure.beside.TOP / "docs/PERFORMANCE.md"
TABLE = "| what | beside | aim | is | measured |\n|---|---|---|---|---|\n"
MARKED = re.compile(r"(<!-- By bench/all --write -->\n).*?(<!-- End of it -->)", re.S)


@dataclasses.dataclass(frozen=True)
class Aim:
    what: str
    other: str
    figure: float
    bench: str
    name: str
    beside: str

    def key(self):
        return self.bench, self.name, self.beside

    def is_met_by(self, row):
        return row.middle >= self.figure if row.unit == RATE else row.middle <= self.figure


def read():
    """The aims in the list's order."""
    lines = (it for it in FILE.read_text(encoding="utf-8").split("\n") if it and not it.startswith("#"))
    words = (it.split("\t") for it in lines)
    return [Aim(what, other, float(figure), *key) for what, other, figure, *key in words]


def short(number):
    return f"{number:,.6g}" if number < 1000 else f"{number:,.0f}"


def figure_of(aim, found):
    row = found.rows.get(aim.key())
    if not row:
        return "–"
    is_range = math.isnan(row.middle)
    told = f"{row.low:g} to {row.high:g}" if is_range else figures.shown(row.middle)
    return told if aim.is_met_by(row) else f"**{told}**"


def when(group, found):
    """The days on which the benches of these aims were measured, and the load where the machine didn't rest."""
    told = []
    for bench in dict.fromkeys(it.bench for it in group):
        it = found.measured.get(bench)
        if it and it.is_measured():
            busy = "" if it.was_at_rest() else f", load {it.load}"
            told.append(f"{it.date}{busy}{'' if it.library == figures.PROVED else ', ' + it.library}")
    return "; ".join(dict.fromkeys(told)) or "never"


def table(found):
    text = TABLE
    for (what, other), group in itertools.groupby(read(), key=lambda it: (it.what, it.other)):
        group = list(group)
        wanted = "; ".join(dict.fromkeys(short(it.figure) for it in group))
        told = "; ".join(figure_of(it, found) for it in group)
        text += figures.line_of(what, other, wanted, told, when(group, found))
    return text


def page_with(page, found):
    """The text of the page with the table of these figures."""
    return MARKED.sub(lambda it: f"{it[1]}{table(found)}{it[2]}", page)


def write_page(found):
    """Writes the table into its page."""
    PAGE.write_text(page_with(PAGE.read_text(encoding="utf-8"), found), encoding="utf-8")
