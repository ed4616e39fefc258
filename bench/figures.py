"""The table of figures that bench/all writes, and reads again to compare: of each bench when and how it was measured,
and then its rows."""
import dataclasses
import math

import machine
from rows import RATE

# How much worse a row may be.
TOLERANCE = 0.1
HEAD = """# Figures

Written by `bench/all --write`. Each figure is the middle over a bench's rounds, with the quartiles: the time of ours to
the other's (`times`), its rate (`rate`, where more is better), or what the unit says. **Bold** misses its aim.

"""
BENCHES = "| bench | date | load before | seconds | library |\n|---|---|---|---|---|\n"
ROWS = "| bench | row | beside | unit | figure | from | to | aim |\n|---|---|---|---|---|---|---|---|\n"
PROVED = "proved"
# The load of a time for which none was noted.
AT_REST = "at rest"


@dataclasses.dataclass(frozen=True)
class Measured:
    """When a bench was measured, how busy the machine was then, how long it took, and over which library; or why it
    wasn't."""

    bench: str
    date: str
    load: str
    seconds: str
    library: str

    def is_measured(self):
        return bool(self.seconds)

    def was_at_rest(self):
        return self.load == AT_REST or float(self.load) <= machine.AT_REST


@dataclasses.dataclass(frozen=True)
class Row:
    bench: str
    name: str
    beside: str
    unit: str
    middle: float
    low: float
    high: float

    def key(self):
        return self.bench, self.name, self.beside

    def is_worse_than(self, other):
        if self.unit == RATE:
            return self.middle < other.middle * (1 - TOLERANCE)
        return self.middle > other.middle * (1 + TOLERANCE)


def shown(number):
    """The number with three digits or so; nothing where there is none."""
    if math.isnan(number):
        return ""
    digits = 0 if abs(number) >= 100 else 1 if abs(number) >= 10 else 2
    return f"{number:,.{digits}f}"


def number(cell):
    return float(cell.strip("*").replace(",", "") or "nan")


def cells(line):
    return [it.strip() for it in line.strip().strip("|").split("|")]


def line_of(*words):
    return f"| {' | '.join(words)} |\n"


class Figures:
    def __init__(self, machine=""):
        self.machine, self.measured, self.rows = machine, {}, {}

    @classmethod
    def read(cls, file):
        """The figures of a file, or none where it isn't there."""
        found = cls()
        if not file.is_file():
            return found
        text = file.read_text(encoding="utf-8")
        found.machine = next((it[9:] for it in text.split("\n") if it.startswith("Machine: ")), "")
        for line in text.split("\n"):
            words = cells(line) if line.startswith("| ") else []
            if len(words) == 5 and words[0] != "bench":
                found.measured[words[0]] = Measured(*words)
            elif len(words) == 8 and words[0] != "bench":
                found.add(Row(*words[:4], *map(number, words[4:7])))
        return found

    def add(self, row):
        self.rows[row.key()] = row

    def of(self, bench):
        return [it for it in self.rows.values() if it.bench == bench]

    def with_older(self, older):
        """These figures, with the older ones of benches that weren't measured now, or were proved then and not now."""
        found = Figures(self.machine or older.machine)
        for bench in {**older.measured, **self.measured}:
            one = self if self.has_newer(bench, older) else older
            found.measured[bench] = one.measured[bench]
            found.rows.update((it.key(), it) for it in one.of(bench))
        return found

    def has_newer(self, bench, older):
        now, then = self.measured.get(bench), older.measured.get(bench)
        if not (now and then):
            return bool(now)
        return now.is_measured() and (now.library == PROVED or then.library != PROVED)

    def is_comparable(self, row, older):
        """Whether the row may be compared with the older one: over a library of the same kind, and a time of its own
        on the same machine alone."""
        is_same = self.measured[row.bench].library == older.measured[row.bench].library
        return is_same and (row.unit in ("times", RATE) or self.machine.split(";")[0] == older.machine.split(";")[0])

    def worse_than(self, older):
        """Lines of the rows that are worse than the older ones by more than the tolerance."""
        for key, row in self.rows.items():
            before = older.rows.get(key)
            if before and self.is_comparable(row, older) and row.is_worse_than(before):
                name = " beside ".join(filter(None, (row.name, row.beside)))
                yield f"{row.bench}, {name}: {shown(row.middle)} {row.unit}, and {shown(before.middle)} before"

    def text(self, wanted):
        """The file's text; wanted: the aim of each row that has one, by the row's key."""
        text = f"{HEAD}Machine: {self.machine}\n\n{BENCHES}"
        for it in self.measured.values():
            text += line_of(*dataclasses.astuple(it))
        text += f"\n{ROWS}"
        for key, row in self.rows.items():
            aim = wanted.get(key)
            stars = "**" if aim and not aim.is_met_by(row) else ""
            middle = shown(row.middle)
            figures = f"{stars}{middle}{stars}" if middle else "", shown(row.low), shown(row.high)
            text += line_of(*key, row.unit, *figures, shown(aim.figure) if aim else "")
        return text
