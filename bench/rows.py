"""What a script bench/*/run is called with, and how it says its rows, so that bench/all reads them.

    bench = rows.Bench(__doc__, ROUNDS)         the words that it was called with: ROUNDS, --build, --rows FILE,
                                                --unproved; bench.words are those after --
    bench.begin()                               once all is built: ends the script where it was only to build
    bench.row(NAME, BESIDE, VALUES, UNIT)       says a row of this figure in each round, where a file was named for rows
    bench.circumstances()                       when, where and with what it was measured

A row is a line of the file: its name, beside what, the unit, the median and both quartiles, separated by tabs. Less is
better, but of a rate. Units are "times" and "rate", where it is a ratio of ours to the other's, and else what they say.
"""
import argparse
import os
import pathlib
import statistics
import sys

import measure

RATE = "rate"


def quartiles(values):
    """The lower quartile, the median and the upper quartile, none beyond the values."""
    low, middle, high = statistics.quantiles(values, n=4) if len(values) > 1 else [*values] * 3
    return max(low, min(values)), middle, min(high, max(values))


class Bench:
    def __init__(self, doc, rounds, *ways):
        parser = argparse.ArgumentParser(description=doc, formatter_class=argparse.RawDescriptionHelpFormatter)
        parser.add_argument("rounds", nargs="?", type=int, default=rounds, metavar="ROUNDS")
        if ways:
            parser.add_argument("--way", choices=ways, default=ways[0])
        parser.add_argument("--build", action="store_true", help="builds what is timed, and ends")
        parser.add_argument("--rows", type=pathlib.Path, metavar="FILE", help="also writes each row to this file")
        parser.add_argument("--unproved", action="store_true", help="takes libraries that weren't proved")
        words = sys.argv[1:]
        end = words.index("--") if "--" in words else len(words)
        given, self.words = parser.parse_args(words[:end]), words[end + 1 :]
        self.way = given.way if ways else None
        self.rounds, self.is_build, self.is_unproved = given.rounds, given.build, given.unproved
        self.file = given.rows and given.rows.open("w", encoding="utf-8")
        self.before = 0

    def begin(self):
        """Notes the load before anything is timed, or ends the script where it was only to build."""
        if self.is_build:
            sys.exit()
        self.before = os.getloadavg()[0]

    def row(self, name, beside, values, unit="times"):
        if self.file:
            low, middle, high = quartiles(values)
            words = (name, beside, unit, *(f"{it:.6g}" for it in (middle, low, high)))
            print(*words, sep="\t", file=self.file, flush=True)

    def ratio(self, name, beside, ours, theirs):
        """Says the row of the ratios within each round."""
        self.row(name, beside, measure.quotients(ours, theirs))

    def circumstances(self):
        return measure.circumstances(self.before, self.rounds)
