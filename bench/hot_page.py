"""The page bench/hottest.md, of the figures that bench/hottest.tsv keeps and the sentences of bench/hottest.list."""
import collections
import pathlib
import re
import textwrap

import aims
import figures
import missed

HERE = pathlib.Path(__file__).resolve().parent
KEPT, SENTENCES, PAGE = HERE / "hottest.tsv", HERE / "hottest.list", HERE / "hottest.md"
HOTTEST = 5
# How wide its prose is.
WIDTH = 120
# How many places are kept of a side, and the name of all others together.
KEPT_PLACES, OTHERS = 8, "(others)"
# What is said of a case as a whole, and of a place wherever it is met.
WHOLE, ANY = "-", "*"
# A place that takes less of all isn't among the hottest.
LEAST = 0.01
HEAD = """# The hottest places

Written by `bench/hottest --write`, of what is built without proof: where the rows of
[docs/PERFORMANCE.md](../docs/PERFORMANCE.md#ahead-or-not) that miss their aims spend their instructions. A place is a
function that the compiler left whole, with all that it took in; `bench/hottest --help` tells how they are counted.
What could be spared is judged by reading what the compiler made, but where a sentence says that it was built.

"""
SPENT, MISSED, WAITED = "spent", "missed", "waited"
Figure = collections.namedtuple("Figure", "case side kind place count")


def read_kept():
    lines = KEPT.read_text(encoding="utf-8").splitlines() if KEPT.is_file() else []
    words = (it.split("\t") for it in lines)
    return [Figure(*names, float(count)) for *names, count in words]


def keep(found):
    """Keeps these figures, and of cases that have none the older ones, in the order of the cases."""
    cases = {it.case for it in found}
    of_case = collections.defaultdict(list)
    for it in [*(it for it in read_kept() if it.case not in cases), *found]:
        of_case[it.case].append(it)
    ordered = (it for case in missed.cases() for it in of_case[case.name])
    KEPT.write_text("".join(f"{chr(9).join(it[:4])}\t{it.count:.6g}\n" for it in ordered), encoding="utf-8")


def shortened(places):
    """These places without those that take little, which are told together."""
    found = sorted(places.items(), key=lambda it: -it[1])
    rest = sum(count for _, count in found[KEPT_PLACES:])
    return dict([*found[:KEPT_PLACES], *([(OTHERS, rest)] if rest else [])])


def read_sentences():
    """By the case and the place."""
    lines = (it for it in SENTENCES.read_text(encoding="utf-8").splitlines() if it and not it.startswith("#"))
    words = (it.split("\t") for it in lines)
    return {(case, place): sentence for case, place, sentence in words}


def short(place):
    """A function's path without the types that it is for."""
    while (less := re.sub(r"(?<=\w)<[^<>]*>", "", place)) != place:
        place = less
    return place


def in_lines(prose):
    """The same in lines of the page's width."""
    return textwrap.fill(prose, WIDTH, break_long_words=False, break_on_hyphens=False)


def sentence_of(said, case, place):
    return said.get((case.name, place)) or said.get((ANY, place), "")


def hottest(places):
    """The hottest of these places, with the part of all that each takes."""
    whole = sum(places.values())
    named = (it for it in places.items() if it[0] != OTHERS)
    found = sorted(named, key=lambda it: -it[1])[:HOTTEST]
    return [(place, count, count / whole) for place, count in found if count >= LEAST * whole]


def beside(counts, unit):
    """Our count, and beside it those of the others."""
    ours, *others = (figures.shown(it) for it in counts.values())
    named = (f"{count} of {side}" for count, side in zip(others, [*counts][1:]))
    return f"{ours} {unit}" + (f", beside {' and '.join(named)}" if others else "")


class Told:
    """A case with what is kept and said of it."""

    def __init__(self, case, kept, said):
        self.case, self.said = case, said
        self.kept = {side: {SPENT: {}, MISSED: {}, WAITED: {}} for side in case.sides}
        for it in kept:
            if it.case == case.name and it.side in self.kept:
                self.kept[it.side][it.kind][it.place] = it.count

    def is_kept(self):
        return bool(self.kept[missed.OURS][SPENT])

    def missing(self):
        """What wants a sentence and has none."""
        places = [WHOLE, *(place for place, *_ in hottest(self.kept[missed.OURS][SPENT]))]
        return [it for it in places if not sentence_of(self.said, self.case, it)]

    def text(self, found):
        return "\n".join(filter(None, (self.heading(found), *self.tables(), self.waits())))

    def heading(self, found):
        rows = (f"{it.name}{', beside ' + it.other if it.other else ''}: {aims.figure_of(it, found)} "
                f"(aim: {aims.short(it.figure)})" for it in missed_of(self.case, found))
        whole = {side: sum(kept[SPENT].values()) for side, kept in self.kept.items()}
        misses = {side: kept[MISSED]["all"] for side, kept in self.kept.items() if kept[MISSED]}
        operation = f"{self.case.operation[0].upper()}{self.case.operation[1:]}"
        told = f"{operation} takes {beside(whole, self.case.unit)}."
        told += f" It misses the first cache {beside(misses, 'times')}." if misses else ""
        prose = f"{'; '.join(rows)}.", told, sentence_of(self.said, self.case, WHOLE)
        missed_by, taken, sentence = map(in_lines, prose)
        return f"## {self.case.name}\n\n{missed_by}\n\n{taken}\n{sentence}\n"

    def tables(self):
        for side, kept in self.kept.items():
            is_ours = side == missed.OURS
            words = ["what of it could be spared, and what keeps it"] if is_ours else []
            head = "place" if is_ours else side, self.case.unit, "of all", *words
            text = figures.line_of(*head) + "|---" * len(head) + "|\n"
            for place, count, part in hottest(kept[SPENT]):
                words = [sentence_of(self.said, self.case, place)] if is_ours else []
                text += figures.line_of(f"`{short(place)}`", figures.shown(count), f"{100 * part:.0f} %", *words)
            yield text

    def waits(self):
        if not self.case.is_waiting:
            return ""
        head = "waiting", "switches of threads", "us of processors", "calls of futex", "of sched_yield"
        text = figures.line_of(*head) + "|---" * len(head) + "|\n"
        for side, kept in self.kept.items():
            text += figures.line_of(side, *map(figures.shown, kept[WAITED].values()))
        return text


def missed_of(case, found):
    """The aims of the case's rows that are missed."""
    return [it for it in case.of_rows(aims.read()) if is_missed(it, found)]


def is_missed(aim, found):
    return aim.key() in found.rows and not aim.is_met_by(found.rows[aim.key()])


def all_told():
    kept, said = read_kept(), read_sentences()
    return [Told(it, kept, said) for it in missed.cases()]


def figures_kept():
    return figures.Figures.read(HERE / "figures.md")


def text():
    found = figures_kept()
    return HEAD + "\n".join(it.text(found) for it in all_told() if it.is_kept() and missed_of(it.case, found))


def write():
    """Writes the page."""
    PAGE.write_text(text(), encoding="utf-8")


def wrong():
    """What of the page isn't as it has to be, one line each."""
    found, told = figures_kept(), all_told()
    explained = {aim for it in told if it.is_kept() for aim in it.case.of_rows(aims.read())}
    for aim in aims.read():
        if is_missed(aim, found) and aim not in explained:
            yield f"bench/hottest.md doesn't explain {', '.join(filter(None, aim.key()))}: bench/hottest --write"
    for it in told:
        if it.is_kept() and missed_of(it.case, found):
            yield from (f"bench/hottest.list says nothing of {it.case.name}, {place}" for place in it.missing())
    if not PAGE.is_file() or PAGE.read_text(encoding="utf-8") != text():
        yield "bench/hottest.md is another one than figures and sentences make: bench/hottest --page"
