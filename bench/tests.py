"""Tests of what bench/all makes of rows, and of the picture of bench/growth: python3 -m unittest bench/tests.py."""
import argparse
import contextlib
import dataclasses
import importlib.machinery
import importlib.util
import io
import os
import pathlib
import sys
import tempfile
import unittest
import unittest.mock
import xml.etree.ElementTree

sys.dont_write_bytecode = True
HERE = pathlib.Path(__file__).resolve().parent
sys.path += [str(HERE), str(HERE / "growth")]
import drawing
import figures
import hot_page
import machine
import missed
import profiling
from figures import Figures, Measured, Row

NAN = float("nan")


def figures_of(library, middle, unit="times", date="2026-11-26", seconds="60"):
    found = Figures("a processor, 4 cores; a kit")
    found.measured["memory"] = Measured("memory", date, "0.30", seconds, library)
    if seconds:
        found.add(Row("memory", "get", "Rust", unit, middle, middle, middle))
    return found


@dataclasses.dataclass
class Drawn:
    value: int
    ours: dict
    locks: dict
    unit: str = "shards"


class Tables(unittest.TestCase):
    def test_are_read_as_they_were_written(self):
        found = figures_of("proved", 1234.0, "ns")
        found.add(Row("memory", "put", "", "times", NAN, 1.6, 2.5))
        with tempfile.TemporaryDirectory() as room:
            file = pathlib.Path(room) / "figures.md"
            file.write_text(found.text({}))
            self.assertEqual(Figures.read(file).text({}), found.text({}))

    def test_tell_a_row_that_is_worse_by_more_than_a_tenth(self):
        for unit, before, well, bad in (("times", 1, 1.1, 1.11), (figures.RATE, 1, 0.9, 0.89)):
            older = figures_of("proved", before, unit)
            self.assertEqual([*figures_of("proved", well, unit).worse_than(older)], [])
            self.assertEqual(len([*figures_of("proved", bad, unit).worse_than(older)]), 1)

    def test_compare_nothing_that_was_proved_with_what_was_not(self):
        self.assertEqual([*figures_of("unproved", 9).worse_than(figures_of("proved", 1))], [])

    def test_compare_times_of_one_machine_alone(self):
        older, now = figures_of("proved", 1, "ns"), figures_of("proved", 9, "ns")
        self.assertEqual(len([*now.worse_than(older)]), 1)
        now.machine = "another processor"
        self.assertEqual([*now.worse_than(older)], [])

    def test_keep_what_was_proved_where_now_nothing_better_is_there(self):
        older = figures_of("proved", 1)
        for now in (figures_of("unproved", 2), figures_of("not measured", 2, seconds="")):
            self.assertEqual([*now.with_older(older).rows.values()], [*older.rows.values()])
        now = figures_of("proved", 2)
        self.assertEqual([*now.with_older(older).rows.values()], [*now.rows.values()])


def loaded(path):
    """The module of a script, whose file has no ending."""
    loader = importlib.machinery.SourceFileLoader("bench_all", str(path))
    module = importlib.util.module_from_spec(importlib.util.spec_from_loader(loader.name, loader))
    loader.exec_module(module)
    return module


class All(unittest.TestCase):
    def test_goes_no_further_where_the_machine_does_not_rest(self):
        script, measured, found = loaded(HERE / "all"), [], Figures()
        script.built = lambda names, given: {"store": "not measured, not proved"}
        script.measure = lambda name, given, found: measured.append(name) or True
        given = argparse.Namespace(anyway=False)
        with unittest.mock.patch.object(machine, "why_busy", side_effect=["", "busy"]):
            with contextlib.redirect_stderr(io.StringIO()) as said:
                self.assertFalse(script.measure_all(["store", "memory", "serve", "place"], given, found))
        self.assertEqual((measured, [*found.measured]), (["memory"], ["store"]))
        self.assertIn("no further before serve: busy", said.getvalue())

    def test_measures_nevertheless_where_that_is_asked_for(self):
        script, measured = loaded(HERE / "all"), []
        script.built = lambda names, given: {}
        script.measure = lambda name, given, found: measured.append(name) or name != "serve"
        given = argparse.Namespace(anyway=True)
        self.assertFalse(script.measure_all(["memory", "serve", "place"], given, Figures()))
        self.assertEqual(measured, ["memory", "serve", "place"])


class Machine(unittest.TestCase):
    def test_rests_where_its_load_is_low(self):
        for load, words in ((0.5, ""), (0.51, "load of the last minute is 0.51")):
            with unittest.mock.patch.object(os, "getloadavg", return_value=(load, 9, 9)):
                self.assertIn(words, machine.why_busy())
                self.assertEqual(bool(words), bool(machine.why_busy()))


TOLD = """Ir          file:function
--------------------------------------------------------------------------------
34,500,000  ???:sm_rule::board::Board::admit::<#70df74a0170145da> [/a/program]
    46,464  ./stdio-common/./stdio-common/vfscanf-internal.c:__vfscanf_internal [/usr/lib/libc.so.6]
    12,434  ./elf/../sysdeps/x86_64/dl-machine.h:_dl_relocate_object
    10,082  ./elf/./elf/do-rel.h:_dl_relocate_object'2 [/usr/lib/ld.so]
        20  ???:<alloc::vec::Vec<T> as core::Drop>::drop [/a/program]
"""


class Hottest(unittest.TestCase):
    def test_reads_what_callgrind_counted_by_function(self):
        found = profiling.counted(TOLD)
        self.assertEqual(found["sm_rule::board::Board::admit"], 34_500_000)
        self.assertEqual(found["__vfscanf_internal"], 46_464)
        self.assertEqual(found["_dl_relocate_object"], 22_516)
        self.assertEqual(hot_page.short([*found][-1]), "<alloc::vec::Vec as core::Drop>::drop")

    def test_shows_five_places_at_most_and_none_that_is_cool(self):
        places = {str(at): at for at in range(1, 9)} | {"cool": 0.1}
        self.assertEqual([place for place, *_ in hot_page.hottest(places)], ["8", "7", "6", "5", "4"])
        self.assertEqual(hot_page.hottest({"all": 99.5, "cool": 0.5}), [("all", 99.5, 0.995)])

    def test_keeps_the_sum_of_those_that_take_little_and_never_shows_it(self):
        places = hot_page.shortened({str(at): at for at in range(1, 11)})
        self.assertEqual((len(places), places[hot_page.OTHERS]), (9, 3))
        self.assertEqual(hot_page.hottest({"1": 1, hot_page.OTHERS: 3}), [("1", 1, 0.25)])

    def test_wants_a_sentence_of_each_place_and_of_the_case(self):
        case = missed.cases()[0]
        kept = [hot_page.Figure(case.name, missed.OURS, hot_page.SPENT, "a", 2)]
        said = {(hot_page.ANY, "a"): "It is a."}
        self.assertEqual(hot_page.Told(case, kept, said).missing(), [hot_page.WHOLE])
        said[case.name, hot_page.WHOLE] = "It waits."
        self.assertEqual(hot_page.Told(case, kept, said).missing(), [])

    def test_has_cases_of_names_and_rows_of_their_own(self):
        names = [it.name for it in missed.cases()]
        rows = [(it.bench, row) for it in missed.cases() for row in it.rows]
        self.assertEqual((len(names), len(rows)), (len({*names}), len({*rows})))


class Picture(unittest.TestCase):
    def test_is_well_formed_also_where_all_is_the_same_or_nothing(self):
        for numbers in ((1, 1, 1), (0, 5, 90_000_000), (0, 0, 0)):
            rows = [Drawn(value, {"rate": numbers}, {"rate": numbers}) for value in (1, 4096)]
            root = xml.etree.ElementTree.fromstring(drawing.picture({"A board: <shards>": rows}, "told"))
            self.assertTrue(root.tag.endswith("svg"))


if __name__ == "__main__":
    unittest.main()
