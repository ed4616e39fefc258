"""A part of ./test, and the faults that it finds."""
from collections import namedtuple

# A part: its name, and its work: `work(room)`, given a folder of its own, yields a Verdict for each thing that it
# tries; and whether it goes first, because its programs must answer in time. Other parts leave processors to it.
Part = namedtuple("Part", "name work goes_first", defaults=[False])
# The thing that was tried, and why it failed; no reason if it passed.
Verdict = namedtuple("Verdict", "name reason")


def passed(name):
    return Verdict(name, None)


def verdict(name, is_well, reason="it isn't so"):
    """Returns the verdict on the thing that was tried."""
    return Verdict(name, None if is_well else reason)
