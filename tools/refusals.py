"""Reads library/refusals.txt: why calls, lines and commands are refused, and advice about it.

    REFUSALS, SETTINGS      the rows by their names, of refusals and of faults of settings
    PHASES                  the advice about WrongPhase, by the shard's stand or by the word of the line
    rows(PATH)              the rows of such a table by their part, each cut into its cells
"""
import collections

import sources

PATH = sources.TOP / "library/refusals.txt"
# A name, its sentence, the text of `--explain` (nothing if the program makes it), the advice in a script, and the
# advice with SM.
Refusal = collections.namedtuple("Refusal", "name sentence explained to_do by_sm")


def rows(path):
    """Returns the rows of the table by their part, each cut into its cells."""
    found, part = collections.defaultdict(list), None
    for line in path.read_text(encoding="utf-8").splitlines():
        if line.startswith("["):
            part = line.strip("[]")
        elif line and not line.startswith("#"):
            found[part].append([it.strip() for it in line.split("|")])
    return found


def refusal(name, sentence, explained, to_do, by_sm=""):
    """Returns the row of these cells. If no other explanation is given, the sentence explains it."""
    return Refusal(name, sentence, "" if explained == "-" else explained or sentence, to_do, by_sm)


ROWS = rows(PATH)
REFUSALS = {it[0]: refusal(*it) for it in ROWS["refusals"]}
SETTINGS = {it[0]: refusal(*it) for it in ROWS["settings"]}
PHASES = dict(ROWS["phases"])
