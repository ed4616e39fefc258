"""Runs of cargo in the workspace, which must end with 0."""
import other_crates
from testing.part import verdict

# How much of a failed run's output is printed.
TOLD = 2000


def of(members):
    """Returns the words that name these members."""
    return [word for it in members for word in ("-p", it)]


def clippy(*words):
    """Returns the words by which clippy looks at tests too, and accepts no warning."""
    return ["clippy", "--all-targets", *words, "--", "-D", "warnings"]


def ran(name, *words, wanted=None):
    """Returns the verdict on a run of cargo over the libraries that are there: it must end with 0, and write the wanted
    output."""
    done = other_crates.cargo(*words)
    is_well = done.returncode == 0 and wanted in (None, done.stdout)
    return verdict(name, is_well, f"{done.stdout[-TOLD:]}{done.stderr[-TOLD:]}")
