"""The part of ./test for ./sm, over the proved program."""
import os
import pathlib
import shutil

import runs
import sources
from testing.part import Verdict, verdict
from testing.program import EXAMPLES, fault_of

SM = sources.TOP / "sm"
NEEDED = ("awk", "bash", "dirname", "find", "readlink")


def words(room):
    """It runs through a symlink and with a file, and its help has its own words and the program's."""
    link, script, output = (
        pathlib.Path(room) / "sm",
        EXAMPLES / "first-path.in",
        (EXAMPLES / "first-path.out").read_bytes(),
    )
    link.symlink_to(SM)
    yield Verdict("./sm through a symlink", fault_of([link, "model"], 0, output, "", script))
    yield Verdict("./sm with a file", fault_of([link, "model", script], 0, output))
    yield Verdict(
        "./sm with a file that is not there", fault_of([link, "model", f"{room}/none"], 2, b"", "can't be read")
    )
    said = runs.finished([link, "--help"]).output.decode()
    yield verdict("./sm --help", "\n./sm settings " in f"\n{said}" and "\n  prepare_add K B " in said, said)
    yield Verdict("./sm with an unknown word", fault_of([link, "modle"], 2, b"", "there is no modle"))
    yield from strict()
    yield from settings_over_lines(pathlib.Path(room) / "script")
    yield Verdict("./sm without rt", without_rt(pathlib.Path(room)))


def strict():
    """With --strict, before or behind the file, a script with a line that is answered by error ends with 3."""
    for script, status, complaint in (("malformed", 3, "line 2: error BadNumber"), ("migration", 0, "")):
        given, output = EXAMPLES / f"{script}.in", (EXAMPLES / f"{script}.out").read_bytes()
        yield Verdict(f"./sm --strict {script}", fault_of([SM, "model", "--strict", given], status, output, complaint))
        yield Verdict(f"./sm {script} --strict", fault_of([SM, "model", given, "--strict"], status, output, complaint))
    given, output = EXAMPLES / "malformed.in", (EXAMPLES / "malformed.out").read_bytes()
    yield Verdict(
        "./sm with --explain behind the file", fault_of([SM, "model", given, "--explain"], 3, output, "./sm check")
    )


def settings_over_lines(script):
    """If a script's settings take several lines, the message points to ./sm check, which makes a script that runs."""
    first, _, rest = (EXAMPLES / "first-path.in").read_bytes().partition(b"\n")
    script.write_bytes(b"# settings\n" + first.replace(b",", b",\n") + b"\n" + rest)
    pointed = fault_of([SM, "model", script], 1, b"settings BadJson\n", "./sm check")
    yield Verdict("./sm with settings over several lines", pointed)
    output = (EXAMPLES / "first-path.out").read_bytes()
    piped = ["bash", "-c", '"$0" check "$1" | "$0" model', SM, script]
    yield Verdict("what ./sm check makes of them", fault_of(piped, 0, output))


def without_rt(room):
    """In a tree that was never proved, without rt installed, the message says which program to install."""
    tree, tools = room / "tree", room / "bin"
    tree.mkdir()
    tools.mkdir()
    for name in ("sm", "crates.txt"):
        shutil.copy(sources.TOP / name, tree)
    for name in NEEDED:
        os.symlink(shutil.which(name), tools / name)
    return fault_of([tree / "sm", "model"], 127, b"", "Install the Rattle toolchain", env={"PATH": str(tools)})
