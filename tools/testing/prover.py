"""The words with which the prover is asked about a crate of crates.txt, over the libraries that were built below it."""
import pathlib
import re
import shutil
from collections import namedtuple

import sources

RATTLE = pathlib.Path(shutil.which("rt") or "rt").resolve().with_name("rattle")
KIT = RATTLE.parent.parent
LINE = re.compile(r"^(\w+)([^:#\n]*):(.*)$", re.M)

# A line of crates.txt: whether the crate is a static library, and the libraries that it uses, ours and the kit's.
Line = namedtuple("Line", "is_static uses")


def listed():
    """Returns the line of each crate of crates.txt, by the crate's name."""
    text = (sources.TOP / "crates.txt").read_text(encoding="utf-8")
    return {name: Line("staticlib" in options.split(), uses.split()) for name, options, uses in LINE.findall(text)}


def below(crate, lines):
    """Returns our crates on which this one rests."""
    found, left = [], [crate]
    while left:
        left = [it for one in left for it in dict.fromkeys(lines[one].uses) if it in lines and it not in found]
        found += dict.fromkeys(left)
    return found


def words(crate, tree):
    """Returns the words for a check of the crate, in its own folder, over the libraries that were built in a tree."""
    lines = listed()
    rlib = lambda it: tree / "crates" / it / f"out/rlib/{it}.rlib"
    kept = {it: KIT / f"rlibs/{it}.rlib" for it in ["std", *lines[crate].uses] if it not in lines}
    own = {it: rlib(it) for it in lines[crate].uses if it in lines}
    folders = [KIT / "rlibs", *(rlib(it).parent for it in below(crate, lines))]
    is_program = (sources.CRATES / crate / "src/main.rt").exists()
    return [
        *("--crate-name", crate, "src/main.rt" if is_program else "src/lib.rt"),
        *(word for name, path in {**kept, **own}.items() for word in ("--extern", f"{name}={path}")),
        *(word for it in folders for word in ("-L", f"dependency={it}")),
        *("--antt-project", KIT / "rattle/logic/antt-project.json", "--logic-built", KIT / "logic_built"),
        *(("--crate-type", "staticlib") if lines[crate].is_static else ()),
        *("--jobs", "1"),
    ]
