"""Checks that the forms that were asked for are there, that each crate has the layout of `rt fmt`, that its lines keep
within their columns, and that each name that its files import is used. `rt` has no command for this, but the program
behind it has."""
import os
import pathlib
import shutil
import subprocess

import beside
import sources
from testing import prover
from testing.part import verdict
from testing.program import tool

RATTLE = pathlib.Path(shutil.which("rt") or "rt").resolve().with_name("rattle")
ENDINGS = (".rt", ".antt")
PARTS = ("src", "specs", "proofs")


def files_of(folder):
    """Returns the files of a crate that the toolchain reads, as paths below its folder."""
    found = [it for part in PARTS for it in sorted((folder / part).rglob("*"))]
    return [str(it.relative_to(folder)) for it in found if it.suffix in ENDINGS]


def strays(top, crates):
    """Returns the files of the toolchain below this folder that are in no part of these crates, so that nothing would
    prove them: the tree in which `rt ci` proves has only these."""
    found, parts = [], {pathlib.PurePath("crates", crate, part) for crate in crates for part in PARTS}
    for at, below, names in os.walk(top):
        below[:] = [it for it in below if it not in (".git", "out", "__pycache__")]
        here = pathlib.Path(at).relative_to(top)
        if not parts & {here, *here.parents}:
            found += [str(here / it) for it in names if it.endswith(ENDINGS)]
    return sorted(found)


def finds_strays(room):
    """Returns whether `strays` finds the files that nothing would prove, in a tree that is made for this."""
    unproved = ["a.rt", "crates/a/d.antt", "crates/e/src/f.rt"]
    for it in ["crates/a/specs/A.antt", "crates/a/src/b/c.rt", *unproved]:
        beside.write(pathlib.Path(room, it), b"")
    return strays(room, ["a"]) == unproved


def of_benches(room):
    """Returns the folders of the crates that benches time, once they are crates in this room."""
    for path, text in beside.wanted("bench").items():
        beside.write(pathlib.Path(room) / path, text)
    return [pathlib.Path(room) / "crates" / it for it in beside.folders("bench")]


def laid_out(room):
    """Each crate of crates.txt, and each that a bench times, is laid out, those of crates.txt within 120 columns and
    without names that they don't use, and so are the packages of Rust. The crates of tests are checked by their
    tool."""
    yield tool("asked")
    yield tool("long-lines")
    yield tool("unused")
    found = strays(sources.TOP, prover.listed())
    yield verdict("each file of the toolchain is proved", not found, f"these are of no crate of crates.txt: {found}")
    yield verdict("files that nothing proves are found", finds_strays(f"{room}/strays"))
    for folder in [*(sources.CRATES / it for it in sources.crates()), *of_benches(room)]:
        command = [RATTLE, "fmt", "--check", *files_of(folder)]
        ran = subprocess.run(command, cwd=folder, capture_output=True, text=True, errors="replace")
        why = f"rt fmt would change it:\n{(ran.stdout + ran.stderr)[-2000:]}"
        yield verdict(f"the layout of {folder.name}", ran.returncode == 0, why)
    if shutil.which("cargo-fmt"):
        ran = subprocess.run(["cargo", "fmt", "--all", "--check"], cwd=sources.TOP, capture_output=True, text=True)
        said = ran.stdout[-2000:] + ran.stderr[-2000:]
        yield verdict("the layout of the workspace in Rust", ran.returncode == 0, said)
