"""Checks the message of cargo about the library's crates if there is no library to link: it must say at once which tool
makes one. It proves nothing, and writes only in its own folder."""
import os
import pathlib
import shutil
import subprocess

import limited
import sources
from testing.part import Verdict, verdict

CRATES = ("durkenzo", "durkenzo-store-sys")
FOLDER = "library/rust"
NAMED = "DURKENZO_LIB"
# As long as a crowded machine may take to compile a build script.
SECONDS = 1200
MADE = ("tools/unproved --library", f"export {NAMED}=")
# A prover that only leaves a file if it is called.
PROVER = '#!/bin/sh\ntouch "${0%/*}/was-called"\nexit 1\n'
OTHER_TARGET = "aarch64-unknown-linux-gnu"


class Copy:
    """The crates in a repository in which nothing was built, with an `rt` that notes whether it was called."""

    def __init__(self, room):
        self.top, self.bin, self.target = room / "top", room / "bin", room / "target"
        for name in CRATES:
            ignored = shutil.ignore_patterns("target")
            shutil.copytree(sources.TOP / FOLDER / name, self.top / FOLDER / name, ignore=ignored)
        (self.top / "crates/sm_c").mkdir(parents=True)
        self.bin.mkdir()
        (self.bin / "rt").write_text(PROVER, encoding="utf-8")
        (self.bin / "rt").chmod(0o755)

    def files(self):
        """Returns all files but the locks, which cargo itself writes."""
        return sorted(str(it) for it in self.top.rglob("*") if it.name != "Cargo.lock")

    def checked(self, crate, *words, **env):
        """Has cargo check the crate; returns the finished run."""
        plain = {key: it for key, it in os.environ.items() if key not in (NAMED, "DOCS_RS")}
        path = f"{self.bin}:{plain['PATH']}"
        env = {**plain, "PATH": path, "CARGO_TARGET_DIR": str(self.target), **env}
        command = ["cargo", "check", "--offline", *words]
        return limited.run(command, SECONDS, cwd=self.top / FOLDER / crate, env=env, text=True)


def refused(copy, crate, name, wanted, *words, **env):
    """Returns the verdict on a check that must be refused with words that name the wanted thing."""
    ran = copy.checked(crate, *words, **env)
    lacking = [it for it in wanted if it not in ran.stderr]
    why = f"it ended with {ran.returncode} and doesn't say {lacking}:\n{ran.stderr[-2000:]}"
    return verdict(f"{crate} {name}", ran.returncode != 0 and not lacking, why)


def verdicts(copy, empty):
    before = copy.files()
    for crate in CRATES:
        yield refused(copy, crate, "without a library", MADE)
        yield refused(copy, crate, "with a folder that lacks one", [*MADE, str(empty)], **{NAMED: str(empty)})
        yield refused(copy, crate, "on another target", ["x86_64", OTHER_TARGET], "--target", OTHER_TARGET)
        ran = copy.checked(crate, DOCS_RS="1")
        yield verdict(f"{crate} for docs.rs", ran.returncode == 0, ran.stderr[-2000:])
    yield verdict("a build script proves nothing", not (copy.bin / "was-called").exists())
    new = sorted(set(copy.files()) - set(before))
    yield verdict("a build script writes nothing beside its own folder", not new, f"there came {', '.join(new)}")


def passed(room):
    """Yields all parts, or nothing if cargo is missing."""
    if not shutil.which("cargo"):
        return
    room = pathlib.Path(room)
    empty = room / "empty"
    empty.mkdir()
    try:
        yield from verdicts(Copy(room), empty)
    except subprocess.TimeoutExpired as late:
        yield Verdict("a build script ends at once", f"{' '.join(late.cmd)} hadn't ended after {SECONDS} s")
