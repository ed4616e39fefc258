"""The part of ./test for ordinary Rust that needs no proved library: the stores for records and data, and the checker
of clients' answers."""
import shutil

import other_crates
from testing import workspace

MEMBERS = ("durkenzo-store", "durkenzo-trial")


def skipped(say):
    """Prints which part isn't tried, because which program is missing."""
    if not shutil.which("cargo"):
        say("cargo isn't installed: the stores, the trial's checker and the library's crate aren't tried")
    elif not other_crates.has_crates():
        tried = "the stores, the trial's checker and the library's crate"
        say(f"cargo finds no crates: {tried} aren't tried; tools/setup installs them")
    elif not shutil.which("etcd"):
        say("etcd isn't installed: the stores are tried without it; tools/setup installs it")


def passed(_room):
    """All of it; nothing if cargo finds no crates."""
    if not shutil.which("cargo") or not other_crates.has_crates():
        return
    yield workspace.ran("tests of the stores and the trial", "test", *workspace.of(MEMBERS))
    if shutil.which("cargo-clippy"):
        yield workspace.ran("clippy of the stores and the trial", *workspace.clippy(*workspace.of(MEMBERS)))
