"""The part of ./test for sidecars: their tests over a store in memory, and services in other languages, whose shards
move and whose processes are restarted under load, over etcd."""
import shutil
import sys

import other_crates
import sources
from testing import library, server, workspace
from testing.part import Verdict

PACKAGE = "durkenzo-sidecar"
SCRIPT = sources.TOP / "sidecar/tests/languages.py"
# Programs of the languages in which there are examples.
LANGUAGES = ("node", "go")


def skipped(say):
    """Prints which services aren't tried, because which program is missing."""
    if not shutil.which("etcd"):
        say("etcd isn't installed: no service in another language is tried; tools/setup installs it")
    elif absent := [it for it in LANGUAGES if not shutil.which(it)]:
        say(f"no {', '.join(absent)}: no service in that language is tried; tools/setup installs them")


def passed(_room):
    """Yields all parts, or nothing if the library wasn't built, or if cargo or other people's crates aren't there."""
    if not library.is_there() or not shutil.which("cargo") or not other_crates.has_crates():
        return
    yield workspace.ran("tests of sidecars", "test", *workspace.of([PACKAGE]))
    if not shutil.which("etcd") or not any(map(shutil.which, LANGUAGES)):
        return
    ran = other_crates.cargo("build", *workspace.of([PACKAGE]))
    if ran.returncode:
        yield Verdict("the sidecar is built", ran.stderr[-2000:])
        return
    yield from server.said_by(SCRIPT, sys.executable, other_crates.target() / "debug" / PACKAGE)
