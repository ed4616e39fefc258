"""The part of ./test for the server for Redis clients, over the libraries of tools/testing/library.py: its unit tests,
and the scripts of server/tests/ over a running server."""
import pathlib
import shutil
import subprocess
import sys

import other_crates
import runs
import sources
from testing import library, workspace
from testing.part import Verdict, verdict
from testing.program import tool

FOLDER = sources.TOP / "server"
SCRIPTS = ("commands", "moves", "durable", "dumps", "upgrade", "hostile", "secure", "scripts", "site")
REDIS = ("redis-server", "redis-cli", "redis-benchmark")
CLUSTER = "cluster"
# How long a script may take, on a machine with much other work.
SCRIPT_SECONDS = 1200
PACKAGE = "durkenzo-server"
HEADINGS = (
    "Network:",
    "Safety:",
    "Servers and shards:",
    "Data:",
    "Cluster:",
    "Threads and waiting:",
    "Log:",
)
PASSED, FAILED, REASON = "passed: ", "FAILED: ", "    "


def python_with_redis():
    """A Python that has redis-py: this one, or the system's."""
    for python in (sys.executable, "/usr/bin/python3"):
        if shutil.which(python) and not runs.finished([python, "-c", "import redis"]).status:
            return python
    return None


def lacking():
    """Returns the programs that the scripts need and that this machine lacks."""
    found = [it for it in REDIS if not shutil.which(it)]
    return found if python_with_redis() else [*found, "python3-redis"]


def skipped(say):
    """Prints which part isn't tried, because which program is missing."""
    if not shutil.which("cargo"):
        say("cargo isn't installed: the server for Redis clients isn't tried")
    elif not other_crates.has_crates():
        say("cargo finds no crates: the server for Redis clients isn't tried; tools/setup installs them")
    elif absent := lacking():
        say(f"no {', '.join(absent)}: of the server for Redis clients unit tests run alone; tools/setup installs them")
    elif not shutil.which("openssl"):
        say("openssl isn't installed: the server's TLS isn't tried")
    elif not shutil.which("etcd"):
        say("etcd isn't installed: several processes of the server aren't tried; tools/setup installs it")


def verdicts_of(lines):
    """Yields a verdict for each line of a script of tests."""
    name, reason = None, []
    for line in [*lines, ""]:
        if name and not line.startswith(REASON):
            yield Verdict(name, "\n".join(reason) or name)
            name, reason = None, []
        if name:
            reason.append(line)
        elif line.startswith(FAILED):
            name = line.removeprefix(FAILED)
        elif line.startswith(PASSED):
            yield Verdict(line.removeprefix(PASSED), None)


def said_by(script, python, program):
    """Returns the findings of a script, at this path, about the program; if it finds nothing, that is a failure."""
    ran = runs.finished([python, script, program], SCRIPT_SECONDS)
    found = list(verdicts_of(ran.output.decode(errors="replace").splitlines()))
    yield from found
    if not found or bool(ran.status) != any(it.reason for it in found):
        yield Verdict(script.stem, f"it ended with {ran.status}: {ran.complaint.decode(errors='replace')[-2000:]}")


def installed(room):
    """Checks the files that `make install` puts into a folder."""
    root, unit = f"{room}/root", f"{room}/root/etc/systemd/system/durkenzo.service"
    ran = runs.finished(["make", "-C", FOLDER, "install", f"DESTDIR={root}", "PREFIX=/usr"])
    yield verdict("make install of the server", not ran.status, ran.complaint.decode(errors="replace"))
    if not ran.status:
        yield tool("version", f"{root}/usr/bin/durkenzo-server")
        names = "ExecStart=/usr/bin/durkenzo-server" in open(unit, encoding="utf-8").read()
        yield verdict("the unit names the installed server", names)


def compiled(_room):
    """That all of the workspace compiles, its tests too, over the libraries that are there or are built without proof;
    nothing if cargo or other people's crates aren't there."""
    if not shutil.which("cargo") or not other_crates.has_crates():
        return
    if not library.is_there():
        yield from library.without_proof()
    if library.is_there():
        is_there = shutil.which("cargo-clippy")
        words = workspace.clippy("--workspace") if is_there else ("check", "--workspace", "--all-targets")
        yield workspace.ran(f"cargo {words[0]} of the workspace", *words)


def passed(room):
    """Yields all parts, or nothing if the library wasn't built, or if cargo or other people's crates aren't there."""
    serve = runs.loaded("serve")
    if not library.is_there() or not shutil.which("cargo") or not other_crates.has_crates():
        return
    # They are of the sources that were just proved, so as new as these: so ./sm serve sees that they are proved.
    for it in filter(pathlib.Path.is_file, library.PROVED):
        it.touch()
    try:
        program = serve.built()
    except serve.Missing as missing:
        yield Verdict("the server is built", str(missing))
        return
    yield workspace.ran("the server's unit tests", "test", "--release", *workspace.of([PACKAGE]))
    # The driver of proved servers of a store, over stores that lose messages, and the control that leads them.
    yield workspace.ran("tests below the server", "test", *workspace.of(["durkenzo-driver", "durkenzo-control"]))
    yield workspace.ran("tests of fleets", "test", *workspace.of(["durkenzo-fleet"]))
    if shutil.which("cargo-clippy"):
        yield workspace.ran("clippy of the workspace", *workspace.clippy("--workspace"))
    told = subprocess.run([sources.TOP / "sm", "serve", "--help"], capture_output=True, text=True).stdout
    yield verdict("./sm serve --help", all(it in told for it in HEADINGS), told)
    yield tool("trial", "--seconds", 5, program)
    yield tool("trial", "--seconds", 5, "--data", program)
    yield tool("fuzz-parsers", "--seconds", 2)
    if shutil.which("make"):
        yield from installed(room)
    if not lacking():
        for script in (*SCRIPTS, *([CLUSTER] if shutil.which("etcd") else [])):
            yield from said_by(FOLDER / "tests" / f"{script}.py", python_with_redis(), program)
