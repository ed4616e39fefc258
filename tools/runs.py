"""How the tools of this folder run the program: normally, and with memory or streams that fail (tools/faults.c)."""
import importlib.machinery
import importlib.util
import os
import pathlib
import subprocess
import tempfile
from collections import namedtuple

import limited

TOP = pathlib.Path(__file__).resolve().parent.parent
PROGRAM = str(TOP / "crates" / "sm_cli" / "out" / "sm_cli")
EXAMPLES = sorted((TOP / "examples").glob("*.in"))
# The examples with lines that run only on threads.
THREADS_EXAMPLES = sorted((TOP / "examples" / "threads").glob("*.in"))

SECONDS = 600
# The results of a run: its exit status, its output, and whether it met the failure that it must meet.
Run = namedtuple("Run", "status output complaint has_failed")


def examples_of(engine):
    """The examples that run on an engine."""
    return EXAMPLES + THREADS_EXAMPLES if engine == "threads" else EXAMPLES


def finished(command, seconds=SECONDS, **how):
    """Runs a command to its end. A command that takes too long has no status, and is ended with all processes that it
    began."""
    try:
        run = limited.run(command, seconds, **how)
    except subprocess.TimeoutExpired as late:
        return Run(f"none in {seconds} seconds", late.stdout or b"", late.stderr or b"", False)
    return Run(run.returncode, run.stdout, run.stderr, False)


def loaded(name):
    """The module of a tool, whose file has no ending."""
    loader = importlib.machinery.SourceFileLoader(name.replace("-", "_"), str(TOP / "tools" / name))
    module = importlib.util.module_from_spec(importlib.util.spec_from_loader(loader.name, loader))
    loader.exec_module(module)
    return module


class Faults:
    """The library of tools/faults.c, compiled into a folder of its own; `run` loads the program with it."""

    def __init__(self):
        self.room = tempfile.TemporaryDirectory(prefix="sm-faults-")
        self.library = str(pathlib.Path(self.room.name) / "faults.so")
        source = str(TOP / "tools" / "faults.c")
        subprocess.run(["cc", "-O2", "-Wall", "-Wextra", "-Werror", "-shared", "-fPIC", "-o", self.library, source], check=True)

    def run(self, program, arguments, script, **faults):
        """Runs the program on a file; `memory`, `read`, `write`, `error` and `piece` are those of tools/faults.c."""
        told, tells = os.pipe()
        names = {f"FAULT_{name.upper()}": str(value) for name, value in faults.items() if value is not None}
        with open(script, "rb") as stream:
            try:
                environment = {"LD_PRELOAD": self.library, "FAULT_TOLD": str(tells), **names}
                run = finished([program, *arguments], stdin=stream, pass_fds=[tells], env=environment)
            finally:
                os.close(tells)
        with open(told, "rb") as failures:
            return run._replace(has_failed=bool(failures.read()))


def plain(program, arguments, script):
    """Runs the program on bytes, and nothing fails."""
    return finished([program, *arguments], input=script)


def is_same(run, other):
    return run[:3] == other[:3]


def is_front_in_lines(output, whole):
    """Returns whether the output is the first lines of the whole one."""
    return whole.startswith(output) and (not output or output.endswith(b"\n"))


def shown(run):
    return f"exit status {run.status}, {run.complaint!r}, output ends {run.output[-100:]!r}"
