"""The part of ./test that kills a run of its own: all processes that the run started must end with it."""
import os
import pathlib
import signal
import subprocess
import sys
import time

import limited
import sources
from testing.part import verdict

TOOLS = sources.TOP / "tools"
# A tool that runs a program that lasts, and a run that runs this tool.
TOOL = "import subprocess, limited; subprocess.run(limited.bound(['sleep', '600']))"
RUN = f"import sys, limited; limited.run(limited.bound([sys.executable, '-c', {TOOL!r}]), 600)"
# How long they may take to begin, and to end.
SECONDS = 30


def eventually(look):
    """Returns the first result of the call that is true, or the last one after some time."""
    end = time.monotonic() + SECONDS
    while not (found := look()) and time.monotonic() < end:
        time.sleep(0.02)
    return found


def started_by(run):
    """Returns the processes of the tool and of its program, once both run."""
    started = limited.below(run.pid)[1:]
    return started if [*map(name_of, started)][1:] == ["sleep"] else None


def name_of(pid):
    try:
        return pathlib.Path(f"/proc/{pid}/comm").read_text(encoding="utf-8").strip()
    except OSError:
        return None


def is_over(pid):
    """Returns whether the process has ended. Nobody may have asked for its status so far."""
    try:
        return limited.fields_of(pid)[0] in "ZX"
    except OSError:
        return True


def passed(_room):
    """Whether a tool and its program end with a run that is ended or killed."""
    env = {**os.environ, "PYTHONPATH": str(TOOLS), "PYTHONDONTWRITEBYTECODE": "1"}
    for how in (signal.SIGTERM, signal.SIGKILL):
        with subprocess.Popen([sys.executable, "-c", RUN], env=env) as run:
            started = eventually(lambda: started_by(run)) or []
            run.send_signal(how)
        is_well = len(started) == 2 and eventually(lambda: all(map(is_over, started)))
        yield verdict(f"the processes of a run end with it by {how.name}", is_well, f"of {started} some go on")
        for pid in started:
            if not is_over(pid):
                os.kill(pid, signal.SIGKILL)
