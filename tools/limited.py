"""Runs commands that may take only some time: a command that takes longer is ended, with all processes that it
began. Also has commands end with the process that started them."""
import collections
import contextlib
import os
import shutil
import signal
import subprocess

# How long it may take to read the rest of the output, once all processes that may write are ended.
READING = 10


def fields_of(pid):
    """Returns the fields of /proc/PID/stat from the third on: the second, in brackets, may hold spaces."""
    with open(f"/proc/{pid}/stat", "rb") as file:
        return file.read().decode(errors="replace").rpartition(")")[2].split()


def below(root):
    """Returns the process, those that it started, those that they started, and so on."""
    children = collections.defaultdict(list)
    for pid in filter(str.isdigit, os.listdir("/proc")):
        try:
            children[int(fields_of(pid)[1])].append(int(pid))
        except (OSError, IndexError, ValueError):  # it has just ended
            pass
    found = [root]
    for pid in found:
        found += children[pid]
    return found


def end(root, how):
    """Sends this signal to the process and to all that it started."""
    for pid in below(root):
        with contextlib.suppress(ProcessLookupError):
            os.kill(pid, how)


def bound(command):
    """Returns the command so that Linux sends it SIGTERM once the thread that starts it has ended, also if somebody
    kills the process of that thread. If setpriv isn't installed, returns the command as it is."""
    setpriv = shutil.which("setpriv")
    return [setpriv, "--pdeathsig", "TERM", *command] if setpriv else command


def run(command, seconds, *, input=None, **how):
    """Runs a command with its output captured, and returns the finished run. A command that takes too long is ended,
    with all processes that it began; then this raises subprocess.TimeoutExpired with the output until then."""
    if input is not None:
        how["stdin"] = subprocess.PIPE
    how = {"stdout": subprocess.PIPE, "stderr": subprocess.PIPE, **how}
    with subprocess.Popen(command, **how) as process:
        try:
            output, complaint = process.communicate(input, timeout=seconds)
        except subprocess.TimeoutExpired as late:
            end(process.pid, signal.SIGKILL)
            with contextlib.suppress(subprocess.TimeoutExpired):
                late.output, late.stderr = process.communicate(timeout=READING)
            raise
        except BaseException:
            end(process.pid, signal.SIGKILL)
            raise
    return subprocess.CompletedProcess(command, process.returncode, output, complaint)
