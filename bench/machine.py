"""The machine that benches run on: what it is, and whether it rests."""
import contextlib
import os
import pathlib
import platform
import time

import measure

AT_REST = 0.5
# How long the load of what was done before may take to fall, in seconds.
PATIENCE = 300
SHOWN = 6


def load():
    return os.getloadavg()[0]


def ticks():
    """The processor time of each process, and its command, by its number."""
    found = {}
    for folder in pathlib.Path("/proc").glob("[0-9]*"):
        with contextlib.suppress(OSError):
            name, _, numbers = (folder / "stat").read_text().rpartition(")")
            command = (folder / "cmdline").read_bytes().replace(b"\0", b" ").decode(errors="replace").strip()
            words = numbers.split()
            found[int(folder.name)] = (int(words[11]) + int(words[12]), command or name.partition("(")[2])
    return found


def what_runs():
    """The processes that worked most in a second: lines of the share of a processor, the number and the command."""
    before = ticks()
    time.sleep(1)
    rate = os.sysconf("SC_CLK_TCK")
    worked = [(now - before.get(pid, (now, ""))[0], pid, command) for pid, (now, command) in ticks().items()]
    busy = sorted((it for it in worked if it[0] and it[1] != os.getpid()), reverse=True)
    return [f"{100 * each / rate:4.0f} % {pid:8} {command[:90]}" for each, pid, command in busy[:SHOWN]]


def why_busy(patience=0):
    """Why nothing can be measured: the load, and what runs; or nothing where the machine rests, or does within this
    patience, in seconds."""
    end = time.monotonic() + patience
    while load() > AT_REST and time.monotonic() < end:
        time.sleep(5)
    if load() <= AT_REST:
        return ""
    busy = "\n".join(what_runs()) or "nothing: wait until the load has fallen"
    return f"the load of the last minute is {load():.2f}, above {AT_REST}. In this second work:\n{busy}"


def processor():
    text = pathlib.Path("/proc/cpuinfo").read_text()
    return next((it.partition(":")[2].strip() for it in text.splitlines() if it.startswith("model name")), "unknown")


def system():
    with contextlib.suppress(OSError):
        return platform.freedesktop_os_release()["PRETTY_NAME"]
    return platform.platform()


def description():
    """What it is, with the kit and the compiler."""
    gigabytes = os.sysconf("SC_PAGE_SIZE") * os.sysconf("SC_PHYS_PAGES") / 1e9
    kit, compiler = measure.said("rt", "version"), measure.said("rustc", "--version")
    return f"{processor()}, {os.cpu_count()} cores, {gigabytes:.0f} GB, {system()}; {kit}; {compiler}"
