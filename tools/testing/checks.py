"""Finds the checks of the prover that run below a process, and the cost of each, by reading /proc.

A check is one run of the prover: the proof of a crate, of its tests, or of one of its must-fail edits. A prover that
shares a check with copies of itself waits for them, and their time is in its own. Work of a check after the last look
at it isn't counted.
"""
import os
import re
import time

from limited import below, fields_of

TICKS = os.sysconf("SC_CLK_TCK")
PARTS = ("proof", "tests", "edits")
# What the names of the folders begin with in which edits are tried.
EDITED = "/sm-edit-"


class Check:
    """One run of the prover: its process, how many jobs it has, its crate and part, its folder, whether it goes on from
    an earlier proof, when it was first and last seen, its processor seconds and its memory in KiB."""

    def __init__(self, pid, jobs, crate, part, folder, goes_on, now):
        self.pid, self.jobs, self.crate, self.part, self.folder, self.goes_on = pid, jobs, crate, part, folder, goes_on
        self.began, self.ended, self.seconds, self.memory = now, now, 0.0, 0


def read(pid, name):
    with open(f"/proc/{pid}/{name}", "rb") as file:
        return file.read().decode(errors="replace")


def crate_of(words):
    """Returns the crate that a process checks, if it is the prover."""
    found = re.search(r"--crate-name (\S+)", " ".join(words))
    return found[1] if found and os.path.basename(words[0]) == "rattle" else None


def jobs_of(words):
    """Returns how many jobs a prover was given, or one if it isn't told."""
    found = re.search(r"--jobs[ =](\d+)", " ".join(words))
    return int(found[1]) if found else 1


def look(root, checks):
    """Notes in `checks` how much each check that runs now has used so far, and returns the running checks."""
    running, now, provers = [], time.time(), set()
    for pid in below(root):
        try:
            words = read(pid, "cmdline").split("\0")
            crate = crate_of(words)
            if not crate:
                continue
            provers.add(pid)
            fields, folder = fields_of(pid), os.readlink(f"/proc/{pid}/cwd")
            if int(fields[1]) in provers:
                continue
            memory = re.search(r"VmHWM:\s+(\d+)", read(pid, "status"))
        except (OSError, IndexError, ValueError):  # it has just ended
            continue
        part = "edits" if EDITED in folder else "tests" if "--test" in words else "proof"
        if not (check := checks.get((pid, fields[19]))):
            check = Check(pid, jobs_of(words), crate, part, folder, "--incremental" in words, now)
            checks[pid, fields[19]] = check
        check.ended, check.seconds = now, sum(map(int, fields[11:15])) / TICKS
        check.memory = max(check.memory, int(memory[1]) if memory else 0)
        running.append(check)
    return running
