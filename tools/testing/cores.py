"""Keeps each check of the prover on processors of its own.

The prover's threads wait for one another. So over several processors a check takes up to a third more of their time
than on one, and hardly ends earlier.
"""
import contextlib
import os

from testing import checks


class Cores:
    """The processors that this run may use, and which of them each check keeps to."""

    def __init__(self):
        self.all, self.taken = sorted(os.sched_getaffinity(0)), {}

    def keep(self, running):
        """Keeps each check that runs now on as many processors as it has jobs: on those with the fewest others."""
        self.taken = {it: kept for it, kept in self.taken.items() if it in running}
        for check in running:
            if check not in self.taken:
                free = sorted(self.all, key=self.load)
                self.taken[check] = free[: check.jobs]
            hold(check.pid, self.taken[check])

    def load(self, core):
        return sum(core in kept for kept in self.taken.values())


def hold(pid, cores):
    """Keeps a process, and those below it, to these processors: all their threads, and those that they will start."""
    for it in checks.below(pid):
        with contextlib.suppress(OSError):  # it has just ended
            for thread in os.listdir(f"/proc/{it}/task"):
                os.sched_setaffinity(int(thread), cores)
