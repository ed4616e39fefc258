"""Runs the parts of ./test in their stages, prints each failure at once, and counts."""
import concurrent.futures
import os
import tempfile
import threading
import time

from testing import costs
from testing.part import Verdict
from testing.progress import Progress

# Seconds of a part of which the table of costs knows nothing yet.
UNKNOWN = 20
# How nice a part is that leaves processors to the parts that go first.
NICE = 10


def processors():
    return len(os.sched_getaffinity(0))


def give_way():
    """Makes all processes that this thread starts from here on nice to all others. Linux keeps the niceness of a
    thread, and gives it to the processes that the thread starts."""
    os.nice(NICE)


class FirstFailure(Exception):
    """Something failed, and the run is to end there."""


class Runner:
    """A run: its stages, each a list of parts that run side by side, one on each processor; and their results."""

    def __init__(self, stages, proofs, is_fail_fast):
        self.stages, self.proofs, self.is_fail_fast = stages, proofs, is_fail_fast
        self.known, self.seconds, self.running = costs.read(), {}, {}
        self.passed, self.failed, self.turn, self.stopped = 0, [], threading.Lock(), threading.Event()
        self.progress = Progress(self.load)

    def run(self):
        """Runs all, and returns whether nothing failed."""
        try:
            with self.progress:
                for name, parts in self.stages:
                    self.run_stage(name, parts)
        except FirstFailure:
            pass
        return not self.failed

    def run_stage(self, name, parts):
        self.progress.say(f"== {name}")
        with concurrent.futures.ThreadPoolExecutor(processors()) as pool:
            for made in concurrent.futures.as_completed([pool.submit(self.run_part, it) for it in parts]):
                made.result()
        if self.is_fail_fast and self.failed:
            raise FirstFailure

    def run_part(self, part):
        """Runs a part, and prints its result in one line."""
        if self.stopped.is_set():
            return
        began = self.running[part.name] = time.time()
        # A thread that has given way can't go first again, so each part has its own.
        with concurrent.futures.ThreadPoolExecutor(1, initializer=None if part.goes_first else give_way) as own:
            found = own.submit(self.found_by, part).result()
        self.running.pop(part.name)
        self.seconds[part.name] = time.time() - began
        how = f"{found.count(False)} of {len(found)} FAILED" if False in found else f"{len(found)} passed"
        self.progress.say(f"{part.name}: {how}, {self.seconds[part.name]:.0f} s")

    def found_by(self, part):
        """Whether each thing passed that the part tries."""
        return [self.judged(part.name, it) for it in self.verdicts(part)]

    def verdicts(self, part):
        """Yields the findings of the part; a part that ends with an error has failed."""
        with tempfile.TemporaryDirectory(prefix="sm-test-") as room:
            try:
                yield from part.work(room)
            except Exception as error:  # whatever went wrong there, the other parts go on
                yield Verdict(part.name, f"{type(error).__name__}: {error}")

    def judged(self, part, verdict):
        """Counts a verdict, prints a failure at once, and returns whether it passed."""
        with self.turn:
            if verdict.reason is None:
                self.passed += 1
                return True
            self.failed.append(verdict.name)
        self.progress.say(f"FAILED: {part}: {verdict.name}\n{verdict.reason}")
        if self.is_fail_fast:
            self.stopped.set()
            self.proofs.stop()
        return False

    def load(self):
        """Returns the parts that run, the parts done and all of them, and the seconds left: a proof and a must-fail
        edit count as parts of their own."""
        names = [part.name for _, parts in self.stages for part in parts if part.name != self.proofs.name]
        undone = [it for it in names if it not in self.seconds]
        left = sum(self.known[it].whole if it in self.known else UNKNOWN for it in undone) + self.proofs.left()
        running = [it for it in [*self.running] if it != self.proofs.name] + self.proofs.running()
        done, of = len(names) - len(undone) + self.proofs.done(), len(names) + self.proofs.of()
        return running, done, of, left / processors()
