"""The part of ./test that proves: `rt ci`, whose output is read as it comes, then the must-fail edits, and the cost of
each crate."""
import collections
import concurrent.futures
import os
import queue
import re
import signal
import subprocess
import threading
import time

import beside
import limited
import must_fail
from testing import checks, costs
from testing.cores import Cores
from testing.part import Verdict
from testing.together import Trial, name_of

STEP = 1
# Lines that tell why a crate wasn't proved, and how many of them are shown.
TELLING = re.compile(r"error|not proved|no proof|fails the verdict|killed|^rt: ")
SHOWN = 40
ENDED = re.compile(r"^rt: (\w+)(: its tests are)? (proved|NOT PROVED|is kept.*)$")
# The programs and tests that failed when they ran, after all was proved.
RAN = re.compile(r"\S+ \((?:run|tests)\)")
LAST = re.compile(r"^(\d+) passed, (\d+) failed")


class Proofs:
    """The proofs of these crates, which rest on none of ours but themselves, by `rt ci`; and their edits. What an
    earlier run here passed of the same files is taken as it is, unless all is tried anew."""

    name = "proofs"

    def __init__(self, crates, is_anew=False):
        self.crates, self.is_anew, self.known = sorted(crates), is_anew, costs.read()
        self.edits = {it: must_fail.edits_of(it) for it in self.crates}
        self.checks, self.proved, self.tried = {}, {}, collections.Counter()
        self.block, self.process, self.now, self.trials, self.is_over = [], None, [], [], False
        self.last, self.has_failed = collections.deque([""], SHOWN), False

    # Returns the answer to Runner.load.

    def running(self):
        return sorted({f"{it.crate} ({it.part})" for it in [*self.now]})

    def of(self):
        return len(self.crates) + sum(map(len, self.edits.values()))

    def done(self):
        return len(self.proved) + self.tried.total()

    def left(self):
        """Returns the processor seconds left by the costs of the last run, less the seconds that were spent on crates
        that are under way."""
        seconds = 0
        for crate in self.crates:
            cost = self.known.get(crate, costs.Cost(60, 60, 1, 120))
            spent = {
                part: sum(it.seconds for it in [*self.checks.values()] if it.crate == crate and it.part == part)
                for part in checks.PARTS
            }
            seconds += 0 if crate in self.proved else max(cost.proof - spent["proof"], 0)
            is_tried = self.tried[crate] >= len(self.edits[crate])
            seconds += 0 if is_tried else max(cost.edits - spent["edits"], 0)
        return seconds

    # Runs the part.

    def work(self, _room):
        """Runs `rt ci` in a tree of its own, then tries the edits over the libraries that it built there, and gives a
        verdict for each crate, program and edit."""
        tree = beside.proofs(self.crates)
        watch = threading.Thread(target=self.watch, daemon=True)
        watch.start()
        yield from self.prove(tree)
        yield from self.try_edits(tree)
        self.is_over = True
        watch.join()

    def prove(self, tree):
        words = ["rt", "ci", *(["--anew"] if self.is_anew else [])]
        how = {"stdout": subprocess.PIPE, "stderr": subprocess.STDOUT, "text": True, "errors": "replace"}
        self.process = subprocess.Popen(limited.bound(words), cwd=tree, **how)
        for line in self.process.stdout:
            for found in self.read(line.rstrip("\n")):
                self.has_failed = self.has_failed or found.reason is not None
                yield found
        status = self.process.wait()
        if (status or not LAST.match(self.last[-1])) and not self.has_failed:
            yield Verdict("rt ci", "\n".join([f"it ended with {status}; its last lines:", *self.last]))
        if not self.has_failed:
            # Edits of such a crate wouldn't be tried.
            missing = [it for it in self.crates if it not in self.proved]
            yield from [Verdict(f"{it} proved", "rt ci said nothing of it") for it in missing]

    def try_edits(self, tree):
        """Tries the edits of each crate that was proved, on each processor those of one crate, the dearest first."""
        dearest = sorted(self.crates, key=lambda it: -self.known.get(it, costs.Cost(60, 60, 1, 120)).edits)
        self.trials = [Trial(it, tree, self.is_anew) for it in dearest if self.proved.get(it)]
        found, count = queue.SimpleQueue(), sum(len(self.edits[it.crate]) for it in self.trials)
        with concurrent.futures.ThreadPoolExecutor(len(os.sched_getaffinity(0))) as pool:
            for trial in self.trials:
                pool.submit(self.tell, trial, found)
            for _ in range(count):
                crate, verdict = found.get()
                self.tried[crate] += 1
                yield verdict

    def tell(self, trial, found):
        """Puts a verdict for each edit of the crate, whatever goes wrong."""
        left = {name_of(it) for it in self.edits[trial.crate]}
        try:
            for verdict in trial.verdicts():
                left.discard(verdict.name)
                found.put((trial.crate, verdict))
        except Exception as error:  # the other crates go on
            for name in sorted(left):
                found.put((trial.crate, Verdict(name, f"{type(error).__name__}: {error}")))

    def watch(self):
        cores = Cores()
        while not self.is_over:
            self.now = checks.look(os.getpid(), self.checks)
            cores.keep(self.now)
            time.sleep(STEP)
        self.now = []

    def read(self, line):
        """Yields the verdicts of a line of `rt ci`."""
        self.block.append(line)
        self.last.append(line)
        if line.startswith("== "):
            self.block = []
        elif found := ENDED.match(line):
            is_well = found[3] != "NOT PROVED"
            self.proved[found[1]] = is_well and self.proved.get(found[1], True)
            yield Verdict(f"{found[1]}{': tests' if found[2] else ''} proved", None if is_well else self.reasons())
        elif line.startswith("rt: FAILED: "):
            yield from [Verdict(it, "\n".join(self.last)) for it in RAN.findall(line)]

    def reasons(self):
        """The lines that say why the crate at hand wasn't proved."""
        return "\n".join([it[:300] for it in self.block if TELLING.search(it)][:SHOWN])

    def stop(self):
        """Ends the run, with all that it started."""
        self.is_over = True
        for trial in self.trials:
            trial.stop()
        if self.process and self.process.poll() is None:
            limited.end(self.process.pid, signal.SIGTERM)
