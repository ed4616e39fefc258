"""The tests of tests/, which run without proof."""
import re
import subprocess
import sys

import limited
import sources
from testing.part import Verdict, passed

PASSED = re.compile(r"^test_(\w+): (\d+) passed")
# The tests that ran again: tests with each allocation refused, and tests that may leave no memory.
AGAIN = re.compile(r"^(\S+: each of its \d+ allocations refused|\d+ tests of arenas ran again)")
FAILED = "FAILED: "
# Lines below the name of a failure say why.
REASON = "    "
# How many lines are shown if it ended in another way.
LAST = 20


def verdicts_of(lines):
    """Gives a verdict for each test that tools/run-tests says to have passed or failed."""
    failing, reason = None, []
    for line in [*lines, ""]:
        if failing and not line.startswith(REASON):
            yield Verdict(failing, "\n".join(reason) or failing)
            failing, reason = None, []
        if line.startswith(FAILED):
            failing = line.removeprefix(FAILED)
        elif failing:
            reason.append(line)
        elif found := PASSED.match(line):
            yield from [passed(f"a test of tests/{found[1]}")] * int(found[2])
        elif found := AGAIN.match(line):
            yield passed(found[1])


def work(names):
    """Runs the tests of these folders of tests/."""

    def run(_room):
        command = [sys.executable, str(sources.TOP / "tools/run-tests"), *names]
        how = {"stdin": subprocess.DEVNULL, "stdout": subprocess.PIPE, "stderr": subprocess.STDOUT, "text": True}
        with subprocess.Popen(limited.bound(command), errors="replace", **how) as ran:
            lines = [it.rstrip("\n") for it in ran.stdout]
        found = list(verdicts_of(lines))
        yield from found
        if ran.returncode and not any(it.reason for it in found) or not found:
            last = "\n".join([f"it ended with {ran.returncode}; its last lines:", *lines[-LAST:]])
            yield Verdict("tools/run-tests", last)

    return run
