"""The part of ./test for the tools of bench/: tables, the search for slower figures, whether the machine rests, and the
picture. Nothing is timed."""
import subprocess

import sources
from testing.part import verdict


def passed(_room):
    command = ["python3", "-m", "unittest", "bench/tests.py"]
    ran = subprocess.run(command, cwd=sources.TOP, stdin=subprocess.DEVNULL, capture_output=True, text=True)
    yield verdict("tests of the benches' tools", ran.returncode == 0, ran.stderr[-3000:])
