"""Keeps the program of tests that `rt try` builds, runs and removes, and runs its tests again, with each allocation
refused in turn, or to look for leaks.

`rt try --fail-alloc N` compiles N into the program, and would compile it anew for the next N. So this gives it NEVER, a
number that no test reaches, and puts another number in the place of those bytes in a copy of the program. The address
sanitizer in the program looks for leaks, and also says how many allocations a test makes.

    kept = Kept(ROOM)           ROOM: the TMPDIR of `rt try --test --fail-alloc NEVER`
    kept.program                the path at which tools/trying.py must keep it while that process runs
    kept.names()                the names of its tests; none if it wasn't built
    kept.prepare()              once it was kept, before tests run (with cc); ValueError if it has no place for N
    kept.failure(TEST, N)       runs a test with its N-th allocation refused: none, or its output if it
                                failed, misused memory or leaked
    kept.allocations(TEST)      how many allocations it makes
"""
import errno
import pathlib
import re
import shutil
import subprocess
import threading
import time

NEVER = 0x5A5A5A5A5A5A5A5A
SECONDS = 300
BYTES = NEVER.to_bytes(8, "little")
CALLS = re.compile(r"^Stats: .* (?:malloced .*|realloced )by (\d+) calls$", re.M)

# How often a program that was just written is started, and how long after the try before, in seconds.
TRIES, PAUSE = 200, 0.05


def started(words, how):
    """Starts a program that was just written. A child that another thread forks meanwhile holds the file open for
    writing until its own program runs, but Linux starts no file that is open for writing."""
    for _ in range(TRIES):
        try:
            return subprocess.Popen(words, **how)
        except OSError as error:
            if error.errno != errno.ETXTBSY:
                raise
        time.sleep(PAUSE)
    return subprocess.Popen(words, **how)


class Kept:
    def __init__(self, room):
        self.room = pathlib.Path(room)
        self.program = self.room / "kept"

    def prepare(self):
        """Finds the places of the number in the program, and compiles the code that ends it by exit."""
        self.places = [it.start() for it in re.finditer(re.escape(BYTES), self.program.read_bytes())]
        if not self.places:
            raise ValueError("the program hasn't the number of the allocation to refuse")
        source = pathlib.Path(__file__).with_name("leave.c")
        words = ["cc", "-O2", "-Wall", "-Wextra", "-Werror", "-shared", "-fPIC"]
        subprocess.run([*words, "-o", self.room / "leave.so", source], check=True)

    def names(self):
        if not self.program.exists():
            return []
        listed = subprocess.run([self.program, "--list"], capture_output=True, text=True, check=True).stdout
        return re.findall(r"(?m)^(\S+): test$", listed)

    def refusing(self, number):
        """Returns a program that refuses the allocation of this number; each thread has one of its own."""
        program = self.room / f"refuses_{threading.get_ident()}"
        if not program.exists():
            shutil.copy(self.program, program)
        with open(program, "r+b") as file:
            for at in self.places:
                file.seek(at)
                file.write(number.to_bytes(8, "little"))
        return program

    def run(self, test, number, options):
        """Runs a test, and returns its exit status and its output."""
        told = {"ASAN_OPTIONS": options, "LD_PRELOAD": str(self.room / "leave.so")}
        how = {"stdout": subprocess.PIPE, "stderr": subprocess.STDOUT, "stdin": subprocess.DEVNULL}
        how = {**how, "text": True, "errors": "replace", "cwd": self.room, "env": told}
        ran = started([self.refusing(number), test], how)
        try:
            said = ran.communicate(timeout=SECONDS)[0]
        except subprocess.TimeoutExpired:
            ran.kill()
            return None, ran.communicate()[0] + f"it had not ended after {SECONDS} seconds"
        return ran.returncode, said

    def failure(self, test, number=NEVER):
        status, said = self.run(test, number, "detect_leaks=1")
        return None if status == 0 else f"exit status {status}\n{said.strip()}"

    def allocations(self, test):
        _, said = self.run(test, NEVER, "print_stats=1:atexit=1")
        return sum(map(int, CALLS.findall(said)))
