"""Where a program spends its instructions, by valgrind's callgrind, and how often its threads wait.

    spent(SIDE)     the instructions of one operation in each place, a function that the compiler left whole: those of
                    a run with operations, less those of a run with as good as none; and how often one missed the first
                    cache of data, as callgrind simulates it
    waited(SIDE)    of one operation: the switches of threads that waited, the microseconds of processors, and the calls
                    of futex and of sched_yield, which strace counts
    weighed(SIDE)   the bytes of one operation at the heap's peak
"""
import collections
import dataclasses
import functools
import os
import pathlib
import re
import subprocess
import sys
import tempfile

CALLGRIND = ["valgrind", "--tool=callgrind"]
MASSIF = ["valgrind", "--tool=massif", "--peak-inaccuracy=0.0"]
ANNOTATE = ["callgrind_annotate", "--show=Ir", "--show-percs=no", "--auto=no", "--threshold=100"]
MISSES = "D1mr", "D1mw"
LINE = re.compile(r"^ *([\d,]+) +(.*?)(?: \[[^\]]*\])?$")
# What a name has beside the function's path: how deep a recursion is, a sum over its types, and what rustc adds.
BESIDE = re.compile(r"'\d+$|::<#\w+>|::h[0-9a-f]{16}$|\.llvm\.\d+$|@@?[A-Z]+_[\d.]+$")
CALLS = ("futex", "sched_yield")


@dataclasses.dataclass(frozen=True)
class Side:
    """A program, of which `path()` tells where it is once it is built; its arguments; those of a run that does as good
    as nothing, if there is one; how many operations the first does more than the second; what each reads; and whether
    the cache is simulated, which takes three times as long."""

    program: object
    busy: tuple
    idle: tuple
    operations: int
    scripts: tuple = ("", "")
    has_cache: bool = True


def ran(command, script):
    """Runs a command on this input, and ends the script where it fails."""
    done = subprocess.run([*map(str, command)], input=script, capture_output=True, text=True)
    if done.returncode:
        sys.exit(f"{' '.join(map(str, command))} ended with {done.returncode}\n{done.stderr[-2000:]}")
    return done.stdout


def place_of(name):
    """The function that callgrind names with its file."""
    path = name.partition(":")[2] if re.match(r"[^ <:]*:(?!:)", name) else name
    return BESIDE.sub("", path)


def counted(told):
    """The instructions of each place in what callgrind_annotate tells."""
    found, table = collections.Counter(), told.partition("file:function")[2]
    for line in table.splitlines():
        if it := LINE.match(line):
            found[place_of(it[2])] += int(it[1].replace(",", ""))
    return found


def misses(lines):
    """How often a run missed the first cache of data, as callgrind's file tells."""
    named = {it.partition(":")[0]: it.split()[1:] for it in lines if it.startswith(("events:", "totals:"))}
    return sum(int(count) for event, count in zip(named["events"], named["totals"]) if event in MISSES)


@functools.cache
def profile(program, words, script, has_cache):
    """The instructions of each place in a run, and how often it missed the first cache."""
    with tempfile.NamedTemporaryFile() as file:
        options = [f"--cache-sim={'yes' if has_cache else 'no'}", f"--callgrind-out-file={file.name}"]
        ran([*CALLGRIND, *options, program, *words], script)
        lines = pathlib.Path(file.name).read_text(encoding="utf-8", errors="replace").splitlines()
        return counted(ran([*ANNOTATE, file.name], "")), misses(lines)


def spent(side):
    program = side.program.path()
    (with_work, without), has_cache = side.scripts, side.has_cache
    places, missed = profile(program, side.busy, with_work, has_cache)
    others, fewer = profile(program, side.idle, without, has_cache) if side.idle is not None else ({}, 0)
    found = ((place, count - others.get(place, 0)) for place, count in places.items())
    return {place: count / side.operations for place, count in found if count > 0}, (missed - fewer) / side.operations


def usage(program, words):
    """The switches and the processors' microseconds of a run."""
    with subprocess.Popen([str(program), *map(str, words)], stdout=subprocess.DEVNULL) as started:
        _, status, used = os.wait4(started.pid, 0)
        started.returncode = os.waitstatus_to_exitcode(status)
    return used.ru_nvcsw, 1e6 * (used.ru_utime + used.ru_stime)


def called(program, words):
    """How often a run made each of the calls by which threads wait, as strace counts them."""
    with tempfile.NamedTemporaryFile() as file:
        ran(["strace", "-f", "-c", "-e", f"trace={','.join(CALLS)}", "-o", file.name, program, *words], "")
        lines = [it.split() for it in pathlib.Path(file.name).read_text().splitlines()]
    counts = {it[-1]: int(it[3]) for it in lines if it and it[-1] in CALLS}
    return [counts.get(it, 0) for it in CALLS]


def waited(side):
    program = side.program.path()
    busy, idle = ((*usage(program, it), *called(program, it)) for it in (side.busy, side.idle))
    figures = (max(more - less, 0) / side.operations for more, less in zip(busy, idle))
    return dict(zip(("switches", "microseconds", *CALLS), figures))


def heap_peak(program, *words):
    """The most bytes of the heap that are asked for at once in a run of the program, as massif sees them."""
    with tempfile.NamedTemporaryFile() as file:
        ran([*MASSIF, f"--massif-out-file={file.name}", program, *words], "")
        lines = pathlib.Path(file.name).read_text().splitlines()
    return max(int(line.partition("=")[2]) for line in lines if line.startswith("mem_heap_B="))


def weighed(side):
    """The bytes of an operation."""
    program = side.program.path()
    return (heap_peak(program, *side.busy) - heap_peak(program, *side.idle)) / side.operations
