"""What is profiled of each row that misses its aim (bench/aims.list): ours, and the program beside it where it is ours
to run. All is built without proof (bench/without_proof.py)."""
import dataclasses
import functools
import pathlib
import subprocess
import sys

import runs
import without_proof
from profiling import Side

HERE = pathlib.Path(__file__).resolve().parent
OURS = "ours"
INSTRUCTIONS, BYTES = "instructions", "bytes"


@dataclasses.dataclass(frozen=True)
class Case:
    """What the page calls it, the bench and its rows that this explains, the operation, the sides by their names, ours
    first, whether its threads wait for each other, and what is counted."""

    name: str
    bench: str
    rows: tuple
    operation: str
    sides: dict
    is_waiting: bool = False
    unit: str = INSTRUCTIONS

    def of_rows(self, wanted):
        """Those of these aims that its rows have."""
        return [it for it in wanted if it.bench == self.bench and it.name in self.rows]


@dataclasses.dataclass(frozen=True)
class Program:
    """The program in Rust of a bench, or that of a crate in Rattle, which is built when it is first asked for."""

    bench: str
    crate: str = ""

    def path(self):
        build(self.bench)
        if self.crate:
            return without_proof.program(self.crate)
        return HERE / self.bench / "target/release" / self.bench


@functools.cache
def build(bench):
    """Has a bench build what it times, over what isn't proved."""
    path = HERE / bench
    command = [path / "run" if path.is_dir() else path, "--unproved", "--build"]
    if subprocess.run(command, stdin=subprocess.DEVNULL, stdout=sys.stderr).returncode:
        sys.exit(f"{bench} can't be built, and says why above")


def side(program, busy, idle, operations, has_cache=True):
    idle = None if idle is None else tuple(map(str, idle))
    return Side(program, tuple(map(str, busy)), idle, operations, has_cache=has_cache)


def calls(title, row, servers, shards, clients, each):
    numbers, once = (servers, 1, shards, clients, each, 0), (servers, 1, shards, clients, 1, 0)
    count = clients * (each - 1)
    ours = side(Program("cluster", "bench_cluster"), ("rest", *numbers), ("rest", *once), count)
    theirs = side(Program("cluster"), ("places", "rest", *numbers), ("places", "rest", *once), count)
    sides = {OURS: ours, "crossbeam, a channel a call": theirs}
    return Case(title, "cluster", (row,), "a call", sides, True)


def cluster():
    yield calls("A call of one client", "a call, 1 client", 1, 1, 1, 4000)
    row = "a call, 16 clients, 16 shards of 4 servers"
    yield calls("A call of 16 clients, each at a shard of its own", row, 4, 16, 16, 500)
    row = "a call, 4 clients, 4 shards of 4 servers"
    yield calls("A call of 4 clients, each at a shard of its own", row, 4, 4, 4, 1000)
    yield calls("A call of 4 clients at one shard", "a call, 4 clients, one shard", 1, 1, 4, 1000)
    yield calls("A call of 16 clients at one shard", "a call, 16 clients, one shard", 1, 1, 16, 500)
    words = lambda count: ("graceful", 2, 1, 4, 4, 0, count)
    ours = side(Program("cluster", "bench_cluster"), words(200), words(1), 199)
    theirs = side(Program("cluster"), ("crossbeam", *words(200)), ("crossbeam", *words(1)), 199)
    rows = "a migration, graceful, cluster", "the longest request of migrations, graceful, cluster"
    sides = {OURS: ours, "Rust over crossbeam": theirs}
    yield Case("A graceful migration, with its clients' calls", "cluster", rows, "a migration", sides, True)


def served(title, kind, reaches, way, reach, tries, threads):
    program, other = Program("serve", "bench_server"), Program("serve")
    sides = {OURS: side(program, (way, kind, tries), ("serve", kind, 0), tries * threads)}
    for name, which in (("locks that search", "search"), ("locks given the shard", "given")):
        sides[name] = side(other, (which, reach, kind, tries), (which, "alone", kind, 0), tries * threads)
    rows = tuple(f"{kind}, {it}" for it in reaches)
    return Case(title, "serve", rows, f"a `{kind}`", sides, threads > 1)


def serve():
    for kind in ("get", "put"):
        one, own = ("one thread",), ("four threads, apart", "four threads, spread")
        yield served(f"`serve`, `{kind}`, on one thread", kind, one, "serve", "alone", 20000, 1)
        title = f"`serve`, `{kind}`, on four threads, at their own or any shards"
        yield served(title, kind, own, "spread", "spread", 10000, 4)
        title = f"`serve`, `{kind}`, on four threads at one shard"
        yield served(title, kind, ("four threads, same",), "same", "same", 10000, 4)


def admissions():
    program, count = Program("admissions"), 300_000
    for row in ("admit and finish", "admit, count in the body, and finish"):
        ways = {OURS: "board", "words": "words"}
        sides = {name: side(program, (row, way, count), (row, way, 0), count) for name, way in ways.items()}
        title = "An admission and its end" + (", with a count in the body" if "count" in row else "")
        yield Case(title, "admissions", (row,), "an admission", sides)


def place():
    program, changes = Program("place", "bench_place"), 399_808
    sides = {
        OURS: side(program, ("control",), ("books",), changes),
        "a look and a change by the board": side(program, ("board",), (), changes),
    }
    yield Case("A change by the control", "place", ("a change by the control",), "a change", sides)
    for word, row in (("first", "plan, the first server fits"), ("last", "plan, only the last server fits")):
        sides = {OURS: side(program, (word,), ("books",), 1)}
        title = f"A plan where {row.removeprefix('plan, ')}"
        yield Case(title, "place", (row,), "a plan", sides)


def script_lines():
    bench = runs.loaded("../bench/script_lines")
    program = Program("script_lines", "sm_cli")
    written = {
        "a script line": ("a line", bench.script, 20_000, 1),
        "a change of a script": ("a change", bench.changes, 2_000, 4),
        "a forwarded request of a script": ("a forwarded request", bench.forwarded, 10_000, 1),
    }
    for title, (row, script, count, each) in written.items():
        scripts = "".join(script(count)), "".join(script(0))
        ours = Side(program, ("model",), ("model",), count * each, scripts)
        title = title[0].upper() + title[1:]
        yield Case(title, "script_lines", (f"instructions {row}",), row, {OURS: ours})
    ours = Side(program, ("model",), None, 1, ("".join(bench.script(0)), ""))
    yield Case("The start of the program", "script_lines", ("instructions to start",), "a start", {OURS: ours})


def memory():
    program, other = Program("memory"), "`BTreeMap`"
    for count in (1000, 10000):
        whose = {OURS: "ours", other: "theirs"}
        fill = lambda who: side(program, (who, count, "shuffled"), ("none", count, "shuffled"), count)
        sides = {name: fill(who) for name, who in whose.items()}
        row = f"put of a new key, {count} keys"
        yield Case(f"`put` of a new key, {count:,} keys", "memory", (row,), "a `put`", sides)
    scan = lambda who: side(program, ("scan", who, 1000, 1000), ("scan", who, 1000, 0), 1000)
    sides = {name: scan(who) for name, who in whose.items()}
    yield Case("A scan of 100, 1,000 keys", "memory", ("scan of 100, 1000 keys",), "a scan", sides)
    sides = {name: fill(who) for name, who in whose.items()}
    rows = ("bytes of 10,000 pairs in shuffled order",)
    yield Case("Bytes of 10,000 pairs in no order", "memory", rows, "a pair", sides, unit=BYTES)


def read(title, pace, has_cache, rows):
    """Reads of one router: each program makes two million of them, and no fewer."""
    words, reads = (1, pace), 2_000_000
    ours = side(Program("routes", "bench_publish"), words, None, reads, has_cache)
    theirs = side(Program("routes"), ("arc-swap", *words), None, reads, has_cache)
    return Case(title, "routes", rows, "a read", {OURS: ours, "arc-swap": theirs})


def routes():
    paces = "at rest", "1,000 a second"
    rows = tuple(f"a read, {readers} readers, publisher {pace}" for pace in paces for readers in (1, 2, 4))
    yield read("A route, publisher at rest or 1,000 a second", "rest", True, rows)
    rows = tuple(f"a read, {readers} readers, publisher never rests" for readers in (1, 2, 4))
    yield read("A route, publisher that never rests, with its work", "always", False, rows)


BENCHES = cluster, serve, admissions, place, script_lines, memory, routes


@functools.cache
def cases():
    return [it for of in BENCHES for it in of()]
