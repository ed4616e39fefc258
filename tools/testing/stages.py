"""The parts of ./test in their stages: cheap parts first, then the proofs, then the proved programs."""
import shutil

import beside
import sources
from testing import (
    alone,
    benches,
    cluster,
    front,
    killed,
    layout,
    library,
    packed,
    prover,
    server,
    sidecar,
    simulation,
    tests,
    unlinked,
)
from testing.part import Part, verdict
from testing.program import EXAMPLES, Program, opens_nothing, tool

DOCS = (
    "doc-aims",
    "doc-crates",
    "doc-examples",
    "doc-figures",
    "doc-paths",
    "doc-unsafe",
    "doc-words",
    "edits",
    "headline",
    "library-codes",
    "licences",
    "names",
    "pictures",
    "plain",
    "readers",
    "version",
)
PROVED = sources.CRATES / "sm_cli/out/sm_cli"
BY_RATTLE = sources.CRATES / "sm_cli/out/sm_cli.by-rattle"


def listed():
    """Returns the crates of crates.txt, with the crates that each stands on."""
    return {name: line.uses for name, line in prover.listed().items()}


def crates_of_tests():
    """Returns the crates of tests by their folders in tests/, with the crates that each stands on."""
    found = beside.listed("tests").values()
    return {folder.name: line.partition(":")[2].split() for folder, line in found}


def above(crates):
    """Returns these crates and all that stand on them."""
    stands_on, wanted = listed(), set(crates)
    lacking = sorted(wanted - set(stands_on))
    if lacking:
        raise SystemExit(f"test: crates.txt lists no crate {', '.join(lacking)}")
    while more := {it for it in stands_on if wanted & set(stands_on[it])} - wanted:
        wanted |= more
    return wanted


def below(crates):
    """Returns these crates and all on which they stand."""
    stands_on, wanted = listed(), set(crates)
    while more := {below for it in wanted for below in stands_on[it] if below in stands_on} - wanted:
        wanted |= more
    return sorted(wanted)


def pages():
    """The layout of all sources, the docs' statements about them, and the tools that fill their tables."""
    docs = Part("docs", lambda _room: map(tool, DOCS))
    ended = Part("a run that is killed", killed.passed)
    return [Part("layout", layout.laid_out), docs, Part("benches", benches.passed), ended]


def built(name, path):
    """A program without proof, from which nothing is concluded but that a change is worth a proof."""
    return Part(f"{name}, built without proof", lambda _room: [tool("unproved", "--crate", name, path)])


def soaked(room):
    """Clusters by chance. Who directs them isn't proved; the sanitizer watches the cluster's memory."""
    path = f"{room}/bench_cluster"
    yield tool("unproved", "--crate", "bench_cluster", path)
    yield tool("soak", "--seconds", 5, path)


def ordinary_rust():
    """The parts that need no library, and the message if there is none."""
    return [Part("ordinary Rust", alone.passed, goes_first=True), Part("crates without a library", unlinked.passed)]


def without_proof(room, names, is_proved):
    """The stage before any proof: pages, tests, and the program as sources alone make it."""
    with_proof = lambda _room: [tool("run-tests", "--proved", *names)]
    proved = [Part("tests, proved", with_proof)] if is_proved else []
    library_part = Part("the library, built without proof", lambda _room: [tool("unproved", "--library")])
    programs = [built("sm_cli", f"{room}/sm_cli"), library_part, Part("a cluster by chance, unproved", soaked)]
    return [Part("tests", tests.work(names)), *ordinary_rust(), *programs, *proved, *pages()]


def unproved_program(room):
    program = Program(f"{room}/sm_cli", "unproved")
    return [Part("examples, unproved", program.examples), Part("exit statuses, unproved", program.statuses)]


def quick_program(room, say):
    """The parts that say the most about a change of a page or a script in few minutes. The sanitizer's memory can't be
    refused from outside, so that is tried on the proved programs."""
    packed.skipped(say)
    path = f"{room}/sm_cli"
    program = Program(path, "unproved")
    streams = ["failing-streams", "--calls", 5, path, EXAMPLES / "migration.in"]
    return [
        Part("explanations, unproved", program.explanations),
        Part("random scripts, unproved", program.scripts(count=8, on_threads=2)),
        Part("spoilt scripts, unproved", lambda _room: [tool("malformed", "--every", 740, "--random", 20, path)]),
        *unproved_program(room),
        Part("failing streams, unproved", lambda _room: [tool(*streams)]),
        Part("pictures, unproved", program.pictures),
        Part("the shell, unproved", program.shell),
        Part("packages, unproved", packed.passed("unproved")),
        Part("Rust over the library", server.compiled),
    ]


def when_built(path, parts):
    """Returns these parts, each of which finds nothing if the program wasn't built: a part of its own says that it must
    be."""

    def guarded(work):
        return lambda room: work(room) if path.exists() else []

    return [it._replace(work=guarded(it.work)) for it in parts]


def on_program(path, how):
    """The parts for each of the two builds of the proved program."""
    program = Program(path, how)
    parts = [
        Part(f"spoilt scripts, {how}", program.spoilt(every=37, count=500, every_on_threads=370, on_threads=50)),
        Part(f"random scripts, {how}", program.scripts(count=20, on_threads=5)),
        Part(f"a script at the limits, {how}", program.full_size),
        Part(f"explanations, {how}", program.explanations),
        Part(f"examples, {how}", program.examples),
        Part(f"exit statuses, {how}", program.statuses),
    ]
    return when_built(path, parts)


def faults(say):
    """The parts that need more than the program: a C compiler, to make calls fail, and valgrind."""
    program, parts = Program(PROVED, "proved"), []
    if shutil.which("cc"):
        parts += [
            Part("refused memory, proved", program.memory),
            Part("failing streams, proved", program.streams),
            Part("fuzzing, proved", program.fuzzed),
            Part("what the program calls", opens_nothing(PROVED)),
        ]
    else:
        say("cc isn't installed: no allocation is refused, no stream fails, and nobody looks which functions the program calls")
    if shutil.which("valgrind"):
        parts.append(Part("under valgrind, proved", program.watched))
    else:
        say("valgrind isn't installed: no example runs under it")
    return parts


def program(_room):
    """The results of the proofs, from the tree in which they ran. `rt ci` may have kept a program that it built before.
    It is as new as its sources all the same, and by that ./sm sees that it is proved."""
    tree = beside.tree_of(beside.PROOFS)
    PROVED.parent.mkdir(exist_ok=True)
    for made in (PROVED, BY_RATTLE):
        made.unlink(missing_ok=True)
        if (there := tree / made.relative_to(sources.TOP)).exists():
            shutil.copy(there, made)
    yield verdict(f"{PROVED.name} was proved and built", PROVED.exists())
    if not library.is_there():
        print("`rt ci` builds no static library: what stands on one is tried over those that are built without proof")
        yield from library.without_proof()


def proved(say):
    """The stage after the proofs: the programs that they made. Rattle's own compiler may decline one, which `rt ci`
    then says."""
    program = Program(PROVED, "proved")
    if not library.wheel_maker():
        say("no python3 has pip, setuptools and wheel: the library's wheel isn't tried")
    server.skipped(say)
    cluster.skipped(say)
    sidecar.skipped(say)
    alone.skipped(say)
    packed.skipped(say)
    parts = [
        Part("pictures, proved", program.pictures),
        Part("the shell, proved", program.shell),
        Part("./sm", front.words),
        Part("library", library.passed, goes_first=True),
        Part("server", server.passed, goes_first=True),
        Part("cluster of processes", cluster.passed, goes_first=True),
        Part("sidecars", sidecar.passed),
        Part("simulation", simulation.passed),
        Part("packages", packed.passed("proved")),
        *faults(say),
    ]
    return [
        *on_program(PROVED, "proved"),
        *on_program(BY_RATTLE, "by Rattle's compiler"),
        *when_built(PROVED, parts),
    ]
