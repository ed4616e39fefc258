"""Tries whether the repository is in order: everything here must pass before a change is merged.

Cheap parts come first, so that most failures show within minutes:

  without proof   the sources' layout, the docs, the tests, and the examples on a program that is built without proof
  proofs          rt ci: each crate, and each wrong body, which the prover must refuse; what an earlier run on this
                  machine proved of the same files over the same libraries, by their checksums, it takes as it is
  what is proved  the examples, and tools that look for faults, on the program that was just proved, as each of two
                  compilers built it

A line says how far the run is. A failure is printed at once, with its reason; a part that stands still for too long is
ended and has failed. The last line is 'N passed, M failed', and the exit status is 1 if anything failed. It runs from
any folder.
"""
import argparse
import os
import resource
import sys
import tempfile
import time

import sources
from testing import costs, report, stages
from testing.proofs import Proofs
from testing.part import Part
from testing.runner import Runner, processors


def arguments():
    parser = argparse.ArgumentParser(
        prog="./test", description=__doc__, formatter_class=argparse.RawDescriptionHelpFormatter
    )
    parser.add_argument(
        "crates", nargs="*", metavar="CRATE", help="tries these crates and all that stand on them, and no more"
    )
    parser.add_argument(
        "--quick", action="store_true", help="proves nothing: pages, tests and examples, in some five minutes"
    )
    parser.add_argument(
        "--anew", action="store_true", help="proves all from nothing, whatever an earlier run on this machine proved"
    )
    endings = parser.add_mutually_exclusive_group()
    endings.add_argument(
        "--keep-going", action="store_true", help="tries all, whatever fails (as without an option)"
    )
    endings.add_argument("--fail-fast", action="store_true", help="ends at the first failure")
    parser.add_argument(
        "--proved-tests", action="store_true", help="proves the tests too, which takes some 70 processor minutes more"
    )
    parser.add_argument(
        "--write-costs", action="store_true", help="writes the costs of a whole run into tools/testing/costs.md"
    )
    given = parser.parse_args()
    if given.quick and (given.crates or given.proved_tests):
        parser.error("--quick proves nothing, and takes no crates")
    if given.write_costs and (given.quick or not given.anew or given.crates):
        parser.error("--write-costs is for a whole run --anew")
    return given


def proofs_of(given):
    """Returns the proofs of no crate, of these and those above and below them, or of all."""
    if given.quick:
        return Proofs([])
    return Proofs(stages.below(stages.above(given.crates)) if given.crates else stages.listed(), given.anew)


def stages_of(given, proofs, room):
    """The stages of a run: a name for each, and its parts."""
    touched = stages.above(given.crates) if given.crates else None
    names = [it for it, below in stages.crates_of_tests().items() if not touched or touched & set(below)]
    found = [("without proof", stages.without_proof(room, names, given.proved_tests))]
    if given.quick:
        return [*found, ("the program without proof", stages.quick_program(room, print))]
    found += [("examples without proof", stages.unproved_program(room)), ("proofs", [Part(proofs.name, proofs.work)])]
    if not given.crates:
        found += [("program", [Part("program", stages.program)]), ("what is proved", stages.proved(print))]
    return found


def tell(runner, proofs, began):
    """Prints the costs at the end, and each failure."""
    checks = [*proofs.checks.values()]
    if checks:
        print(costs.brief(checks))
        print("\n".join(report.lines(checks)))
    used = resource.getrusage(resource.RUSAGE_CHILDREN)
    spent, passed = (used.ru_utime + used.ru_stime) / 60, (time.time() - began) / 60
    print(f"All of it took {spent:.0f} processor minutes and {passed:.1f} minutes on {processors()} processors.")
    for name in runner.failed:
        print(f"FAILED: {name}")
    print(f"{runner.passed} passed, {len(runner.failed)} failed")


def main():
    os.chdir(sources.TOP)
    given, began = arguments(), time.time()
    if not given.quick:
        # The files that would let cargo build sooner a second time take 2 GB of a disk that proofs need.
        os.environ.setdefault("CARGO_INCREMENTAL", "0")
    proofs = proofs_of(given)
    with tempfile.TemporaryDirectory(prefix="sm-test-") as room:
        runner = Runner(stages_of(given, proofs, room), proofs, given.fail_fast)
        try:
            is_well = runner.run()
        except KeyboardInterrupt:
            proofs.stop()
            sys.exit(130)
    if given.write_costs and is_well:
        parts = {name: it for name, it in runner.seconds.items() if name != proofs.name}
        costs.write(proofs.checks.values(), parts)
    tell(runner, proofs, began)
    sys.exit(0 if is_well else 1)
