"""What the scripts bench/*/run share: how they build what they time, and how they say what was timed.

What is timed on our side is a crate that only these scripts prove, when somebody measures: bench/NAME/crate, and
bench/crates.list says what it stands on. It is proved and built in a tree outside of the repository (tools/beside.py),
over what earlier runs kept there: many minutes the first time, with the crates below, and seconds where nothing
changed. How far that is goes to standard error, what was measured to standard output, and rows to where bench/rows.py
says. What fails ends the script with exit status 1, after its reason. A crate is proved without measuring by

    cd "$(python3 tools/beside.py bench)/crates/bench_rule" && rt check
"""
import datetime
import os
import pathlib
import shutil
import statistics
import subprocess
import sys

sys.dont_write_bytecode = True
sys.path.insert(0, str(pathlib.Path(__file__).resolve().parent.parent / "tools"))
import beside
import exported
import other_crates
import runs
import without_proof


def need(*commands):
    """Ends the script where one of these commands isn't installed."""
    for command in commands:
        if not shutil.which(command):
            sys.exit("%s isn't installed" % command)


def said(*command):
    """What a command writes to standard output."""
    ran = subprocess.run(command, capture_output=True, text=True)
    if ran.returncode:
        sys.exit("%s ended with %d\n%s" % (" ".join(map(str, command)), ran.returncode, ran.stderr))
    return ran.stdout.strip()


def lib(crate):
    """Proves and builds the library of a crate of crates.txt, and returns the folder that holds it."""
    folder = beside.TOP / "crates" / crate
    if subprocess.run(["rt", "lib"], cwd=folder, stdin=subprocess.DEVNULL, stdout=sys.stderr).returncode:
        sys.exit("`rt lib` in %s failed, and says why above" % folder)
    # What is as it was isn't written again, and bench/proved.py asks what is newer.
    (folder / "out" / f"lib{crate}.a").touch()
    return folder / "out"


def over_library(is_unproved):
    """Has what cargo builds from here on link the library of boards: the one that DURKENZO_LIB names, or the proved
    one, which is proved and built first, or another without proof."""
    if is_unproved:
        os.environ["DURKENZO_LIB"] = str(unproved_libraries())
    elif "DURKENZO_LIB" not in os.environ:
        lib("sm_c")


def unproved_libraries():
    """Builds the libraries that programs in Rust and C link without proof, and returns the folder that holds them."""
    return told_unbuilt(without_proof.libraries)


def served(is_unproved):
    """Builds the server for Redis clients over the proved libraries, or over others; returns the program."""
    serve = runs.loaded("serve")
    try:
        return serve.built(unproved_libraries if is_unproved else serve.proved_library)
    except serve.Missing as missing:
        sys.exit(str(missing))


def program(crate, is_unproved):
    """Proves and builds a crate that is a program, or builds it without proof, and returns the program."""
    return told_unbuilt(without_proof.program, crate) if is_unproved else proved(crate, "run") / crate


def library(crate, is_unproved):
    """Proves and builds a crate that is a static library, or builds it without proof; returns the folder that holds
    it."""
    return told_unbuilt(without_proof.library, crate) if is_unproved else proved(crate, "lib")


def told_unbuilt(build, *crates):
    try:
        return build(*crates)
    except exported.NotBuilt as why:
        sys.exit(str(why))


def proved(crate, command):
    """Has rt prove and build the crate, and returns the folder of what it built. A program is run once, without
    arguments, and then only says how it is used."""
    need("rt")
    folder = beside.refreshed("bench") / "crates" / crate
    print("%s is proved and built in %s. That takes minutes, for each crate below too, where it wasn't done before." % (
        crate, folder), file=sys.stderr, flush=True)
    ran = subprocess.run(["rt", command], cwd=folder, stdin=subprocess.DEVNULL, stdout=sys.stderr)
    if ran.returncode:
        sys.exit("`rt %s` in %s ended with %d, and says why above" % (command, folder, ran.returncode))
    (folder / "out" / (crate if command == "run" else f"lib{crate}.a")).touch()
    return folder / "out"


def member(name, library=None):
    """Builds a bench's program in Rust that is a member of the workspace, over the libraries in this folder if one is
    given, and returns it."""
    need("cargo")
    ran = other_crates.cargo("build", "--release", "-p", name, library=library)
    if ran.returncode:
        sys.exit(f"{ran.stderr[-3000:]}cargo can't build {name}")
    return other_crates.target() / "release" / name


def in_rust(folder, **environment):
    """Builds the Rust program of a bench's folder, and returns it."""
    need("cargo")
    command = ["cargo", "build", "--release", "--quiet"]
    if subprocess.run(command, cwd=folder, env={**os.environ, **environment}).returncode:
        sys.exit("cargo can't build %s, and says why above" % folder)
    return folder / "target/release" / folder.name


def linked(folder, crate, is_unproved):
    """Builds the Rust program of a bench's folder, linked with our static library and what its allocator is in C."""
    need("cargo")
    built = library(crate, is_unproved)
    toolchain = pathlib.Path(shutil.which("rt")).resolve().parent.parent
    return in_rust(folder, PROVED=str(built), KIT_C=str(toolchain / "c"))


def quotients(ours, theirs):
    """The ratios within each round."""
    return [one / other for one, other in zip(ours, theirs)]


def middle(values, digits=0):
    """The median, with the quartiles."""
    low, mid, high = statistics.quantiles(values, n=4)
    return "%.*f (%.*f to %.*f)" % (digits, mid, digits, low, digits, high)


def ratios(ours, theirs):
    """The median of the ratios within each round, with the quartiles."""
    return middle(quotients(ours, theirs), 2)


def circumstances(load_before, rounds):
    """When and where this was measured, and with what."""
    programs = ", ".join((said("rt", "version"), said("rustc", "--version")))
    return "%s, %s, load average %.1f before and %.1f after, %d cores, %s rounds" % (
        datetime.date.today(), programs, load_before, os.getloadavg()[0], os.cpu_count(), rounds)
