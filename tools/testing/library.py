"""The part of ./test for the library: its Rust crate, its C example and its Python module, each with the tools that
this machine has for it.

`rt ci` proves the crates of static libraries, but builds none. `rt lib` builds them, and proves each crate below once
more if nothing is kept. So if there is no proved library, the library and everything that rests on it are tried over
the ones that are built without proof."""
import os
import pathlib
import re
import shutil
import subprocess
import zipfile

import exported
import limited
import other_crates
import runs
import sources
from packing import made
from testing import workspace
from testing.part import Verdict, verdict

FOLDER = sources.TOP / "library"
PROVED = [sources.CRATES / it / "out" / exported.library_of(it) for it in exported.CRATES]
NAMED = "DURKENZO_LIB"
PROGRAM = sources.CRATES / "sm_cli/out/sm_cli"
COUNTED = "every admission was counted\n"
FORWARDED = "each request was executed once\n"
TOLD = "the header is right\n"
SECONDS = 1200
STRICT = ["gcc", "-std=c11", "-Wall", "-Wextra", "-Werror"]
# The C example with a database is compiled if this file is there.
SQLITE = pathlib.Path("/usr/include/sqlite3.h")
# The Pythons, one of which may have the tools for a wheel: Debian's, and the first of the PATH.
PYTHONS = ("/usr/bin/python3", "python3")


def is_there():
    """Returns whether there are libraries: in the folder that is named, or each in the folder of its proof."""
    return NAMED in os.environ or all(it.is_file() for it in PROVED)


def without_proof():
    """Names the libraries that are built without proof to all that is tried from here on."""
    try:
        os.environ[NAMED] = str(runs.loaded("unproved").kept_library())
    except exported.NotBuilt as why:
        yield Verdict("the libraries, built without proof", str(why))


def ran(name, command, folder, wanted=None, **env):
    """Returns whether the command ends well, and writes the wanted output."""
    try:
        env = {**os.environ, **{key: str(it) for key, it in env.items()}}
        done = limited.run(list(map(str, command)), SECONDS, cwd=folder, env=env, text=True)
    except subprocess.TimeoutExpired:
        return Verdict(name, f"it hadn't ended after {SECONDS} s")
    is_well = done.returncode == 0 and wanted in (None, done.stdout)
    return verdict(name, is_well, f"exit status {done.returncode}\n{done.stdout[-2000:]}{done.stderr[-2000:]}")


def fenced(room, program, name, **env):
    """Two processes run, one after the other: the store has all their writes; and tokens that begin too low are refused
    with a message."""
    words, refuses = [*program, room / f"{name}.store"], '! "$@" 2> refused && grep -q later refused'
    yield ran(f"the fenced writes in {name}", [*words, 100], room, "the accounts have 100\n", **env)
    yield ran(f"those of a second process in {name}", [*words, 60], room, "the accounts have 160\n", **env)
    yield ran(f"late writes are refused in {name}", ["sh", "-c", refuses, "sh", *words, 60, 0], room, "", **env)


def in_rust(room):
    of, examples = ["-p", "durkenzo"], other_crates.target() / "debug/examples"
    run = ["run", "--quiet", *of, "--example"]
    yield workspace.ran("the crate's tests", "test", *of)
    yield workspace.ran("the crate's example", *run, "counters", wanted=COUNTED)
    yield workspace.ran("its example that holds two shards", *run, "transfer")
    yield workspace.ran("its example that forwards", *run, "forwarded_requests", wanted=FORWARDED)
    yield workspace.ran("the example of fences compiles", "build", *of, "--example", "fenced")
    yield from fenced(room, [examples / "fenced"], "Rust")
    yield workspace.ran("the driver of scripts compiles", "build", *of, "--example", "script")
    if shutil.which("valgrind"):
        watched = [sources.TOP / "tools/library-sanitizers", "--seconds", 1]
        yield ran("the crate under memcheck and helgrind", watched, sources.TOP)
    if not PROGRAM.is_file():
        return
    driver = examples / "script"
    compared = [sources.TOP / "tools/library-scripts", "--scripts", 8, driver, PROGRAM]
    yield ran("scripts by the library", compared, sources.TOP)


def of_program(room, prefix, flags, name, wanted):
    """The program of this name in library/c compiles, and writes the wanted output."""
    program, env = room / name, {"LD_LIBRARY_PATH": prefix / "lib"}
    made = [*STRICT, FOLDER / f"c/{name}.c", "-o", program]
    yield ran(f"the C {name} compiles", [*made, *flags, "-pthread"], room)
    if program.exists():
        yield ran(f"the C {name}", [program], room, wanted, **env)
    if program.exists() and shutil.which("valgrind"):
        watched = ["valgrind", "--quiet", "--leak-check=full", "--error-exitcode=9", program]
        yield ran(f"the C {name} under valgrind", watched, room, wanted, **env)


def wanted_version():
    """Returns the version of the programs over the libraries: it says so if they aren't proved."""
    is_marked = NAMED in os.environ and (pathlib.Path(os.environ[NAMED]) / exported.MARK).is_file()
    return made.VERSION + (made.UNPROVED if is_marked else "")


def output_of(*command, **env):
    """Returns the output of the command, or nothing if it fails."""
    done = subprocess.run(list(map(str, command)), env={**os.environ, **env}, capture_output=True, text=True)
    return done.stdout


def of_object(prefix, version):
    """The shared object's name has its interface's number, links lead to it, and it exports only its calls; each header
    is there, and pkg-config knows the version."""
    folder, numbers = prefix / "lib", version.partition("+")[0]
    name = re.search(r"SONAME +(\S+)", output_of("objdump", "-p", folder / "libdurkenzo.so"))
    wanted, file = f"libdurkenzo.so.{numbers.partition('.')[0]}", f"libdurkenzo.so.{numbers}"
    is_named = name and name[1] == wanted and (folder / file).is_file()
    leads = {os.path.realpath(folder / it) for it in ("libdurkenzo.so", wanted)} == {os.path.realpath(folder / file)}
    yield verdict("the shared object's name and links", bool(is_named and leads), f"{sorted(folder.glob('*.so*'))}")
    lines = output_of("nm", "-D", "--defined-only", folder / "libdurkenzo.so").splitlines()
    others = [it for it in lines if not it.split()[-1].startswith("durkenzo_")]
    yield verdict("what the shared object exports", bool(lines) and not others, "\n".join(others))
    lacking = {it.name for it in (FOLDER / "c").glob("*.h")} - {it.name for it in (prefix / "include").glob("*.h")}
    yield verdict("headers are installed", not lacking, f"there is no {', '.join(sorted(lacking))}")
    if shutil.which("pkg-config"):
        told = output_of("pkg-config", "--modversion", "durkenzo", PKG_CONFIG_PATH=f"{folder}/pkgconfig").strip()
        yield verdict("the version that pkg-config tells", told == version, f"{told}, and not {version}")


def in_c(room):
    """`make install` fills the prefix, and the compiler finds it as a user's does."""
    prefix = room / "prefix"
    yield ran("make install", ["make", "install", f"BUILD={room}/build", f"PREFIX={prefix}"], FOLDER)
    yield from of_object(prefix, wanted_version())
    if shutil.which("pkg-config"):
        found = ["pkg-config", "--cflags", "--libs", "durkenzo"]
        flags = subprocess.run(
            found, env={**os.environ, "PKG_CONFIG_PATH": f"{prefix}/lib/pkgconfig"}, capture_output=True, text=True
        ).stdout.split()
    else:
        flags = [f"-I{prefix}/include", f"-L{prefix}/lib", "-ldurkenzo"]
    yield from of_program(room, prefix, flags, "example", COUNTED)
    yield from of_program(room, prefix, flags, "test", TOLD)
    if SQLITE.is_file():
        program, source = room / "fenced", FOLDER / "c/fenced.c"
        yield ran("the C fenced compiles", [*STRICT, source, "-o", program, *flags, "-lsqlite3"], room)
        yield from fenced(room, [program], "C", LD_LIBRARY_PATH=prefix / "lib")


def in_python(room):
    env = {"DURKENZO_SO": room / "prefix/lib", "PYTHONDONTWRITEBYTECODE": "1"}
    yield ran("the Python module's tests", ["python3", "-m", "unittest"], FOLDER / "python", **env)
    yield ran("the Python example", ["python3", "example.py"], FOLDER / "python", **env)


def wheel_maker():
    """Returns a Python that can make and install a wheel with no network, or None."""
    for python in filter(None, map(shutil.which, PYTHONS)):
        needs = [python, "-c", "import setuptools, pip, wheel, venv"]
        if subprocess.run(needs, capture_output=True).returncode == 0:
            return python
    return None


def of_platform(wheel, version):
    """The wheel says that it is for this platform, and for any Python; and the example of a page about it runs."""
    with zipfile.ZipFile(wheel) as packed:
        texts = {pathlib.Path(it).name: packed.read(it).decode() for it in packed.namelist() if ".dist-info/" in it}
    told = texts.get("WHEEL", "")
    is_platform = "Root-Is-Purelib: false" in told and "Tag: py3-none-linux_" in told
    yield verdict("the wheel is one of this platform", is_platform, told)
    wanted = (f"Version: {version}\n", "Classifier: Typing :: Typed", "Description-Content-Type: text/markdown")
    lacking = [it for it in wanted if it not in texts["METADATA"]]
    yield verdict("what the wheel tells of itself", not lacking, f"{lacking} isn't in\n{texts['METADATA']}")


def in_wheel(room, python):
    """The wheel brings its shared object: its example runs in a fresh environment with no variable set."""
    venv = room / "venv"
    yield ran("make wheel", ["make", "wheel", f"BUILD={room}/build", f"PYTHON={python}"], FOLDER)
    for wheel in (room / "build/wheel").glob("*.whl"):
        yield from of_platform(wheel, wanted_version())
    yield ran("a fresh venv", [python, "-m", "venv", "--without-pip", venv], room)
    install = [python, "-m", "pip", "--python", venv / "bin/python", "install", "--quiet", "--no-index"]
    yield ran("the wheel is installed", [*install, *(room / "build/wheel").glob("*.whl")], room)
    # Isolated, so that the module beside the example isn't found.
    example = ["env", "-i", venv / "bin/python", "-I", FOLDER / "python/example.py"]
    yield ran("the Python example by the wheel", example, room)


def passed(room):
    """Yields all parts, or nothing if the library wasn't built: the proofs' part says that it must be."""
    room = pathlib.Path(room)
    if not is_there():
        return
    if shutil.which("cargo") and other_crates.has_crates():
        yield from in_rust(room)
    if shutil.which("gcc") and shutil.which("make"):
        yield from in_c(room)
        yield from in_python(room)
        if python := wheel_maker():
            yield from in_wheel(room, python)
