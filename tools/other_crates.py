"""Other people's crates for the packages that cargo builds here: Debian's packages if they have all crates that
Cargo.lock names, which needs no network, and otherwise the crates of crates.io. tools/setup installs the packages.

Debian patches crates, and has other checksums of them than crates.io, or other words in their place; cargo refuses a
checksum that isn't the lock's. So Cargo.lock has no checksum, and cargo reads copies of Debian's crates, in out/debian,
that have none either. They aren't links, because rt refuses each link below the top. crates.io tells cargo all
checksums, which cargo then adds to the lock, with crates that only other platforms need. A run with Debian's crates
puts back the text that is committed."""
import os
import pathlib
import re
import shutil
import subprocess
import sys

import limited
import telling

TOP = pathlib.Path(__file__).resolve().parent.parent
LOCK = TOP / "Cargo.lock"
# The folder of Debian's packages, and the folder from which cargo reads them.
DEBIAN, COPIED = pathlib.Path("/usr/share/cargo/registry"), TOP / "out/debian"
# The place of a lock to which crates.io added lines, once the committed text is put back.
ADDED = TOP / "out/Cargo.lock"
# The folder in which cargo builds the workspace.
KEPT = TOP / "out/cargo"
# How long cargo may build and test, in seconds, and the exit status if it took longer, as of timeout(1).
SECONDS, ENDED = 2400, 124
# Words of cargo that run no program of ours, and leave processors to other work.
BUILDING = ("build", "check", "clippy")
CHECKSUM, NONE = ".cargo-checksum.json", '{"package": null, "files": {}}\n'
# A line that cargo adds to the lock by crates.io.
SUMMED = re.compile(r"(?m)^checksum = .*\n")
LOCKED = re.compile(r'(?m)^name = "([^"]+)"\nversion = "([^"]+)"\nsource = ')
# The variable that names the folder of the proved libraries.
NAMED = "DURKENZO_LIB"


def committed():
    """Returns the text of the committed lock, or none if git doesn't know it."""
    words = ["git", "-C", str(TOP), "show", "HEAD:./Cargo.lock"]
    ran = subprocess.run(words, capture_output=True, encoding="utf-8") if shutil.which("git") else None
    return ran.stdout if ran and ran.returncode == 0 else None


def lock():
    """Returns the lock's text before crates.io added to it: the committed one if the file has checksums and the
    committed one has none, and otherwise the file's."""
    text = LOCK.read_text("utf-8")
    before = committed() if SUMMED.search(text) else None
    return text if before is None or SUMMED.search(before) else before


def put_back():
    """Puts back the lock's text as it is before crates.io adds to it, and keeps the other one."""
    text = lock()
    if text == LOCK.read_text("utf-8"):
        return
    ADDED.parent.mkdir(exist_ok=True)
    shutil.copy2(LOCK, ADDED)
    new = ADDED.with_name(f"Cargo.lock.{os.getpid()}")
    new.write_text(text, encoding="utf-8")
    new.replace(LOCK)
    print(f"Cargo.lock is as committed again; what crates.io added is in {ADDED.relative_to(TOP)}", file=sys.stderr)


def locked():
    """Returns the folders in which Debian's packages put the crates that the lock names, in its versions."""
    return [DEBIAN / f"{name}-{version}" for name, version in LOCKED.findall(lock())]


def is_debian():
    """Returns whether Debian's packages have all crates that the lock names, in its versions."""
    return all(it.is_dir() for it in locked())


def copy(crate, into):
    """Copies the folder of a crate of Debian's, but for its checksum."""
    shutil.copytree(crate, into, ignore=shutil.ignore_patterns(CHECKSUM))
    (into / CHECKSUM).write_text(NONE, encoding="utf-8")


def debian():
    """Returns the file that has cargo take Debian's crates, once those that the lock names are copied as they now are,
    and the lock has nothing of crates.io."""
    put_back()
    listed = "".join(f"{it} {it.stat().st_mtime_ns}\n" for it in locked())
    listed, config = f"{COPIED}\n{listed}", COPIED / ".config.toml"
    COPIED.mkdir(parents=True, exist_ok=True)
    with telling.alone(COPIED):
        is_listed = COPIED / ".listed"
        if not is_listed.is_file() or is_listed.read_text("utf-8") != listed:
            for old in COPIED.glob("*/"):
                shutil.rmtree(old)
            for it in locked():
                copy(it, COPIED / it.name)
            replaced = f'[source.crates-io]\nreplace-with = "debian"\n[source.debian]\ndirectory = "{COPIED}"\n'
            config.write_text(replaced, encoding="utf-8")
            is_listed.write_text(listed, encoding="utf-8")
    return config


def options():
    """Returns the options that tell cargo the places of the crates and of its own sources."""
    crates = ["--config", str(debian()), "--offline"] if is_debian() else []
    # Built programs have the paths of their sources from the top on, and nothing of this machine.
    return [*crates, "--config", f'build.rustflags = ["--remap-path-prefix={TOP}=."]']


def target(folder=None):
    """Returns the folder in which cargo builds: the one that a variable names, or this one, or that of all."""
    return pathlib.Path(os.environ.get("CARGO_TARGET_DIR") or folder or KEPT)


def environment(library=None, folder=None):
    """Returns the variables with which cargo builds in that folder, over the libraries in another if one is given."""
    named = {NAMED: str(library)} if library else {}
    return {**os.environ, "CARGO_TARGET_DIR": str(target(folder)), **named}


def command(word, *words):
    """Returns the command of cargo with this word and the crates that are there; to format files it needs none."""
    return ["cargo", word, *([] if word == "fmt" else options()), *words]


def cargo(*words, library=None, folder=None):
    """Runs cargo at the top, and returns the finished run. A run that takes too long has failed, and its output says in
    which tests."""
    is_nice = words[0] in BUILDING or "--no-run" in words
    if words[0] == "test" and not is_nice:
        built = cargo("test", "--no-run", *words[1:], library=library, folder=folder)
        if built.returncode:
            return built
    words = [*(["nice"] if is_nice else []), *command(*words)]
    how = {"cwd": TOP, "env": environment(library, folder), "stdin": subprocess.DEVNULL, "text": True}
    try:
        return limited.run(words, SECONDS, **how)
    except subprocess.TimeoutExpired as late:
        complaint = f"{late.stderr or ''}\n{' '.join(words)} had not ended after {SECONDS} seconds\n"
        return subprocess.CompletedProcess(words, ENDED, late.output or "", complaint)


def has_crates():
    """Returns whether cargo has them: Debian's, or those that crates.io gives it now or gave it before."""
    return is_debian() or cargo("fetch").returncode == 0
