"""The part of ./test for the packages of ./dist: they have the same bytes each time, and work on a machine without the
toolchain."""
import os
import pathlib
import re
import shutil
import subprocess
import sys
import tarfile
import zipfile

import other_crates
import runs
import sources
from packing import made
from packing import main as packing
from testing import library
from testing.part import Verdict, verdict
from testing.program import EXAMPLES, fault_of, tool

# The path of programs in an empty environment: nothing of the toolchain is there.
PLAIN = "/usr/bin:/bin"
# The programs that try a part of the packages, each its own part.
USED = ("dpkg-deb", "lintian", "man", "bash", "zsh", "fish", "systemd-analyze", "strace")


def skipped(say):
    """Prints which part isn't tried, because which program is missing."""
    if not shutil.which("cargo") or not other_crates.has_crates():
        say("no cargo, or no crates: nothing is packed; tools/setup installs them")
        return
    if lacking := [it for it in USED if not shutil.which(it)]:
        say(f"no {', '.join(lacking)}: what is packed is tried without them")
    if os.geteuid():
        say("only root has an empty root folder: packed programs run with an empty environment alone")


def bytes_of(folder):
    return {it.name: it.read_bytes() for it in sorted(folder.iterdir())}


def is_same(first, second):
    """Two packs of the same sources."""
    one, other = bytes_of(first), bytes_of(second)
    differing = sorted(it for it in one.keys() | other.keys() if one.get(it) != other.get(it))
    return verdict("two packs are the same bytes", not differing, f"these differ: {', '.join(differing)}")


def unpacked(folder, into):
    """Unpacks the archive; returns the folder in it."""
    archive = next(folder.glob("*.tar.gz"))
    with tarfile.open(archive) as tar:
        tar.extractall(into)
    return into / archive.name.removesuffix(".tar.gz")


def with_libraries(tree):
    """Copies into the tree the system's libraries that its programs load; returns the words that run a program in
    it."""
    if os.geteuid():
        return lambda name: ["env", "-i", tree / "bin" / name]
    for program in (tree / "bin").iterdir():
        told = subprocess.run(["ldd", program], capture_output=True, text=True).stdout
        for path in re.findall(r"(/\S+) \(0x", told):
            copy = tree / path.lstrip("/")
            copy.parent.mkdir(parents=True, exist_ok=True)
            shutil.copy(path, copy)
    # The sanitizer in programs without proof looks there for its own name.
    (tree / "proc/self").mkdir(parents=True)
    (tree / "proc/self/exe").symlink_to("/bin/sm_cli")
    return lambda name: ["env", "-i", shutil.which("chroot"), tree, f"/bin/{name}"]


def version_of(how):
    """Returns the version of packages that are made in this way."""
    return made.VERSION + (made.UNPROVED if how == "unproved" else "")


def programs(tree, room, how):
    """Each program runs its first example, with only its own files and the libraries that it loads."""
    command = with_libraries(tree)
    for script in [it for it in EXAMPLES.glob("*.in") if it.stem in ("first-path", "migration")]:
        output = script.with_suffix(".out").read_bytes()
        yield Verdict(f"{script.name}, packed {how}", fault_of([*command("sm_cli"), "model"], 0, output, "", script))
    for name in ("sm_cli", "durkenzo-server"):
        told = runs.finished(list(map(str, [*command(name), "--version"]))).output.decode().split()
        wanted = version_of(how)
        yield verdict(f"{name} --version, packed {how}", told[-1:] == [wanted], " ".join(told))
    yield Verdict(f"the server, packed {how}", served_fault(command("durkenzo-server"), room))


def served_fault(command, room):
    """Returns the fault that a client finds as it writes and reads while a shard moves, or None."""
    sys.path.insert(0, str(sources.TOP / "server/tests"))
    from served import served

    wrapper = room / "packed-server"
    wrapper.write_text(f'#!/bin/sh\nexec {" ".join(map(str, command))} "$@"\n', encoding="utf-8")
    wrapper.chmod(0o755)
    try:
        with served(wrapper) as server, server.client() as client:
            said = [client.ask("INCR", "visits"), client.ask("SM", "MIGRATE", 0, 2), client.ask("INCR", "visits")]
    except (AssertionError, ConnectionError, OSError) as why:
        return f"{type(why).__name__}: {why}"
    return None if said[::2] == [1, 2] else f"it answered {said}"


def libraries(tree, room, folder, version):
    """Its C example and its Rust example link the packed library, and the wheel brings its own."""
    yield from library.of_object(tree, version)
    plain = {"PATH": PLAIN, "PKG_CONFIG_PATH": str(tree / "lib/pkgconfig")}
    if shutil.which("gcc", path=PLAIN) and shutil.which("pkg-config", path=PLAIN):
        words = ["pkg-config", "--cflags", "--libs", "durkenzo"]
        flags = subprocess.run(words, env=plain, capture_output=True, text=True).stdout.split()
        words = ["gcc", sources.TOP / "library/c/example.c", "-o", room / "packed-example", *flags, "-pthread"]
        yield library.ran("the C example over the packed library", words, room, PATH=PLAIN)
        run = {"LD_LIBRARY_PATH": tree / "lib"}
        yield library.ran("the packed shared object", [room / "packed-example"], room, library.COUNTED, **run)
    with tarfile.open(next(folder.glob("*.crate"))) as tar:
        tar.extractall(room)
        crate = room / tar.getnames()[0].split("/")[0]
    env = {"DURKENZO_LIB": tree / "lib/durkenzo", "CARGO_TARGET_DIR": room / "packed-target"}
    env["PATH"] = f"{pathlib.Path(shutil.which('cargo')).parent}:{PLAIN}"
    words = ["cargo", "run", "--quiet", "--offline", "--jobs", "2", "--example", "counters"]
    yield library.ran("the packed crate's example", words, crate, library.COUNTED, **env)
    for wheel in folder.glob("*.whl"):
        yield from library.of_platform(wheel, version)
        yield from of_wheel(wheel, room)


def of_wheel(wheel, room):
    lacking = {"LICENSE", "NOTICES"} - {pathlib.Path(it).name for it in zipfile.ZipFile(wheel).namelist()}
    yield verdict("the packed wheel's licences", not lacking, f"it lacks {', '.join(sorted(lacking))}")
    python, venv = library.wheel_maker(), room / "packed-venv"
    yield library.ran("a venv for the packed wheel", [python, "-m", "venv", "--without-pip", venv], room)
    install = [python, "-m", "pip", "--python", venv / "bin/python", "install", "--quiet", "--no-index", wheel]
    yield library.ran("the packed wheel is installed", install, room)
    example = ["env", "-i", venv / "bin/python", "-I", sources.TOP / "library/python/example.py"]
    yield library.ran("the Python example by the packed wheel", example, room)


def pages(tree, room):
    """The manual pages set without a warning; the shells read the completions, which find the wanted words."""
    if shutil.which("man"):
        for page in sorted((tree / "share/man/man1").glob("*.1")):
            words = ["man", "--warnings", "-E", "UTF-8", "-l", "-Tutf8", "-Z", page]
            env = {**os.environ, "LC_ALL": "C.UTF-8", "MANROFFSEQ": "", "MANWIDTH": "80"}
            # A page that is another by name is found below the folder in which man runs.
            ran = subprocess.run(words, cwd=tree / "share/man", env=env, capture_output=True, text=True)
            yield verdict(f"the manual page {page.name}", not ran.returncode and not ran.stderr, ran.stderr[-2000:])
    for shell, words, wanted in completions(tree):
        if shutil.which(shell):
            ran = subprocess.run([shell, "-c", words], capture_output=True, text=True, cwd=room)
            said = f"{ran.stdout}{ran.stderr}"
            yield verdict(f"completions of {shell}", not ran.returncode and ran.stdout.split() == wanted, said[-2000:])


def deployed(tree, room):
    """The files that install a cluster's machines work as their page says."""
    words = ["make", "-C", tree / "share/doc/durkenzo/deploy", "install", f"DESTDIR={room}/deployed"]
    yield library.ran("what installs a cluster, packed", words, room)


def completions(tree):
    """For each shell a script that completes two command lines, and the words that it has to find."""
    share = tree / "share"
    line = "COMP_CWORD=${{#COMP_WORDS[@]}}-1; {}; printf '%s\\n' \"${{COMPREPLY[@]}}\"; "
    bash = share / "bash-completion/completions"
    yield (
        "bash",
        f". {bash}/sm_cli; . {bash}/durkenzo-server; COMP_WORDS=(sm_cli threads --e); {line.format('_sm_cli')}"
        f"COMP_WORDS=(durkenzo-server --log-format ''); {line.format('_durkenzo_server')}",
        ["--explain", "text", "json"],
    )
    fish = share / "fish/vendor_completions.d"
    yield (
        "fish",
        f"source {fish}/sm_cli.fish; source {fish}/durkenzo-server.fish; "
        "complete -C 'sm_cli threads --e' | cut -f 1; complete -C 'durkenzo-server --log-format ' | cut -f 1",
        ["--explain", "json", "text"],
    )
    # zsh's line editor draws the completions; without it, zsh only says whether it can read them.
    yield ("zsh", f"for file in {share}/zsh/site-functions/_*; do zsh -n $file || exit 1; done", [])


def of_debian(folder):
    """lintian finds no fault of the package, in which the units of a cluster are, with their settings."""
    packages = [*folder.glob("*.deb")]
    for package in packages:
        listed = subprocess.run(["dpkg-deb", "--contents", package], capture_output=True, text=True).stdout
        modes = {line.split()[5].removeprefix("."): line.split()[0] for line in listed.splitlines()}
        units = [f"/lib/systemd/system/durkenzo{it}.service" for it in ("", "-cluster", "-etcd")]
        settings = ["/etc/durkenzo/etcd.env", "/etc/durkenzo/server.env", "/etc/durkenzo/tls.conf"]
        lacking = [it for it in units + settings if it not in modes]
        yield verdict("the package's units and settings", not lacking, f"it lacks {', '.join(lacking)}")
        kept = subprocess.run(["dpkg-deb", "--info", package, "conffiles"], capture_output=True, text=True).stdout
        yield verdict("an upgrade leaves settings alone", kept.split() == settings, kept)
        shown = [it for it in settings[:2] if modes.get(it) != "-rw-------"]
        yield verdict("settings with passwords are for root", not shown, f"{', '.join(shown)} may be read by others")
    if packages and shutil.which("lintian"):
        ran = subprocess.run(["lintian", "--fail-on", "error,warning", *packages], capture_output=True, text=True)
        yield verdict("lintian of the package", not ran.returncode, f"{ran.stdout}{ran.stderr}"[-2000:])


def are_proved():
    """Whether the proofs left all that is packed: that they have to is their own part. Each was just proved, or taken
    over as proved, so it is as new as its sources."""
    files = [made.CRATES / it / "out" / name for it, name in made.proved_files()]
    are_there = all(it.is_file() for it in files)
    for file in files if are_there else []:
        file.touch()
    return are_there


def passed(wanted):
    """Yields all parts, for proved packages if all proved files are there, or for packages without proof; nothing if
    cargo or crates are missing."""

    def work(room):
        how = "proved" if wanted == "proved" and are_proved() else "unproved"
        room = pathlib.Path(room) / f"packed-{how}"
        if not shutil.which("cargo") or not other_crates.has_crates():
            return
        try:
            for name in ("one", "two"):
                packing.pack(how == "proved", room / name)
        except made.NotMade as why:
            yield Verdict(f"./dist, {how}", str(why))
            return
        yield is_same(room / "one", room / "two")
        tree = unpacked(room / "one", room / "root")
        yield from libraries(tree, room, room / "one", version_of(how))
        yield from pages(tree, room)
        yield from deployed(tree, room)
        yield from programs(tree, room, how)
        yield from of_debian(room / "one")
        if shutil.which("systemd-analyze"):
            yield tool("unit", tree / "bin/durkenzo-server")

    return work
