"""Packs everything that people are given into out/dist/: an archive, the Rust crate, the Python wheel and a Debian
package.

The archive can be unpacked anywhere, for example into /usr/local: programs, static and shared library, headers,
pkg-config, unit, manual pages, completions, examples, docs and units of a cluster. The crate links the library that
DURKENZO_LIB names: lib/durkenzo of the archive.

It packs proved programs and libraries. With --unproved it builds all of them without proof, and says so in each name,
in --version, in INFO and in the package's description. The same sources, built in the same folder by the same
compilers, give the same bytes, because all times are the time of the last commit, or SOURCE_DATE_EPOCH.
"""
import argparse
import hashlib
import os
import pathlib
import platform
import re
import shutil
import subprocess
import sys
import tempfile

from packing import archives, debian, made, notices, tree
from testing import library

INTO = made.TOP / "out/dist"
CRATE = tree.FOLDER / "rust/durkenzo"
SUMS = "SHA256SUMS"


def epoch():
    """Returns the time of the last commit, or SOURCE_DATE_EPOCH, or the time of the version if there is no
    repository."""
    if given := os.environ.get("SOURCE_DATE_EPOCH"):
        return int(given)
    ran = subprocess.run(["git", "log", "-1", "--format=%ct"], cwd=made.TOP, capture_output=True, text=True)
    return int(ran.stdout) if ran.returncode == 0 else int((made.TOP / "VERSION").stat().st_mtime)


def archive(room, given, into):
    """Writes the archive of all."""
    name = f"durkenzo-{given.version}-linux-{platform.machine()}"
    made_at = into / f"{name}.tar.gz"
    made_at.write_bytes(archives.tarred(tree.of_archive(room, given), name, room.epoch))
    return made_at


def crate(room, given, into):
    """Makes cargo pack the crate, from a copy that has the licence, and the version of the packed library."""
    copy = room.folder / "crate"
    shutil.copytree(CRATE, copy, ignore=shutil.ignore_patterns("target", "out"))
    shutil.copyfile(made.TOP / "LICENSE", copy / "LICENSE")
    manifest = copy / "Cargo.toml"
    text = manifest.read_text(encoding="utf-8")
    text = re.sub(rf'(name = "durkenzo"\nversion = "){re.escape(made.VERSION)}"', rf'\g<1>{given.version}"', text)
    manifest.write_text(text, encoding="utf-8")
    target = room.folder / "target"
    room.run("cargo", "package", "--offline", "--no-verify", "--quiet", "--target-dir", target, cwd=copy)
    made_at = into / f"durkenzo-{given.version}.crate"
    shutil.copyfile(target / "package" / made_at.name, made_at)
    return made_at


def wheel(room, given, into):
    """Makes pip build the wheel; returns nothing if no Python can."""
    python = library.wheel_maker()
    if not python:
        print("dist: no python3 has pip, setuptools and wheel: there is no wheel", file=sys.stderr)
        return None
    built, told = room.folder / "library", room.folder / "NOTICES"
    told.write_text(notices.of_library(), encoding="utf-8")
    words = [f"BUILD={built}", f"PYTHON={python}", f"VERSION={given.version}", f"DURKENZO_LIB={given.libraries}"]
    words.append(f"NOTICES={told}")
    env = {**os.environ, "SOURCE_DATE_EPOCH": str(room.epoch)}
    room.run("make", "-C", tree.FOLDER, "wheel", *words, env=env)
    found = next((built / "wheel").glob("*.whl"))
    return pathlib.Path(shutil.copyfile(found, into / found.name))


def package(room, given, into):
    """Returns the Debian package, or nothing if dpkg-deb isn't installed."""
    if not shutil.which("dpkg-deb"):
        print("dist: dpkg-deb isn't installed: there is no Debian package", file=sys.stderr)
        return None
    return debian.package(room, given, into)


def clear(into):
    """Makes the folder, or removes the files that were packed there before, and nothing else."""
    into.mkdir(parents=True, exist_ok=True)
    before = into / SUMS
    for line in before.read_text(encoding="utf-8").splitlines() if before.is_file() else []:
        (into / pathlib.Path(line.split()[1]).name).unlink(missing_ok=True)
    before.unlink(missing_ok=True)


def pack(is_proved, into):
    """Packs everything into the folder, in place of the files that were packed there before; returns the files."""
    clear(into)
    with tempfile.TemporaryDirectory(prefix="sm-dist-") as folder:
        room = tree.Room(folder, epoch())
        given = made.proved(room.folder) if is_proved else made.unproved(room.folder)
        found = [make(room, given, into) for make in (archive, crate, wheel, package)]
    found = [it for it in found if it]
    sums = "".join(f"{hashlib.sha256(it.read_bytes()).hexdigest()}  {it.name}\n" for it in sorted(found))
    (into / SUMS).write_text(sums, encoding="utf-8")
    return [*found, into / SUMS]


def main():
    parser = argparse.ArgumentParser(
        prog="./dist", description=__doc__, formatter_class=argparse.RawDescriptionHelpFormatter
    )
    parser.add_argument("--unproved", action="store_true", help="packs what is built without proof, and says so")
    parser.add_argument("--into", type=pathlib.Path, default=INTO, help="in place of out/dist")
    given = parser.parse_args()
    # Files that pip puts into a wheel keep their modes.
    os.umask(0o022)
    try:
        for file in pack(not given.unproved, given.into.resolve()):
            print(file)
    except made.NotMade as why:
        print(f"dist: {why}", file=sys.stderr)
        return 1
    return 0
