"""The packed programs and libraries: proved ones, or, if that is asked for, ones that were built without proof."""
import pathlib
import shutil
import tempfile
from dataclasses import dataclass

import exported
import other_crates
import runs

TOP = runs.TOP
CRATES = TOP / "crates"
PROGRAM = "sm_cli"
# The library of a store's servers, whose headers are packed if it is there.
STORE = "libsm_driver.a"
VERSION = (TOP / "VERSION").read_text(encoding="utf-8").strip()
# The end of a version if a part wasn't proved: in each name, and in the output of the programs.
UNPROVED = "+unproved"


class NotMade(Exception):
    """A file that must be packed isn't there, because this is missing."""


@dataclass(frozen=True)
class Made:
    """The files that are packed: a program, the folder of the static libraries, and the server, all of one version."""

    version: str
    program: pathlib.Path
    libraries: pathlib.Path
    server: pathlib.Path


def newer(crate, built):
    """Returns a source of the crate, or of one below it, that is newer than the built file, or None."""
    if not built.is_file():
        return built
    at = built.stat().st_mtime
    folders = (CRATES / it / part for it in exported.crates_below(crate) for part in ("src", "specs", "proofs"))
    files = (file for folder in folders for file in folder.rglob("*") if file.suffix in (".rt", ".antt"))
    return next((it for it in files if it.stat().st_mtime > at), None)


def proved_file(crate, name):
    """A file that the proof of the crate left, or raises NotMade."""
    built = CRATES / crate / "out" / name
    if (why := newer(crate, built)) is None:
        return built
    lack = "isn't there" if why == built else f"is older than {why.relative_to(TOP)}"
    raise NotMade(f"{built.relative_to(TOP)} {lack}: ./test proves it, and ./dist --unproved packs what isn't proved")


def server_over(libraries=None):
    """The server over the libraries in this folder, or over the proved ones."""
    serve = runs.loaded("serve")
    if not shutil.which("cargo") or not other_crates.has_crates():
        raise NotMade("the server needs cargo, and crates: tools/setup installs them")
    try:
        return serve.built(lambda: libraries) if libraries else serve.built()
    except serve.Missing as missing:
        raise NotMade(missing) from None


def proved_files():
    """Returns the results of the proofs that are packed: the program and the static libraries, each by its crate and
    its name."""
    return [(PROGRAM, PROGRAM), *((it, exported.library_of(it)) for it in exported.CRATES)]


def proved(room):
    """Returns the proved files; the libraries are gathered in a folder of the room."""
    (_, program), *archives = [(name, proved_file(crate, name)) for crate, name in proved_files()]
    libraries = room / "libraries"
    libraries.mkdir(exist_ok=True)
    for name, file in archives:
        shutil.copyfile(file, libraries / name)
    shutil.copyfile(exported.kit() / "c" / exported.OF_THE_KIT, libraries / exported.OF_THE_KIT)
    return Made(VERSION, program, libraries, server_over())


def make_marked(folder):
    """Builds the program without proof, out of a copy of its sources whose version says so."""
    unproved = runs.loaded("unproved")
    with tempfile.TemporaryDirectory(prefix="sm-marked-") as room, unproved.counted_seconds("program"):
        room = pathlib.Path(room)
        lines = exported.crates_below(PROGRAM)
        for crate in lines:
            shutil.copytree(CRATES / crate / "src", room / "crates" / crate / "src")
        shutil.copyfile(TOP / "HANDLES", room / "HANDLES")
        (room / "crates.txt").write_text("".join(f"{it}\n" for it in lines.values()), encoding="utf-8")
        main = room / "crates" / PROGRAM / "src/main.rt"
        text = main.read_text(encoding="utf-8")
        main.write_text(text.replace(f'"{VERSION}"', f'"{VERSION}{UNPROVED}"'), encoding="utf-8")
        unproved.build(PROGRAM, folder / PROGRAM, room / "crates" / PROGRAM)


def unproved(_room):
    """Returns the files that are built without proof, and kept by their sources."""
    tool = runs.loaded("unproved")
    sources = sorted(it for crate in exported.crates_below(PROGRAM) for it in (CRATES / crate / "src").rglob("*.rt"))
    try:
        libraries = tool.kept_library()
        program = tool.kept("unproved-marked", [pathlib.Path(__file__).resolve(), *sources], make_marked) / PROGRAM
    except exported.NotBuilt as why:
        raise NotMade(why) from None
    return Made(VERSION + UNPROVED, program, libraries, server_over(libraries))
