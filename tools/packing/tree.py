"""The files of a package below its prefix, as they are installed: programs, libraries, headers, pages, completions."""
import os
import pathlib
import shutil
import subprocess
from collections import namedtuple

import exported
from packing import completions, made, manual, notices, told

TOP = made.TOP
FOLDER = TOP / "library"
DOCS = "share/doc/durkenzo"
# A file of a package, or a link, which has a target and no bytes.
File = namedtuple("File", "content mode target", defaults=(0o644, None))
# The places of pages and completions below the prefix, by the name of a program.
MANUAL = "share/man/man1/{}.1"
BASH = "share/bash-completion/completions/{}"
ZSH = "share/zsh/{}/_{}"
FISH = "share/fish/vendor_completions.d/{}.fish"
# The name by which the server's page is found too.
ALIAS = "durkenzo"


class Room:
    """The folder in which packed files are made, and the time that all files have."""

    def __init__(self, folder, epoch):
        self.folder, self.epoch = pathlib.Path(folder), epoch

    def run(self, *words, **how):
        """Runs a command, or raises NotMade with its output."""
        ran = subprocess.run([*map(str, words)], capture_output=True, text=True, stdin=subprocess.DEVNULL, **how)
        if ran.returncode:
            said = f"{ran.stdout[-2000:]}{ran.stderr[-2000:]}"
            raise made.NotMade(f"{said}{words[0]} ended with {ran.returncode}")
        return ran.stdout

    def stripped(self, path, what):
        """Returns the file without the parts that only a debugger reads; an archive has no times."""
        copy = self.folder / "stripped"
        shutil.copyfile(path, copy)
        self.run("strip", "--enable-deterministic-archives", what, copy)
        return copy.read_bytes()


def programs(room, given):
    """The programs, without their symbols."""
    for path in (given.program, given.server):
        yield f"bin/{path.name}", File(room.stripped(path, "--strip-all"), 0o755)


def link(file):
    """Returns the link, which leads to the same place in the package."""
    return File(b"", target=os.readlink(file))


def shared(room, given):
    """Makes `make` build the shared object and the archive of everything; returns the folder."""
    built = room.folder / "library"
    room.run("make", "-C", FOLDER, "all", f"BUILD={built}", f"DURKENZO_LIB={given.libraries}")
    return built


def headers(given):
    """The headers whose calls are in the libraries."""
    has_store = (given.libraries / made.STORE).is_file()
    return [it for it in sorted((FOLDER / "c").glob("*.h")) if has_store or it.name == "durkenzo.h"]


def libraries(room, given):
    """Returns the files that a program in C links, and in lib/durkenzo the files that DURKENZO_LIB names for one in
    Rust."""
    built = shared(room, given)
    for file in sorted(built.glob("libdurkenzo.so*")):
        is_link = file.is_symlink()
        yield f"lib/{file.name}", link(file) if is_link else File(room.stripped(file, "--strip-unneeded"))
    yield "lib/libdurkenzo.a", File(room.stripped(built / "libdurkenzo.a", "--strip-debug"))
    for file in sorted(given.libraries.iterdir()):
        is_archive = file.suffix == ".a"
        content = room.stripped(file, "--strip-debug") if is_archive else file.read_bytes()
        if is_archive or file.name == exported.MARK:
            yield f"lib/durkenzo/{file.name}", File(content)
    for file in headers(given):
        yield f"include/{file.name}", File(file.read_bytes())
    text = (FOLDER / "c/durkenzo.pc.in").read_text(encoding="utf-8")
    # Wherever the tree is unpacked, it is found from this file.
    text = text.replace("@PREFIX@", "${pcfiledir}/../..").replace("@VERSION@", given.version)
    yield "lib/pkgconfig/durkenzo.pc", File(text.encode())


def pages(room, given, zsh_folder):
    """Returns manual pages and completions, made from the help of the programs."""
    script_page = (TOP / "docs/SCRIPT.md").read_text(encoding="utf-8")
    for path in (given.program, given.server):
        said = told.told_by(path)
        page = manual.page(said, given.version, room.epoch, script_page)
        yield MANUAL.format(said.name), File(page.encode())
        yield BASH.format(said.name), File(completions.bash(said).encode())
        yield ZSH.format(zsh_folder, said.name), File(completions.zsh(said).encode())
        yield FISH.format(said.name), File(completions.fish(said).encode())
    yield MANUAL.format(ALIAS), File(f".so man1/{given.server.name}.1\n".encode())


def filled(name, prefix, mode=0o644):
    """A file of the repository, as a unit of systemd, that names programs below this prefix."""
    text = (TOP / name).read_text(encoding="utf-8")
    return File(text.replace("@PREFIX@", prefix).encode(), mode)


def examples():
    """Scripts with their answers."""
    for file in sorted((TOP / "examples").glob("*.in")):
        for one in (file, file.with_suffix(".out")):
            yield f"{DOCS}/examples/{one.name}", File(one.read_bytes())


def texts(names):
    """Pages of the repository, by their names."""
    for name in names:
        yield f"{DOCS}/{name}", File((TOP / name).read_bytes())


def licences():
    """Returns the licences of other people's code in the programs and libraries."""
    yield f"{DOCS}/NOTICES", File(notices.text().encode())


def docs():
    """The names of all pages and pictures."""
    found = sorted(it for it in (TOP / "docs").rglob("*") if it.suffix in (".md", ".svg"))
    return ["README.md", "CHANGELOG.md", "SECURITY.md", *(str(it.relative_to(TOP)) for it in found)]


def deployed():
    """Returns the names of the files that install the units of a cluster, as a page says."""
    return [str(it.relative_to(TOP)) for it in sorted((TOP / "deploy").iterdir())]


def of_archive(room, given):
    """All of a tree that is unpacked anywhere, as into /usr/local."""
    return {
        **dict(programs(room, given)),
        **dict(libraries(room, given)),
        **dict(pages(room, given, "site-functions")),
        **dict(examples()),
        **dict(licences()),
        **dict(texts(["LICENSE", *docs(), *deployed()])),
        "lib/systemd/system/durkenzo.service": filled("server/durkenzo.service.in", "/usr/local"),
    }


def of_debian(room, given):
    """The programs with their unit, pages, docs and completions, below /usr of Debian."""
    return {
        **dict(programs(room, given)),
        **dict(pages(room, given, "vendor-completions")),
        **dict(examples()),
        **dict(licences()),
        **dict(texts(docs())),
    }
