"""The licences of other people's crates in the packages, whose texts must come with them."""
import collections
import pathlib
import re

import exported
import runs
from packing import made

# The names of licence files, and the licence that suffices if there are several.
NAMES = ("LICENSE", "LICENCE", "COPYING", "COPYRIGHT", "UNLICENSE")
SUFFICES = "MIT"
HEAD = "Other people's crates in {}, each under the licence below its name.\n"
LINE = "-" * 100
# The crate in the shared object.
LIBRARY = "sm_c"


def texts_in(folder):
    """The texts of the licence that lies there."""
    found = sorted(it for it in folder.iterdir() if it.name.upper().startswith(NAMES) and it.is_file())
    chosen = [it for it in found if SUFFICES in it.name.upper()] or found
    return [it.read_text(encoding="utf-8", errors="replace").strip() for it in chosen]


def of_server():
    """Yields the crates that cargo takes, with the texts of each, or, if it brings none, the licence of its
    manifest."""
    for package in runs.loaded("licences").packages("durkenzo-server"):
        texts = texts_in(pathlib.Path(package["manifest_path"]).parent)
        yield (
            f"{package['name']} {package['version']}",
            texts or [f"{package['license']}, by {', '.join(package['authors'])}"],
        )


def of_kit(*crates):
    """Yields the toolchain's crates on which these of ours rest, and those below them, with the texts of each. The
    toolchain's own have none."""
    lines = {name: line for it in crates for name, line in exported.crates_below(it).items()}
    found = sorted({it for line in lines.values() for it in line.partition(":")[2].split()} - lines.keys())
    for name in found:
        told = (exported.kit() / f"rlibs/{name}.rlib/format").read_text(encoding="utf-8", errors="replace")
        found += [it for it in re.findall(r"(?m)^dep (\w+)$", told) if it not in found]
        yield f"{name} of Rattle", texts_in(exported.kit() / "rattle" / name)


def gathered(what, crates):
    """All of them, each text once."""
    names_of = collections.defaultdict(list)
    for name, texts in crates:
        for one in texts:
            names_of[one].append(name)
    parts = sorted((", ".join(sorted(names)), one) for one, names in names_of.items())
    return "\n".join([HEAD.format(what), *(f"{LINE}\n{names}\n\n{one}\n" for names, one in parts)])


def text():
    """Returns the notices of everything that is packed."""
    crates = [*of_server(), *of_kit(made.PROGRAM, *exported.CRATES)]
    return gathered("the server, sm_cli and the libraries", crates)


def of_library():
    """Returns the notices of the library for C and Python."""
    return gathered("the library", of_kit(LIBRARY))
