"""Restores the crates that lie beside the gate: the tests and the benches, which `rt ci` neither proves nor runs.

`rt ci` proves every crate in crates.txt, and refuses a file .rt or .antt, and a second crates.txt, anywhere else. So
these crates have other names there, which it ignores: src/*.rs for .rt, and in specs/ and proofs/ *.antt.txt for .antt.
A list beside them, PART/crates.list, takes the place of crates.txt: a line is the crate's folder below PART and then
its line of crates.txt,

    core            test_core: sm_ownership sm_ranges sm_word
    memory/crate    bench_map staticlib: sm_arena sm_map

and # starts a comment. Other tools call

    refreshed(PART)     to bring the tree of tests or bench up to date; returns its folder, in which crates/NAME are the
                        crates of crates.txt and of PART/crates.list, as copies, beside a crates.txt of both and
                        HANDLES. There each command of `rt` works
    proofs(CRATES)      for the tree of these crates of crates.txt alone, with nothing built and without must-fail/, in
                        which `rt ci` proves, before tools/testing/together.py tries the edits
    folders(PART)       for each crate of PART/crates.list by its name, in the list's order: its folder here
    listed(PART)        for the same with each one's line of crates.txt: name: (folder, line)
    take_back(PART, TREE, CRATE)    to write a crate's files in a tree to its folder in the repository
    wanted(PART)        for the bytes of each file of the tree by its path there; write(PATH, BYTES) writes one

A script calls `python3 tools/beside.py PART`, which writes the folder of the tree after it is up to date. The exit
status is 1 if the list names a folder that isn't there.

Each checkout has its own tree for each part, in durkenzo/ of the user's cache ($XDG_CACHE_HOME, or ~/.cache). A file
that hasn't changed isn't written again. The files that `rt` keeps in the tree's crates/*/out stay, so that a later
proof goes on from there. If you edit a file in a tree, the next call overwrites it.
"""
import fcntl
import hashlib
import os
import pathlib
import shutil
import sys

TOP = pathlib.Path(__file__).resolve().parent.parent
# The name of the tree that has only crates of crates.txt.
PROOFS = "proofs"
# How a file's name ends in the repository and in the tree, by its folder in the crate.
ENDINGS = {"src": (".rs", ".rt"), "specs": (".antt.txt", ".antt"), "proofs": (".antt.txt", ".antt")}


def listed(part):
    """Returns the folder and the line of crates.txt of each crate of the part, by its name."""
    found = {}
    for row in (TOP / part / "crates.list").read_text(encoding="utf-8").split("\n"):
        folder, _, line = row.partition("#")[0].strip().partition(" ")
        if folder:
            found[line.replace(":", " ").split()[0]] = (TOP / part / folder, line.strip())
    return found


def folders(part):
    return {name: folder for name, (folder, _) in listed(part).items()}


def tree_of(part):
    """Returns the folder of the part's tree, whether or not it is there."""
    cache = pathlib.Path(os.environ.get("XDG_CACHE_HOME") or pathlib.Path.home() / ".cache")
    return cache / "durkenzo" / hashlib.sha256(bytes(TOP)).hexdigest()[:16] / part


def name_in_tree(file):
    """Returns a file's name in the tree, from its path in its crate."""
    here, there = ENDINGS.get(file.parts[0], ("", ""))
    return file.with_name(file.name.removesuffix(here) + there) if here and file.name.endswith(here) else file


def files_of(folder):
    """Yields each file of a crate but for those that `rt` made, as its path in the crate."""
    for at, below, names in os.walk(folder):
        here = pathlib.Path(at).relative_to(folder)
        below[:] = [it for it in below if (here / it).parts != ("out",)]
        yield from (here / it for it in names)


def wanted(part):
    """Returns the contents of the part's tree: for each path there the bytes of a file."""
    crates = {it.name: it for it in (TOP / "crates").iterdir() if (it / "src").is_dir()}
    beside = folders(part)
    found = {}
    for name, folder in {**crates, **beside}.items():
        for file in files_of(folder):
            there = name_in_tree(file) if name in beside else file
            found[pathlib.Path("crates", name, there)] = (folder / file).read_bytes()
    lines = [(TOP / "crates.txt").read_text(encoding="utf-8").strip("\n"), *(line for _, line in listed(part).values())]
    return {**found, **at_the_top(lines)}


def wanted_proofs(crates):
    """Returns the contents of the tree in which these crates are proved."""
    lines = (TOP / "crates.txt").read_text(encoding="utf-8").split("\n")
    found = at_the_top(it for it in lines if it and it.replace(":", " ").split()[0] in crates)
    for crate in crates:
        for file in files_of(TOP / "crates" / crate):
            if file.parts[0] != "must-fail":
                found[pathlib.Path("crates", crate, file)] = (TOP / "crates" / crate / file).read_bytes()
    return found


def at_the_top(lines):
    """Returns the contents of the files at the top of a tree, with these lines of crates.txt."""
    handles = (TOP / "HANDLES").read_bytes()
    return {pathlib.Path("crates.txt"): ("\n".join(lines) + "\n").encode(), pathlib.Path("HANDLES"): handles}


def take_back(part, tree, crate):
    """Writes the files of a crate in a tree, as `rt fmt` or `rt check --start` left them, to its folder here."""
    for file in files_of(tree / "crates" / crate):
        here, there = ENDINGS.get(file.parts[0], ("", ""))
        name = file.name.removesuffix(there) + here if here and file.name.endswith(there) else file.name
        write(folders(part)[crate] / file.with_name(name), (tree / "crates" / crate / file).read_bytes())


def remove_others(tree, files):
    """Removes each file of the tree's crates that must not be there, and each crate that has none."""
    crates = {it.parts[1] for it in files if it.parts[0] == "crates"}
    for folder in (tree / "crates").iterdir():
        if folder.name not in crates:
            shutil.rmtree(folder)
            continue
        for file in files_of(folder):
            if folder.relative_to(tree) / file not in files:
                (folder / file).unlink()


def write(file, text):
    """Writes a file, unless it has these bytes already."""
    if not file.is_file() or file.read_bytes() != text:
        file.parent.mkdir(parents=True, exist_ok=True)
        file.write_bytes(text)


def proofs(crates):
    """Brings the tree in which these crates are proved up to date, and returns its folder."""
    tree = filled(tree_of(PROOFS), lambda: wanted_proofs(crates))
    for built in tree.glob("crates/*/out"):
        shutil.rmtree(built)
    return tree


def refreshed(part):
    """Brings the part's tree up to date, and returns its folder. Of two that do so at once the second waits."""
    return filled(tree_of(part), lambda: wanted(part))


def filled(tree, contents):
    (tree / "crates").mkdir(parents=True, exist_ok=True)
    with open(tree / ".lock", "w") as lock:
        fcntl.flock(lock, fcntl.LOCK_EX)
        files = contents()
        remove_others(tree, files)
        for path, text in files.items():
            write(tree / path, text)
    return tree


def main():
    parts = sorted(it.parent.name for it in TOP.glob("*/crates.list"))
    if len(sys.argv) != 2 or sys.argv[1] not in parts:
        sys.exit("usage: python3 tools/beside.py " + "|".join(parts))
    lost = [str(it) for it in folders(sys.argv[1]).values() if not (it / "src").is_dir()]
    if lost:
        sys.exit("no crate stands in " + ", ".join(lost))
    print(refreshed(sys.argv[1]))


if __name__ == "__main__":
    main()
