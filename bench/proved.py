"""Which crates that benches time are proved and built already: those whose program or library is newer than every
source of theirs and of the crates below them."""
import measure

TOP = measure.beside.TOP


def lines_of(tree):
    """The crates below each crate of the tree's crates.txt, by its name."""
    found = {}
    for line in (tree / "crates.txt").read_text(encoding="utf-8").splitlines():
        name, _, below = line.partition("#")[0].partition(":")
        if name.split():
            found[name.split()[0]] = below.split()
    return found


def with_those_below(tree, crate):
    lines, found = lines_of(tree), [crate]
    for name in found:
        found += [it for it in lines[name] if it in lines and it not in found]
    return found


def built(folder):
    """What a crate in this folder was built into, if it was."""
    made = [folder / "out" / folder.name, folder / "out" / f"lib{folder.name}.a"]
    return next((it for it in made if it.is_file()), None)


def tree_with(crate):
    """The folder that has the crate in crates/, brought up to date where it is a bench's."""
    return measure.beside.refreshed("bench") if crate in measure.beside.listed("bench") else TOP


def is_kept(crate):
    tree = tree_with(crate)
    made = built(tree / "crates" / crate)
    if not made:
        return False
    files = (file for it in with_those_below(tree, crate) for file in (tree / "crates" / it).glob("[sp]*/**/*"))
    sources = (it for it in files if it.suffix in (".rt", ".antt"))
    return all(it.stat().st_mtime <= made.stat().st_mtime for it in sources)
