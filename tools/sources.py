"""How the tools of this folder read a crate: its public functions with their clauses, and the definitions of its specs/."""
import functools
import pathlib
import re
from collections import namedtuple

TOP = pathlib.Path(__file__).resolve().parent.parent
CRATES = TOP / "crates"
NAME = re.compile(r"(?<![\w.])[A-Za-z_][\w'-]*(?:\.[A-Za-z_][\w'-]*)*")
IMPORT = re.compile(
    r"^\s*(?:ghost |pub |unfoldable )*use Rattle\.(\w+)\.(specs|proofs)\.([\w.]+?)(?:\.\{([^}]*)\}| as (\w+))?;?\s*$",
    re.M,
)
PUBLIC_FN = re.compile(r"pub (?:const |unsafe )*fn (\w+)")
METHOD = re.compile(r"(?:const |unsafe )*fn (\w+)")
TYPE = re.compile(r"(?m)^pub (?:struct|enum) (\w+)")
IMPL = re.compile(r"impl(?:<.*?>)? (?:[\w:<>, ']+ for )?(\w+)")
TRAIT = re.compile(r"pub trait (\w+)")
CLAUSE = re.compile(r"(?:requires|ensures|ghost)\b")
CLOSERS = (")", "]", "}")
OTHER_ITEM = re.compile(r"(pub )?(use|mod)\b|(pub )?unfoldable use\b")
ITEM = re.compile(r"^(?:(?:pub|abbrev|unfoldable|opaque|data|record)\s+)*([^\s:(){},=]+)")

# A function of Rust: its file, the first line of its impl or trait (none: no such block), the type or the trait of that,
# its name, the lines of its docs, its whole head, the text of its clauses, and its lines of both as they stand.
Function = namedtuple("Function", "file block owner name docs head clauses lines")
# The origin of an imported name: the crate, the module below specs/ and the name there (none: the module itself).
Origin = namedtuple("Origin", "crate module name")


def without_comments(text):
    return re.sub(r"(?m)(^|\s)(//|--).*$", "", text)


def imports_of(text):
    """Returns the origin of each name that the file takes over from some crate's specs/, by the name that it has here."""
    found = {}
    for crate, part, module, names, alias in IMPORT.findall(without_comments(text)):
        if part != "specs":
            continue
        if alias:
            found[alias] = Origin(crate, module, "")
            continue
        for one in filter(None, (it.strip() for it in names.split(","))):
            there, _, here = one.partition(" as ")
            found[here.strip() or there] = Origin(crate, module, there)
    return found


def modules_of(crate):
    """Yields each file of the crate's modules but for tests, and whether the module is public. In a program, above which there is
    no crate, each counts as public."""
    source = CRATES / crate / "src"
    is_program = (source / "main.rt").exists()
    left = [(source / ("main.rt" if is_program else "lib.rt"), source, True)]
    while left:
        file, folder, is_public = left.pop()
        if not file.exists():
            continue
        yield file, is_public
        text = without_comments(file.read_text(encoding="utf-8"))
        for tested, shown, name in re.findall(r"^(#\[cfg\(test\)\]\s*)?(pub )?mod (\w+);", text, re.M):
            passed_on = re.search(r"^pub use (?:self::|crate::)?%s::" % name, text, re.M)
            if not tested:
                left.append(
                    (folder / (name + ".rt"), folder / name, is_program or is_public and bool(shown or passed_on))
                )


def constant(crate, name):
    """Returns the value of a constant of the crate, or None if the crate has no such constant."""
    for path in sorted((CRATES / crate / "src").rglob("*.rt")):
        found = re.search(rf"\bconst {name}: \w+ = ([\d_() <-]+);", path.read_text(encoding="utf-8"))
        if found:
            return eval(found[1].replace("_", ""), {"__builtins__": {}})
    return None


def public_functions(crate):
    """Yields each public function of the crate: those of public modules, the methods of their types wherever these
    stand, and the methods of their traits."""
    files = sorted(modules_of(crate))
    types = {it for file, is_public in files if is_public for it in TYPE.findall(file.read_text(encoding="utf-8"))}
    for file, is_public in files:
        lines = file.read_text(encoding="utf-8").split("\n")
        block, owner, in_trait = None, None, False
        for at, line in enumerate(lines):
            impl, trait = IMPL.match(line), TRAIT.match(line)
            if impl or trait:
                block, owner, in_trait = line, (impl or trait)[1], bool(trait) and is_public
            elif line == "}":
                block, owner, in_trait = None, None, False
            found = PUBLIC_FN.match(line.strip()) or in_trait and METHOD.match(line.strip())
            if found and (is_public or owner in types):
                yield function_at(file, block, owner, found[1], lines, at)


def function_at(file, block, owner, name, lines, at):
    head = head_of(lines[at:])
    first = next((n for n, it in enumerate(head) if CLAUSE.match(it.strip())), len(head))
    clauses = without_comments("\n".join(head[first:]))
    docs = tuple(docs_above(lines, at))
    return Function(file, block, owner, name, docs, "\n".join(head[:first]), clauses, tuple(head))


def docs_above(lines, at):
    """Returns the lines of docs above this one, or above its attributes."""
    start = at
    while lines[start - 1].strip().startswith(("///", "#[")):
        start -= 1
    return [it for it in lines[start:at] if it.strip().startswith("///")]


def head_of(lines):
    """Returns the lines of a function's signature and clauses, which come first."""
    in_clauses, depth = False, 0
    for n, line in enumerate(lines):
        word = line.strip()
        in_clauses = in_clauses or bool(CLAUSE.match(word))
        is_end = word in ("{", "{}") or word.endswith(";") or not in_clauses and word.endswith(("{", "{}"))
        depth += sum((it in "([{") - (it in ")]}") for it in word)
        if is_end and depth == word.endswith("{"):
            return lines[: n + 1]
    return lines


def spec_file(crate, module):
    """Returns the file of a module of the crate's specs/, or of the crate below whose module it passes on."""
    folder = CRATES / crate / "specs"
    file, listed = folder / (module.replace(".", "/") + ".antt"), folder / "Lib.antt"
    if not file.exists() and listed.exists():
        for below, passed in re.findall(
            r"(?m)^pub use Rattle\.(\w+)\.specs\.([\w.]+)$", listed.read_text(encoding="utf-8")
        ):
            if passed.rpartition(".")[2] == module:
                return spec_file(below, passed)
    return file


@functools.cache
def written_items(file):
    """Returns the lines of each item of a file of definitions as they stand, by its name, below the comment above it."""
    items, name, above = {}, None, []
    for line in file.read_text(encoding="utf-8").split("\n"):
        if line.startswith("--"):
            name, above = None, [*above, line]
        elif line[:1].strip() and line[0] not in CLOSERS:
            found = None if OTHER_ITEM.match(line) else ITEM.match(line)
            name = found and found[1]
            if name and name not in items:
                items[name] = above
            above = []
        if name and line.strip():
            items[name].append(line)
        elif not line.strip():
            above = []
    return items


@functools.cache
def items_of(file):
    """Returns the text of each item of a file of definitions, by its name, without comments."""
    texts = {name: without_comments("\n".join(lines)) for name, lines in written_items(file).items()}
    return {name: "".join(f"{it}\n" for it in text.split("\n") if it.strip()) for name, text in texts.items()}


def holder(items, name):
    """Returns the item that has this name, or whose text declares it, as a record its fields and a data type its cases."""
    if name in items:
        return name
    inner = r"(?m)^\s+(?:pub )?(?:\| )?%s\b" % re.escape(name)
    return next((it for it in items if re.search(inner, items[it])), None)


def crates():
    return sorted(it.name for it in CRATES.iterdir() if (it / "src").is_dir())
