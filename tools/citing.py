"""Finds the definitions, types and members of traits that the contracts of public functions cite, and those that these
cite in turn.

It goes by names. The imports of a file resolve each name in it; a name that is bound in the file itself cites nothing.
"""
import functools
import re
from collections import namedtuple

import sources

VIEW = re.compile(r"^impl(?:<[^\n]*?>)? Model for (\w+).*?^}", re.S | re.M)
MEMBER_OF_VIEW = re.compile(r"^    ghost (?:Value|view) = \{.*?\};$", re.S | re.M)
RUST_USE = re.compile(r"^(?:pub )?use ([\w:]+?)::(?:\{([^}]*)\}|(\w+));", re.M)
BOUND = re.compile(r"\b(\w+): ([A-Z][\w+ :<>]*)")
RUST_ITEM = re.compile(r"^pub (struct|enum|type|trait|const) (\w+)")
MEMBER = re.compile(r"(?m)^    (?:ghost|type|const) (\w+)\b")
# Names that are bound: by λ, in a binder, by let, and as a field of a record.
LAMBDA = re.compile(r"λ ((?:\([^()]*\)|[^().])+)\.(?=\s)")
BINDER = re.compile(r"[({]([a-z_][\w' ]*?) : ")
LET = re.compile(r"\blet (\w+)\b")
FIELD = re.compile(r"(?m)(?<=[{;])(\s*)\w+ =(?=\s)|^(\s+)(?:pub )?[a-z]\w* :(?=\s)")
LOWER = re.compile(r"(?<![\w.])[a-z_][\w'-]*")

# A type, a trait or a constant of Rust: its crate, its file, and its name.
Declared = namedtuple("Declared", "crate file name")


@functools.cache
def declared_in(crate):
    """Returns the public types, traits and constants of a crate, by their names."""
    found = {}
    for file in sorted((sources.CRATES / crate / "src").rglob("*.rt")):
        for line in text_of(file).split("\n"):
            if item := RUST_ITEM.match(line):
                found.setdefault(item[2], Declared(crate, file, item[2]))
    return found


@functools.cache
def text_of(file):
    return file.read_text(encoding="utf-8")


@functools.cache
def imports_of(file):
    return sources.imports_of(text_of(file))


@functools.cache
def rust_names(file):
    """Returns the types, traits and constants that a file of Rust names, by their names there."""
    own = file.relative_to(sources.CRATES).parts[0]
    found = dict(declared_in(own))
    for path, names, one in RUST_USE.findall(text_of(file)):
        crate = path.split("::")[0]
        crate = own if crate in ("crate", "self", "super") else crate
        if crate in sources.crates():
            for name in filter(None, (it.strip() for it in (names or one).split(","))):
                there, _, here = name.partition(" as ")
                if there in declared_in(crate):
                    found[here or there] = declared_in(crate)[there]
    return found


def declaration(it):
    """Returns the lines of a type, a trait or a constant of Rust, with its docs; of a type with private fields its first
    line, and the value that contracts see."""
    lines = text_of(it.file).split("\n")
    at = next(n for n, line in enumerate(lines) if (found := RUST_ITEM.match(line)) and found[2] == it.name)
    is_whole = lines[at].endswith((";", "}"))
    last = at if is_whole else next(n for n in range(at, len(lines)) if lines[n] in ("}", ");", "];"))
    body = lines[at : last + 1]
    if body[0].startswith("pub struct"):
        fields = [line for line in body[1:-1] if line.strip() and not line.strip().startswith(("///", "#["))]
        if not all(line.strip().startswith("pub ") for line in fields) or "(" in body[0]:
            body = [re.sub(r"\s*[({].*$", "", body[0]) + " { .. }"]
    return [*sources.docs_above(lines, at), *body, *view_of(it)]


def view_of(it):
    """Returns the lines of the value of a type that contracts see, and of how it is made; no lines if it has no other
    value."""
    found = next((view for view in VIEW.finditer(text_of(it.file)) if view[1] == it.name), None)
    members = MEMBER_OF_VIEW.findall(found[0]) if found else []
    return [found[0].split("\n")[0], *"\n".join(members).split("\n"), "}"] if members else []


@functools.cache
def members_of(trait):
    """Returns the lines of each ghost member, type and constant of a trait, with its docs, by its name."""
    lines, found = declaration(trait), {}
    for at, line in enumerate(lines):
        if (item := MEMBER.match(line)) and not line.strip().startswith("ghost use"):
            end = next(n for n in range(at, len(lines)) if lines[n].endswith(";"))
            found.setdefault(item[1], []).extend([*sources.docs_above(lines, at), *lines[at : end + 1]])
    return found


def bounds_in(text):
    """Returns the traits by which each parameter of a type is bound."""
    return {name: re.findall(r"\b[A-Z]\w+", traits) for name, traits in BOUND.findall(text)}


def names_in(text):
    """Returns the names that a text cites, as they come."""
    found = {}
    for clause in re.split(r"\n(?=\S)", text):
        bound = set()
        head = re.match(r"(?!abbrev|pub|record|data)\S[^=]*?(?= =\s)", clause)
        bound.update(LOWER.findall(head[0])[1:] if head else [])
        for binder in [*LAMBDA.findall(clause), *BINDER.findall(clause), *LET.findall(clause)]:
            bound.update(LOWER.findall(binder.partition(":")[0].replace("(", " ")))
        names = sources.NAME.findall(FIELD.sub(r"\1\2", clause))
        found.update(dict.fromkeys(it for it in names if it.split(".")[0] not in bound))
    return found


class Walk:
    """Walks from the names that contracts cite to everything on which these rest."""

    def __init__(self):
        self.definitions = {}  # by file and name: which ones each cites
        self.types, self.members = {}, {}  # in the order in which they were met
        self.left = []

    def begin(self, function):
        """Walks from a function's contract; returns the definitions that it cites."""
        cited = {}
        self.cite(function.clauses, imports_of(function.file), None, cited)
        head = f"{function.block or ''}\n{function.head}"
        self.declare(re.findall(r"\b[A-Z]\w+", head), function.file, cited)
        self.cite_members(function.clauses, bounds_in(head), function.file, cited)
        return cited

    def declare(self, names, file, cited):
        """Notes the types of these names in a file of Rust, and the names that they cite."""
        known = rust_names(file)
        for it in (known[name] for name in names if name in known):
            if it not in self.types and not text_of(it.file).count(f"\npub trait {it.name}"):
                self.types[it] = None
                lines = declaration(it)
                code = "\n".join(line for line in lines if not line.strip().startswith("///"))
                self.cite(code, imports_of(it.file), None, cited)
                self.declare(re.findall(r"\b[A-Z]\w+", code), it.file, cited)

    def cite_members(self, text, bounds, file, cited):
        """Notes the members of traits that a text names by parameters of types that are bound by them."""
        for first, rest in re.findall(r"(?<![\w.])([A-Z]\w*)\.([\w.]+)", text):
            for trait in (rust_names(file).get(it) for it in bounds.get(first, [])):
                if trait:
                    self.member(trait, rest, cited)

    def member(self, trait, path, cited):
        name, _, rest = path.partition(".")
        lines = members_of(trait).get(name)
        if not lines:
            return
        text = "\n".join(it for it in lines if not it.strip().startswith("///"))
        if name not in self.members.setdefault(trait, {}):
            self.members[trait][name] = None
            self.cite(text, imports_of(trait.file), None, cited)
            for other in re.findall(r"\bSelf\.([\w.]+)", text):
                self.member(trait, other, cited)
        bound = re.match(r"    type \w+: (\w+)", text)
        if rest and bound and bound[1] in rust_names(trait.file):
            self.member(rust_names(trait.file)[bound[1]], rest, cited)

    def cite(self, text, known, here, cited):
        """Notes all names in a text, by the names that its file imports and those that it defines itself."""
        for name in names_in(text):
            first, _, rest = name.partition(".")
            if first in known:
                self.origin(known[first], rest.partition(".")[0], cited)
            elif here and first in sources.written_items(here):
                self.define(here, first, cited)

    def origin(self, origin, rest, cited):
        if origin.crate not in sources.crates() or origin.module.startswith("contracts"):
            return
        parts = origin.module.split(".")
        if parts[0] == "declared":
            name = {"TheConstants": origin.name or rest, "TheVariants": parts[-2]}.get(parts[-1], parts[-1])
            if it := declared_in(origin.crate).get(name):
                self.declare([name], it.file, cited)
            return
        path = sources.spec_file(origin.crate, origin.module)
        if path.exists():
            self.define(path, sources.holder(sources.items_of(path), origin.name or rest), cited)

    def define(self, path, name, cited):
        if not name:
            return
        cited[path, name] = None
        if (path, name) not in self.definitions:
            below = self.definitions[path, name] = {}
            self.cite(sources.items_of(path)[name], imports_of(path), path, below)
            below.pop((path, name), None)


def selected(words):
    """Returns the public functions that these words name: CRATE, CRATE::TYPE, CRATE::FUNCTION or CRATE::TYPE::FUNCTION."""
    found = []
    for word in words:
        crate, *names = word.split("::")
        here = [
            it for it in sources.public_functions(crate) if names in ([], [it.owner], [it.name], [it.owner, it.name])
        ]
        if not here:
            raise SystemExit(f"{crate} has no public function {word}")
        found += [it for it in here if it not in found]
    return found


def from_above(definitions, first):
    """Returns the definitions file by file, in an order in which each comes after all that cite it. The first are those
    that contracts cite; two that cite each other keep their order."""
    files = {}
    for one, cited in definitions.items():
        files.setdefault(one[0], set()).update(it[0] for it in cited if it[0] != one[0])
    order = []
    for file in topmost_first(files, dict.fromkeys(it[0] for it in first)):
        own = [(file, name) for name in sources.written_items(file) if (file, name) in definitions]
        below = {it: definitions[it] for it in own}
        order += topmost_first(below, [it for it in first if it in below])
    return order


def topmost_first(below, first):
    """Returns the keys in an order in which each comes after all below which it is, near the last of these."""
    above = {it: {one for one in below if it in below[one] and it != one} for it in below}
    order, left = [], dict.fromkeys([*first, *below])
    while left:
        ready = [it for it in left if not above[it] & left.keys()] or list(left)[:1]
        last = {it: max((order.index(one) for one in above[it] if one in order), default=-1) for it in ready}
        one = max(ready, key=last.get)
        order.append(one)
        del left[one]
    return order
