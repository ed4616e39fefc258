"""The must-fail edits of the proved crates: wrong bodies, each in a file of its own, that the prover must refuse."""
import pathlib
import re
from collections import namedtuple

import sources

FUNCTION = re.compile(r"\bfn (\w+)")
BLOCK = re.compile(r"(?m)^(?:pub )?(?:unsafe )?(?:impl|trait)\b([^{;]*)")
CALL = re.compile(r"\b(\w+)(?=\s*(?:::<[^()]*>)?\()")
# The parameters of a type, the innermost first.
PARAMETERS = re.compile(r"<[^<>]*>")

# A change of an edit: the file, the text that comes once in it, and the text that takes its place.
Change = namedtuple("Change", "file old new")


class Edit:
    """A wrong body: its crate, its name and its changes."""

    def __init__(self, crate, path):
        self.crate, self.name, self.path, self.changes = crate, path.stem, path, []
        file = old = None
        for line in path.read_text(encoding="utf-8").splitlines():
            word, _, rest = line.partition(":")
            text = rest.removeprefix(" ")
            if word == "file":
                file = text.strip()
            elif word == "old":
                old = text
            elif word == "new":
                self.changes.append(Change(file, old, text))

    def misses(self):
        """Returns the old texts that don't come exactly once in their file, after the changes before them."""
        texts, misses = {it.file: read(self.crate, it.file) for it in self.changes}, []
        for file, old, new in self.changes:
            misses += [old] if texts[file].count(old) != 1 else []
            texts[file] = texts[file].replace(old, new, 1)
        return misses

    def spans(self):
        """Returns where the changes stand in the files as they are, each with its file, start, end and new text; none
        if a change needs one before it."""
        found = []
        for file, old, new in self.changes:
            text = read(self.crate, file)
            if text.count(old) != 1:
                return []
            found.append((file, text.index(old), text.index(old) + len(old), new))
        return found

    def functions(self):
        """Returns the ends of the names, as the prover prints them, of the functions whose bodies this changes: none if
        it changes a definition, so that any function may be refused."""
        spans = self.spans()
        if not spans or any(not file.startswith(("src/", "proofs/")) for file, *_ in spans):
            return set()
        names = [self.function_at(*it) for it in spans if it[0].startswith("src/")]
        return set() if None in names else set(names)

    def function_at(self, file, start, end, new):
        """Returns the end of the name of the function that has this text: the one that the new text declares, or else
        the one in which it stands."""
        text = read(self.crate, file)
        text = text[:start] + new + text[end:]
        declared = FUNCTION.findall(new)
        before = list(FUNCTION.finditer(text, 0, start + len(new)))
        if len(declared) > 1 or not before:
            return None
        return f"{block_of(text, before[-1].start()) or self.module_of(file)}::{before[-1][1]}"

    def module_of(self, file):
        """Returns the end of the name of a file's module."""
        path = pathlib.PurePath(file)
        named = path.parent.name if path.stem == "mod" else path.stem
        return self.crate if file in ("src/lib.rt", "src/main.rt") else named


def block_of(text, at):
    """Returns the name of the impl or trait in which this place of a file stands, as the prover prints it, if it stands
    in one."""
    heads = [it for it in BLOCK.finditer(text, 0, at) if "\n}" not in text[it.end() : at]]
    if not heads:
        return ""
    head, shorter = None, heads[-1][1]
    while head != shorter:
        head, shorter = shorter, PARAMETERS.sub("", shorter)
    trait, _, owner = head.split(" where ")[0].strip().rpartition(" for ")
    return f"{owner.split('::')[-1].strip()}{trait.split('::')[-1].strip()}"


def read(crate, file):
    return (sources.CRATES / crate / file).read_text(encoding="utf-8")


def edits_of(crate):
    """Returns the edits of a crate by their names."""
    return [Edit(crate, it) for it in sorted((sources.CRATES / crate / "must-fail").glob("*.edit"))]


def called(crate):
    """Returns the names of all functions that each function of the crate reaches by calls, by its name: too many, as
    functions of one name are taken as one."""
    direct = {}
    for path in (sources.CRATES / crate / "src").rglob("*.rt"):
        text = path.read_text(encoding="utf-8")
        heads = list(FUNCTION.finditer(text))
        for head, after in zip(heads, [*heads[1:], None]):
            body = text[head.end() : after.start() if after else len(text)]
            direct.setdefault(head[1], set()).update(CALL.findall(body))
    return {name: reached(name, direct) for name in direct}


def reached(name, direct):
    found, left = set(), [name]
    while left:
        more = direct[left.pop()] & direct.keys() - found
        found |= more
        left += more
    return found


def together(edits, crate, most):
    """Returns these edits in groups, each of which can be tried at once: at most `most` edits whose functions differ
    and don't reach one another, so that the prover judges each body as if it alone were wrong."""
    reach, groups = called(crate), []
    names = {it.name: {function.split("::")[-1] for function in it.functions()} for it in edits}

    def touches(one, other):
        pairs = [(a, b) for a in names[one.name] for b in names[other.name]]
        return any(a == b or b in reach.get(a, ()) or a in reach.get(b, ()) for a, b in pairs)

    for edit in edits:
        fits = (it for it in groups if len(it) < most and not any(touches(edit, other) for other in it))
        if group := next(fits, None):
            group.append(edit)
        else:
            groups.append([edit])
    return groups


def edited(edits):
    """Returns the texts of the files that these edits of a crate change, with all their changes: where each edit's
    changes stand in the files as they are, or one after the other if it is the only one."""
    if len(edits) == 1:
        texts = {it.file: read(edits[0].crate, it.file) for it in edits[0].changes}
        for file, old, new in edits[0].changes:
            texts[file] = texts[file].replace(old, new, 1)
        return texts
    spans = sorted((it for edit in edits for it in edit.spans()), key=lambda it: (it[0], -it[1]))
    texts = {file: read(edits[0].crate, file) for file, *_ in spans}
    for file, start, end, new in spans:
        texts[file] = texts[file][:start] + new + texts[file][end:]
    return texts
