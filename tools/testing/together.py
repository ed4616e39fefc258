"""Tries the must-fail edits of a crate, many in one check of the prover.

The prover says of each function whether its body meets its contract, and judges a body by the contracts of the
functions that it calls. So a copy of the crate gets several wrong bodies at once, in functions that don't reach one
another by calls, and each of these functions must be refused by itself. An edit is tried alone if it changes a
definition, or if the prover says nothing of its function, or proves it.
"""
import hashlib
import pathlib
import re
import shutil
import signal
import subprocess
import tempfile
import threading

import limited
import must_fail
import sources
from testing import prover
from testing.part import Verdict, passed

# The checksums of the crates whose edits were all refused here.
KEPT = sources.TOP / "out/wrong-bodies"
PARTS = ("src", "specs", "proofs")
# The most edits that are tried at once: further ones would only need more memory.
MOST = 16
JUDGED = re.compile(r"^fn (\S+): (.*)$", re.M)
# The words for a function whose own body is refused. Of one whose callee is refused, the prover says that it calls it.
REFUSED = re.compile(r"not proved|no proof: expected ")
# An error, its file, and the clause that it is about, if it is about one.
ERROR = re.compile(r"^(?:\./)?(\S+?):\d+:\d+: error: (`[^`]*`: )?(.*)", re.M)
# Errors about a clause that are no refusal, as the text can't be read.
UNREAD = re.compile(r"is not in scope|has no field|is no name|operand is missing|expected the end|cannot continue")
# A limit of the prover's own, which it meets wherever it checks the same.
LIMIT = re.compile(r"antt ran out of (stack|the (steps|memory) )|(outgrew the memory limit|stopped at the step limit) \(")


class Trial:
    """The edits of a crate, over the libraries that were built in a tree. They are tried one group after the other, and
    each takes the proofs of those before it."""

    def __init__(self, crate, tree, is_anew=False):
        self.crate, self.tree, self.is_anew = crate, tree, is_anew
        self.process, self.is_stopped, self.turn = None, False, threading.Lock()

    def verdicts(self):
        """Yields a verdict for each edit. If all are refused, that is kept for later runs over the same files."""
        edits, kept, is_well = must_fail.edits_of(self.crate), KEPT / self.checksum(), True
        if not self.is_anew and kept.exists():
            yield from (passed(name_of(it)) for it in edits)
            return
        for verdict in self.found(edits):
            is_well = is_well and verdict.reason is None
            yield verdict
        if is_well:
            KEPT.mkdir(parents=True, exist_ok=True)
            kept.write_text("".join(f"{name_of(it)}\n" for it in edits), encoding="utf-8")

    def checksum(self):
        """Returns a checksum of all on which the verdicts rest."""
        crates = [self.crate, *prover.below(self.crate, prover.listed())]
        folders = [sources.CRATES / it / part for it in crates for part in PARTS]
        files = [it for folder in folders for it in sorted(folder.rglob("*")) if it.is_file()]
        files += [sources.TOP / "crates.txt", *(it.path for it in must_fail.edits_of(self.crate))]
        files += [pathlib.Path(it).resolve() for it in (must_fail.__file__, prover.__file__, __file__)]
        found = hashlib.sha256((prover.KIT / "KIT-ID").read_bytes())
        for file in files:
            found.update(f"{file.relative_to(sources.TOP)}\0{file.stat().st_size}\0".encode() + file.read_bytes())
        return found.hexdigest()

    def found(self, edits):
        alone = [it for it in edits if not it.functions()]
        groups = must_fail.together([it for it in edits if it not in alone], self.crate, MOST)
        with tempfile.TemporaryDirectory(prefix="sm-edit-") as kept:
            for group in groups:
                left = self.left(group, kept)
                yield from (passed(name_of(it)) for it in group if it not in left)
                yield from (self.alone(it, kept) for it in left)
            yield from (self.alone(it, kept) for it in alone)

    def left(self, group, kept):
        """Returns the edits of the group that one check of them all doesn't refuse, each by its own function."""
        functions = sorted({function for edit in group for function in edit.functions()})
        only = [word for it in functions for word in ("--only", it)]
        status, said = self.check(group, ["--incremental", kept, *only])
        if status != 1 or is_unread(group, said):
            return group
        judged = JUDGED.findall(said)
        return [it for it in group if not any(is_refused(function, judged) for function in it.functions())]

    def alone(self, edit, kept):
        """Returns the verdict on an edit that is tried alone: if it isn't refused over the earlier proofs, once more
        from nothing."""
        reason = self.reason(edit, ["--incremental", kept])
        return Verdict(name_of(edit), reason and self.reason(edit, []))

    def reason(self, edit, words):
        status, said = self.check([edit], words)
        last = said.rstrip().rpartition("\n")[2]
        if status == 1 and last.startswith("logic=not-proved") and not is_unread([edit], said):
            return None
        if status == 3 and LIMIT.search(said):
            return None
        if status == 0:
            return "NOT REFUSED: the crate is still proved with this edit"
        return f"BAD EDIT: the prover ended with {status}:\n{said[-2000:]}"

    def check(self, edits, words):
        """Returns the exit status of a check of the crate with these edits, and its output."""
        with tempfile.TemporaryDirectory(prefix="sm-edit-") as room:
            for part in PARTS:
                if (sources.CRATES / self.crate / part).is_dir():
                    shutil.copytree(sources.CRATES / self.crate / part, f"{room}/{part}")
            for file, text in must_fail.edited(edits).items():
                pathlib.Path(room, file).write_text(text, encoding="utf-8")
            command = limited.bound([prover.RATTLE, "check", *prover.words(self.crate, self.tree), *words])
            how = {"stdin": subprocess.DEVNULL, "stdout": subprocess.PIPE, "stderr": subprocess.STDOUT}
            with self.turn:
                if self.is_stopped:
                    return -signal.SIGTERM, "it was stopped"
                self.process = subprocess.Popen(command, cwd=room, text=True, errors="replace", **how)
            said, _ = self.process.communicate()
            return self.process.returncode, said

    def stop(self):
        """Ends the check that runs, and begins no other."""
        with self.turn:
            self.is_stopped = True
            if self.process:
                self.process.terminate()


def is_unread(edits, said):
    """Returns whether the prover couldn't read the text of an edit, so that it tried no contract."""
    changed = {it.file for edit in edits for it in edit.changes}
    errors = [it for it in ERROR.findall(said) if it[0] in changed or it[0].startswith(("src/", "specs/"))]
    return any(not clause or UNREAD.search(re.sub("`[^`]*`", "", text)) for _, clause, text in errors)


def is_refused(function, judged):
    """Returns whether the prover refuses the one function whose name ends so."""
    found = [told for name, told in judged if f"::{name}".endswith(f"::{function}")]
    return len(found) == 1 and bool(REFUSED.match(found[0]))


def name_of(edit):
    return f"must-fail {edit.crate}/{edit.path.name}"
