"""The part of ./test for a built program sm_cli: examples on both engines, exit statuses, and the tools that run it."""
import os
import pathlib
import re
import subprocess

import limited
import runs
import sources
from testing.part import Verdict, passed, verdict

EXAMPLES = sources.TOP / "examples"
# The most bytes that a line of settings may have.
MAX_SETTINGS = 1_048_576
# The most that a run of the program may take, and a tool, which may prove a crate of tests.
SECONDS, TOOL_SECONDS = 600, 3600


def fault_of(command, status, output, complaint="", given=os.devnull, env=None):
    """Runs a command, and returns its fault, or nothing: its exit status, its whole output, or that its standard error
    lacks these words (none: isn't empty)."""
    with open(given, "rb") as stream:
        ran = runs.finished(command, stdin=stream, cwd=sources.TOP, env=env)
    said = ran.complaint.decode(errors="replace")
    shown = f"{' '.join(map(str, command))} <{given}"
    if ran.status != status:
        return f"{shown}: exit status {ran.status}, and not {status}; it said: {said[-400:]}"
    if ran.output != output:
        at = next((n for n, (a, b) in enumerate(zip(ran.output, output)) if a != b), min(len(ran.output), len(output)))
        return f"{shown}: the output differs from the wanted one at line {output[:at].count(10) + 1}"
    if complaint not in said or said and not complaint:
        return f"{shown}: standard error is {said[-400:]!r}, without {complaint!r}"
    return None


def tool(name, *arguments):
    """A tool of tools/ that has to end with 0."""
    command = [str(sources.TOP / "tools" / name), *map(str, arguments)]
    how = {"stdin": subprocess.DEVNULL, "stderr": subprocess.STDOUT, "cwd": sources.TOP}
    try:
        ran = limited.run(limited.bound(command), TOOL_SECONDS, text=True, errors="replace", **how)
        reason = None if ran.returncode == 0 else f"exit status {ran.returncode}\n{ran.stdout[-3000:]}"
    except subprocess.TimeoutExpired as late:
        reason = f"it had not ended after {TOOL_SECONDS} seconds\n{(late.output or '')[-3000:]}"
    return Verdict(" ".join([f"tools/{name}", *map(str, arguments)]), reason)


def status_of(script):
    return 1 if script.name.startswith("bad-") else 0


def wanted_on_threads(script):
    """Returns the output of threads for an example of the model: a line of load runs only there, and isn't given."""
    return script.with_suffix(".out").read_bytes().replace(b"error NotHere\n", b"")


class Program:
    """A program at a path, which was built `how`: proved, by Rattle's own compiler, or unproved."""

    def __init__(self, path, how):
        self.path, self.how = str(path), how

    def examples(self, room):
        """Each example on the model and on threads: its output byte for byte, and its exit status."""
        for script in runs.EXAMPLES:
            named = f"{script.name} on the model"
            yield Verdict(
                named,
                fault_of([self.path, "model"], status_of(script), script.with_suffix(".out").read_bytes(), "", script),
            )
            given = pathlib.Path(room) / "script"
            given.write_bytes(
                b"".join(it for it in script.read_bytes().splitlines(True) if not it.startswith(b"load "))
            )
            named = f"{script.name} on threads"
            yield Verdict(
                named, fault_of([self.path, "threads"], status_of(script), wanted_on_threads(script), "", given)
            )
        for script in runs.THREADS_EXAMPLES:
            yield Verdict(
                script.name, fault_of([self.path, "threads"], 0, script.with_suffix(".out").read_bytes(), "", script)
            )

    def statuses(self, room):
        """The program's other ends: no or unknown words, input that can't be read, output that can't be written."""
        model = [self.path, "model"]
        yield tool("version", self.path)
        yield tool("doc-forms", self.path)
        yield Verdict("no arguments", fault_of([self.path], 2, b"", "sm_cli"))
        yield Verdict("an unknown word", fault_of([self.path, "unknown"], 2, b"", "unknown"))
        silent = fault_of(["sh", "-c", 'exec "$0" unknown 2>/dev/full', self.path], 2, b"")
        yield Verdict("an unknown word of which nobody can be told", silent)
        unread = fault_of(["sh", "-c", 'exec "$0" model </', self.path], 1, b"", "fault Read")
        yield Verdict("input that cannot be read", unread)
        with open("/dev/full", "wb") as full, open(EXAMPLES / "migration.in", "rb") as script:
            ran = subprocess.run(model, stdin=script, stdout=full, stderr=subprocess.PIPE, timeout=SECONDS)
        yield verdict(
            "output that cannot be written",
            (ran.returncode, ran.stderr) == (1, b"fault Write\n"),
            ran.stderr.decode(errors="replace"),
        )
        script = pathlib.Path(room) / "settings"
        for servers, workers in ((65, 1), (9, 8)):
            yield from self.workers(script, servers, workers)
        yield from self.long_settings(script)

    def workers(self, script, servers, workers):
        """More than 64 workers are refused under threads, and the model, which has none, accepts them."""
        words = ["--servers", servers, "--workers", workers, "--domains", 3, "--ranges", 4]
        script.write_bytes(runs.finished([sources.TOP / "tools/settings", *map(str, words)]).output)
        named, refused = f"{servers} servers of {workers} workers", b"settings TooManyWorkers\n"
        yield Verdict(f"{named} on threads", fault_of([self.path, "threads"], 1, refused, "", script))
        yield Verdict(f"{named} on the model", fault_of([self.path, "model"], 0, b"", "", script))

    def long_settings(self, script):
        """A first line of more bytes than settings may have is refused on both engines."""
        script.write_bytes(b" " * (MAX_SETTINGS + 1) + b"\n")
        for engine in ("model", "threads"):
            refused = fault_of([self.path, engine], 1, b"settings TooLong\n", "", script)
            yield Verdict(f"settings of {MAX_SETTINGS + 1} bytes on {engine}", refused)

    def explained(self, engine, script):
        """Returns the program's sentences about a script's refused lines and settings, and on threads its table of
        counts."""
        with open(EXAMPLES / script, "rb") as stream:
            ran = runs.finished([self.path, engine, "--explain"], stdin=stream)
        return ran.complaint.decode(errors="replace").partition("server  answered")

    def explanations(self, _room):
        """The sentences of --explain are the same on both engines; the table behind a migration on threads is the one
        of docs/SCRIPT.md."""
        for script in ("malformed-words.in", "task-approvals.in", "bad-kept.in"):
            alike = self.explained("model", script)[0] == self.explained("threads", script)[0]
            yield verdict(
                f"what is explained of {script} on threads", alike, "it differs from what is explained on the model"
            )
        page = (sources.TOP / "docs/SCRIPT.md").read_text(encoding="utf-8")
        wanted = "".join(page.partition("server  answered")[1:]).partition("\n```")[0]
        told = "".join(self.explained("threads", "migration.in")[1:]).rstrip("\n")
        yield verdict(
            "what is counted on threads",
            bool(wanted) and told == wanted,
            f"docs/SCRIPT.md has\n{wanted}\nand it told\n{told}",
        )
        yield tool("explanations", self.path)
        yield tool("doc-blocks", self.path)

    def scripts(self, *, count, on_threads):
        """Random scripts beside a plain model of docs/SCRIPT.md."""

        def work(_room):
            yield tool("random-scripts", "--scripts", count, self.path)
            yield tool("random-scripts", "--engine", "threads", "--scripts", on_threads, self.path)

        return work

    def spoilt(self, *, every, count, every_on_threads, on_threads):
        """Spoilt scripts beside the same model and one of the settings."""

        def work(_room):
            yield tool("malformed", "--every", every, "--random", count, self.path)
            yield tool(
                "malformed", "--engine", "threads", "--every", every_on_threads, "--random", on_threads, self.path
            )

        return work

    def full_size(self, _room):
        yield tool("full-size", self.path)

    def memory(self, _room):
        """Each allocation is refused in turn, and the memory of a line is counted."""
        few = [EXAMPLES / f"{it}.in" for it in ("bad-kept", "migration", "threads/loads")]
        more = [
            EXAMPLES / f"{it}.in" for it in ("bad-kept", "long-lines", "migration", "moved-memory", "texts-and-scans")
        ]
        yield tool("refuse-memory", self.path, *more)
        yield tool("refuse-memory", "--engine", "threads", "--every", 7, self.path, *few)
        yield tool("allocations", self.path)

    def streams(self, _room):
        """Reads and writes that fail in turn."""
        few = [EXAMPLES / f"{it}.in" for it in ("bad-kept", "migration", "threads/loads")]
        more = [EXAMPLES / f"{it}.in" for it in ("bad-kept", "long-lines", "migration")]
        yield tool("failing-streams", "--calls", 20, self.path, *more)
        yield tool("failing-streams", "--engine", "threads", "--calls", 5, self.path, *few)

    def fuzzed(self, _room):
        yield tool("fuzz", "--minutes", 0.1, self.path)

    def watched(self, _room):
        """Some examples under valgrind: no invalid access, and nothing left at the end."""
        kinds = ["--show-leak-kinds=all", "--errors-for-leak-kinds=all"]
        watch = ["valgrind", "-q", "--leak-check=full", *kinds, "--error-exitcode=99"]
        for name in ("long-lines", "migration", "moved-memory", "texts-and-scans"):
            script = EXAMPLES / f"{name}.in"
            found = fault_of([*watch, self.path, "model"], 0, script.with_suffix(".out").read_bytes(), "", script)
            yield Verdict(f"{name} under valgrind", found)

    def drawn(self, script, engine="model"):
        """Returns the picture that tools/picture draws of an example, and its messages."""
        command = [sources.TOP / "tools/picture", "--engine", engine, "--program", self.path, EXAMPLES / f"{script}.in"]
        return runs.finished(command)

    def pictures(self, _room):
        """The pictures in docs/ are those of their scripts; the bars of a failed server execute nothing; racks are
        shown if they have several servers; and no caption is cut."""
        for script, engine in (
            ("migration", "model"),
            ("rolling-restart", "model"),
            ("threads/restart-under-load", "threads"),
        ):
            page = sources.TOP / "docs" / f"{pathlib.Path(script).name}.svg"
            yield verdict(
                f"docs/{page.name}",
                self.drawn(script, engine).output == page.read_bytes(),
                f"another picture than tools/picture draws of {script}.in",
            )
        failed = self.drawn("failed-owner").output.decode()
        yield verdict("the picture of a failed server", "shard 0: server 2 can't be reached from line 6 on" in failed)
        racks = self.drawn("threads/rack-under-load", "threads").output.decode()
        yield verdict("the picture of racks", [racks.count(f">rack {it}<") for it in (0, 1, 2)] == [2, 2, 0])
        caption = "may be down<"
        yield verdict("a long caption of a picture", caption in racks, f"{caption} isn't in it")
        ran = runs.finished([sources.TOP / "tools/picture", "--program", self.path, EXAMPLES / "bad-kept.in"])
        yield verdict(
            "the picture of settings that aren't accepted",
            (ran.status, ran.output) == (1, b"") and b"./sm check" in ran.complaint,
            ran.complaint.decode(errors="replace"),
        )

    def shell_said(self, lines, *options):
        """Returns the output of the shell for these lines."""
        command = [sources.TOP / "tools/shell", "--program", self.path, *options]
        return runs.finished(command, input="".join(f"{it}\n" for it in lines).encode()).output.decode(errors="replace")

    def shell(self, room):
        """The lines that ./sm shell sends by itself get the wanted answers, and the lines that it saves run again."""
        lines = [
            "assign 0 1",
            "put a x",
            "migrate 0 2",
            "client get a",
            "place!",
            "drain! 2",
            "restart 1",
            "client get a",
            "shards",
            f"save {room}/saved",
            "quit",
        ]
        for engine in ("model", "threads"):
            said = self.shell_said(lines, "--engine", engine, "--servers", "3", "--shards", "2")
            with open(f"{room}/saved", "rb") as saved:
                again = runs.finished([self.path, engine], stdin=saved).output.decode(errors="replace")
            wanted = ("\ntext 1:x @2#1\n", "\ntext 1:x @1#2\n")
            is_well = all(it in said and it in f"\n{again}" for it in wanted) and "\nserver 1 is back" in said
            yield verdict(f"the shell on {engine}", is_well, (said + again)[-2000:])
        yield from self.shell_explains()
        yield from self.shell_goes_on()
        yield from self.shell_spreads()

    def shell_goes_on(self):
        """A restart that was refused its approval, or a move, goes on once it can, and all shards come home."""
        refused = ["assign 0 2", "assign 1 2", "fail 1", "restart 2", "back 1"]
        said = self.shell_said([*refused, "hold 1 2", "restart 2", "free 1", "restart 2", "look 0"], "--shards", "2")
        wanted = (
            "stopped at 'approve 2'. `restart 2` goes on",
            "stopped at 'prepare_add 1 1'.",
            "is back, with 2 shards",
        )
        is_well = all(it in said for it in wanted) and said.splitlines()[-1].startswith("Serving 2 0 idle")
        yield verdict("the shell's restart goes on", is_well, said)

    def shell_explains(self):
        """After a line that is refused the shell says why, shows the shard's stand and gives advice."""
        told = {
            "asign 0 1": 'why: unknown word "asign"; did you mean assign?',
            "servers": "try: help lists the words",
            "look 4096": "why: K is 4096, and may be 0 to 4095",
            "look 8": "there are shards 0 to 7",
            "add 0": "now: shard 0 is Serving, its owner is server 1, and add begins from Forwarding",
            "at 2 get a": "try: ask the owner",
            "approve 3": "try: ask 3, and then approve 3",
        }
        said = self.shell_said(["assign 0 1", *told])
        lacking = [it for it in told.values() if it not in said]
        yield verdict("what the shell explains", not lacking, f"{lacking} isn't in\n{said}")
        many = self.shell_said([], "--engine", "threads", "--servers", "65")
        yield verdict("too many workers in the shell", "65 workers, and threads runs 64" in many, many)

    def shell_spreads(self):
        """Under --spread, the moves of place! and then drain! of a server leave an even load."""
        for server in ("1", "2", "3"):
            said = self.shell_said(["place!", f"drain! {server}"], "--spread", "--servers", "4", "--shards", "10")
            owned = [[int(it) for it in re.findall(r"owns (\d+)", line)] for line in said.split("\n") if "owns" in line]
            is_even = all(sum(it) == 10 and max(it) <= 4 and sorted(it)[1] >= 3 for it in owned)
            yield verdict(f"a drain of server {server} from even capacities", len(owned) == 2 and is_even, said[-500:])


def opens_nothing(path):
    """The program takes no call from the C library that could open a file, start a process or reach a network, and
    makes none itself. Its threads sleep by syscall, which is called with the number of futex alone."""
    from testing import imports

    def work(_room):
        reason = imports.fault_of(path)
        yield passed("what the program calls") if reason is None else Verdict("what the program calls", reason)

    return work
