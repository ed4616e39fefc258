"""A trial of a cluster over etcd by faults: clients record their answers, while nemeses disturb the processes."""
import contextlib
import pathlib
import random
import re
import subprocess
import tempfile
import time

import local_processes
import nemeses
import phases
import recording
import relay

# Before the clients end, nothing is disturbed for this long, if they work long enough.
CALM = 8
EPOCH, PATIENCE = 10, 5
# How many milliseconds a command waits if none may be refused, because a busy machine must not refuse it either.
GRACEFUL_WAIT = 4_000
# How many faults of one kind are printed.
MOST = 5
# How many seconds it may take until everything runs, until clients have read all keys a last time and each is judged,
# and for everything else.
BEGIN, JUDGING, SLOW = 300, 300, 240
# The clients' exit statuses if nothing wrong was found, but a key isn't answered any more, or not all keys are decided.
UNREAD, UNDECIDED = 3, 4
UNREAD_KEYS, UNDECIDED_KEYS = r"(\d+) keys could not be read", r"(\d+) undecided"
HEAD = (
    "| nemesis | minutes | calls | unknown | refused | faults | moves, restarts | linearizable | longest, ms | records |\n"
    "|---|---|---|---|---|---|---|---|---|---|"
)


class ClusterTrial:
    """One run: the nemeses that work, for how long, on how many processes, and the results."""

    def __init__(self, given, trial, program, planting=None):
        self.given, self.trial, self.program, self.planting = given, trial, program, planting
        self.chance, self.kinds = random.Random(given.seed), self.chosen(given.nemesis)
        self.seconds = max(1, round(60 * given.minutes))
        self.others, self.moves, self.said, self.replay = [], None, [], ("", True)
        self.phases, self.early = None, []

    @staticmethod
    def chosen(words):
        """The kinds that these words name, without those that this machine can't have, which is said."""
        kinds = [*nemeses.KINDS] if words == "all" else words.split(",")
        if unknown := [it for it in kinds if it not in nemeses.KINDS]:
            why = f"there is no nemesis {unknown[0]}: there are all, {', '.join(nemeses.KINDS)}"
            raise local_processes.NotBegun(why)
        lacking = {it: nemeses.lacking(it) for it in kinds}
        for it in filter(None, lacking.values()):
            print(f"trial: {it}", flush=True)
        return [it for it in kinds if not lacking[it]]

    def run(self):
        """Runs it, prints its line of the table, and returns the exit status: 1 if something is wrong."""
        replay = None if self.given.no_replay else recording.program()
        at = {"prefix": "sm-trial-", "dir": self.given.room}
        with tempfile.TemporaryDirectory(**at) as room, contextlib.ExitStack() as stack:
            at = stack.enter_context(phases.Phases())
            at.begin("begin", BEGIN)
            needs_relays = self.planting or {"cut", "delay"} & {*self.kinds}
            relays = stack.enter_context(relay.Relays(self.planting or (lambda name: None))) if needs_relays else None
            running = stack.enter_context(self.fleet(pathlib.Path(room), relays))
            recorder = stack.enter_context(recording.Recorder(running))
            clients = self.begin_clients(running)
            stack.callback(clients.kill)
            self.begin_nemeses(running)
            at.begin("calls", self.seconds + SLOW, self.how_far)
            self.disturb(running, clients)
            at.begin("judging", JUDGING + SLOW)
            told = self.told_by(clients)
            at.begin("records", SLOW)
            self.see(recorder, replay)
            if self.given.logs:
                keep_logs(running, recorder, self.given.logs)
            at.begin("end", SLOW)
            running.stop()
            self.phases = at
        return self.tell(told, clients.returncode)

    def told_by(self, clients):
        """Returns the output of the clients and their checker, which are ended if they take too long."""
        try:
            return clients.communicate(timeout=JUDGING)[0]
        except subprocess.TimeoutExpired:
            clients.kill()
            self.said.append(f"the clients and their checker were ended after {JUDGING} s: no key is decided")
            return clients.communicate()[0]

    def how_far(self):
        """Returns how many faults the nemeses have made so far."""
        moves = self.moves
        moved = f", {moves.moved} moves, {moves.restarted} restarts, {moves.spread} spreads" if moves else ""
        return f"{sum(it.faults for it in self.others)} faults{moved}"

    def fleet(self, room, relays):
        etcd_options, env = nemeses.prepared(self.kinds, room)
        options = ["--shards", self.given.shards, "--lease", self.given.lease, *self.given.option]
        if self.kinds == ["moves"] and not any(it.startswith("--wait") for it in self.given.option):
            options += ["--wait", GRACEFUL_WAIT]
        how = {"options": options, "etcd_options": [*map(str, etcd_options)], "env": env, "relays": relays}
        return local_processes.Fleet(room, self.program, self.given.members, self.given.servers, **how)

    def begin_clients(self, running):
        """Some call each server, some follow routes, and some number their requests."""
        given = self.given
        words = {
            "address": ",".join(f"{local_processes.HOST}:{it.port}" for it in running.servers), "seconds": self.seconds,
            "clients": given.clients, "followers": given.followers, "numbered": given.numbered, "keys": given.keys,
            "readers": given.readers,
            "epoch": EPOCH, "patience": PATIENCE, "shards": 0, "seed": given.seed, "judging": JUDGING - SLOW // 2,
        }  # fmt: skip
        if given.logs:
            words["unexplained"] = given.logs
        command = [self.trial, *(f"--{name}={value}" for name, value in words.items())]
        return subprocess.Popen(command, stdout=subprocess.PIPE, text=True, preexec_fn=local_processes.ended_with_us)

    def begin_nemeses(self, running):
        made = {it: nemeses.KINDS[it](running, self.chance, self.given.lease) for it in self.kinds}
        for it in made.values():
            it.shards = self.given.shards
        self.moves = made.pop("moves", None)
        self.others = [*made.values()]
        if self.moves:
            self.moves.has_faults = bool(self.others)
            self.moves.thread.start()

    def disturb(self, running, clients):
        """Has the nemeses work in turn by chance until the time is nearly over; then nothing is disturbed any more."""
        end = time.monotonic() + self.seconds - min(CALM, self.seconds / 3)
        # A restart takes about as long as a fault.
        turning, left = [*self.others, self.moves] if self.moves else self.others, []
        time.sleep(1)
        try:
            while time.monotonic() < end and clients.poll() is None:
                # Each has its turn before one has another.
                left = left or self.chance.sample(turning, len(turning))
                left.pop().turn()
        finally:
            if self.moves:
                self.moves.is_over.set()
                self.moves.thread.join()
        for it in [*running.members, *running.servers]:
            if not it.is_alive():
                self.said.append(f"{it.name} ended with {it.run.returncode}, and is begun again:\n{it.said()}")
                it.begin()

    def see(self, recorder, program):
        """Judges the changes of records that were recorded."""
        if not recorder.caught_up(30):
            self.said.append("the last changes of records weren't told in time")
        if program:
            self.replay = recording.replayed(recorder.changes(), program)
        if missing := recorder.missing():
            self.said.append(f"records: {missing} changes were compacted before they were told")
        self.early = recording.dropped_early(recorder.told)

    def tell(self, told, status):
        """Prints the faults that were found and the line of the table; returns the exit status."""
        of = lambda pattern: int((re.search(pattern, told) or [0, 0])[1])
        refused, is_graceful = of(r"(\d+) refused"), not self.others and not self.planting
        told_lines = told.splitlines() if status or self.given.verbose or refused else []
        for line in [*self.said, *self.early[:MOST], *told_lines]:
            print(line)
        if not self.replay[1]:
            print(self.replay[0])
        if self.planting:
            print(f"the planted bug changed {self.planting.acts()} transactions or answers")
        moved = f"{self.moves.moved}, {self.moves.restarted}" if self.moves else "0, 0"
        if self.moves and self.moves.said:
            print("commands refused: " + ", ".join(f"{name}: {count}" for name, count in self.moves.said.items()))
        verdicts = {0: "yes", UNREAD: f"yes, {of(UNREAD_KEYS)} unread", UNDECIDED: f"{of(UNDECIDED_KEYS)} undecided"}
        row = [
            self.given.nemesis, f"{self.given.minutes:g}", of(r"(\d+) calls"), of(r"(\d+) without answer"), refused,
            sum(it.faults for it in self.others), moved, verdicts.get(status, "NO"),
            of(r"(\d+) ms is the longest"), self.replay[0].splitlines()[-1] if self.replay[0] else "not replayed",
        ]  # fmt: skip
        print(f"seconds: {self.phases.told()}")
        print(HEAD)
        print("| " + " | ".join(map(str, row)) + " |", flush=True)
        if is_graceful and refused:
            print(f"without faults {refused} calls were refused")
        is_wrong = status not in verdicts or not self.replay[1] or self.early or is_graceful and refused
        return 1 if is_wrong else UNDECIDED if status else 0


def keep_logs(running, recorder, folder):
    """Copies the logs of the processes, and writes the recorded changes of records."""
    pathlib.Path(folder).mkdir(parents=True, exist_ok=True)
    for it in [*running.members, *running.servers, *running.joined]:
        (pathlib.Path(folder) / it.log.name).write_bytes(it.log.read_bytes())
    (pathlib.Path(folder) / "records").write_text("".join(f"{it}\n" for it in recorder.told))
