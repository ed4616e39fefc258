"""Nemeses, which disturb a cluster while clients call it: each makes a fault of its kind, and repairs it.

A nemesis has a name, and `turn` makes one fault and repairs it, which takes seconds. `faults` counts its faults.
"""
import contextlib
import pathlib
import shutil
import signal
import threading
import time

import local_processes
import served

LIBFAKETIME = "/usr/lib/x86_64-linux-gnu/faketime/libfaketime.so.1"
# The space of etcd if it must be filled, the bytes that are written until it is full, and how many of them at a time.
QUOTA, JUNK, PIECE = 24_000_000, b"junk", 500_000
TRIES = 10
AWAY = (0.2, 4.0)
# How long a command of a control may take.
LONG = 20
# The answers of a server: done, and, to a resume, that the shard isn't paused.
DONE, NOT_PAUSED = "", "REFUSED WrongPhase"


class Nemesis:
    """A nemesis that disturbs a fleet by chance."""

    def __init__(self, running, chance, lease):
        self.fleet, self.chance, self.lease, self.faults, self.said = running, chance, lease, 0, {}
        # Set by the trial.
        self.shards = 1

    def is_done(self, *words):
        """Whether a server, at which chance asks it, did the command of a control."""
        return self.told(*words) == DONE

    def told(self, *words):
        """Returns the answer of a random server to the command: done, the name of the refusal, or nothing."""
        try:
            with self.chance.choice(self.fleet.servers).client() as client:
                client.socket.settimeout(LONG)
                client.ask("SM", *words)
            return DONE
        except served.Refused as refused:
            name = " ".join(str(refused).split()[:2]).rstrip(":")
            self.said[name] = self.said.get(name, 0) + 1
            return name
        except OSError:
            time.sleep(0.2)
            return None

    def pause(self, least, most):
        time.sleep(self.chance.uniform(least, most))

    def count(self):
        self.faults += 1

    def kill(self, process):
        """Kills a process, and begins it again a while later."""
        process.kill()
        self.count()
        self.pause(*AWAY)
        process.begin()
        with contextlib.suppress(local_processes.NotBegun):
            process.wait(process.is_up)


class KillServer(Nemesis):
    """Kills servers by SIGKILL."""

    def turn(self):
        self.kill(self.chance.choice(self.fleet.servers))
        self.pause(1, 3)


class KillEtcd(Nemesis):
    """Kills members of etcd by SIGKILL."""

    def turn(self):
        self.kill(self.chance.choice(self.fleet.members))
        self.pause(1, 3)


class KillLeader(Nemesis):
    """Kills the member of etcd that leads, by SIGKILL."""

    def turn(self):
        if leader := self.fleet.leader():
            self.kill(leader)
        self.pause(1, 3)


class StopContinue(Nemesis):
    """Stops servers and members by SIGSTOP, often past a lease, and has them go on."""

    def turn(self):
        stopped = self.chance.choice(self.fleet.servers * 2 + self.fleet.members)
        stopped.signal(signal.SIGSTOP)
        self.count()
        try:
            self.pause(0.5 * self.lease, 2.5 * self.lease)
        finally:
            stopped.signal(signal.SIGCONT)
        self.pause(1, 3)


class Cut(Nemesis):
    """Cuts a server off from etcd, from some of its members, or from other servers; or a member from the others."""

    def links(self):
        """Returns the links of one cut."""
        names = [*self.fleet.relays.links]
        server = self.chance.choice(self.fleet.servers)
        of_server = [it for it in names if it.endswith(f"from {server.name}")]
        peers = [it for it in names if it.endswith(("from servers", "from members"))]
        few = self.chance.sample(of_server, 1 + self.chance.randrange(len(of_server)))
        return self.chance.choice([of_server, few, [self.chance.choice(peers)]])

    def turn(self):
        for it in self.links():
            self.fleet.relays.cut(it)
        self.count()
        try:
            self.pause(0.5, 3 * self.lease)
        finally:
            self.fleet.relays.heal()
        self.pause(1, 3)


class Delay(Nemesis):
    """Delays the bytes of some links."""

    def turn(self):
        names = [*self.fleet.relays.links]
        for it in self.chance.sample(names, 1 + self.chance.randrange(len(names))):
            self.fleet.relays.delay(it, self.chance.choice([0.005, 0.05, 0.2, 0.8]))
        self.count()
        try:
            self.pause(1, 5)
        finally:
            self.fleet.relays.heal()
        self.pause(0.5, 2)


class Full(Nemesis):
    """Writes over and over to etcd until its space is taken, and makes room again a while later."""

    def turn(self):
        if self.fill():
            self.count()
            self.pause(2, 4)
        self.make_room()
        self.pause(4, 8)

    def fill(self):
        """Whether etcd said that it has no more room."""
        asked = {"key": local_processes.text(JUNK), "value": local_processes.text(bytes(PIECE))}
        for _ in range(4 * QUOTA // PIECE):
            with contextlib.suppress(OSError):
                if "space exceeded" in str(self.fleet.ask("/v3/kv/put", asked).get("error", "")):
                    return True
        return False

    def make_room(self):
        """Does the work of an operator, until it is done."""
        for _ in range(TRIES):
            server = self.chance.choice(self.fleet.servers)
            with contextlib.suppress(OSError, served.Refused), server.client() as client:
                client.socket.settimeout(LONG)
                client.ask("SM", "COMPACT")
                return
            time.sleep(1)


class Clock(Nemesis):
    """Turns the time of day of servers, there and back. No system turns the clock by which etcd's members measure
    leases."""

    def turn(self):
        self.turned(self.chance.choice(self.fleet.servers), self.chance.choice([-3_600, -60, -2, 2, 60, 3_600]))
        self.count()
        self.pause(1, 5)

    @staticmethod
    def turned(server, seconds):
        pathlib.Path(server.env["FAKETIME_TIMESTAMP_FILE"]).write_text(f"{seconds:+d}s\n")


class Reassign(Nemesis):
    """Gives shards to other servers at once, whatever their owners know of it."""

    def turn(self):
        shard, server = self.chance.randrange(self.shards), self.chance.choice(self.fleet.servers)
        told = self.told("PAUSE", shard)
        if told is None or not told.startswith("REFUSED"):
            self.count()
            self.give(shard, server)
        self.pause(0.1, 0.6)

    def give(self, shard, server):
        """Gives a shard that is paused, or may be, to the server, or otherwise back to its owner, because nobody else
        would."""
        for _ in range(TRIES):
            if self.is_done("REASSIGN", shard, server.number) or self.told("RESUME", shard) in (DONE, NOT_PAUSED):
                return
            time.sleep(0.5)


class Resize(Nemesis):
    """Adds a server, to which shards go, and removes it again, as an operator does."""

    def __init__(self, *given):
        super().__init__(*given)
        # Begun anew in each turn.
        self.joining = None

    def turn(self):
        count = len(self.fleet.servers)
        self.joining = joining = self.joining or self.fleet.joining()
        self.until_done("RESIZE", count + 1)
        self.count()
        joining.begin()
        with contextlib.suppress(local_processes.NotBegun):
            joining.wait(joining.is_up)
        self.is_done("SPREAD")
        self.pause(1, 3)
        self.is_done("DRAIN", joining.number)
        joining.stop()
        self.until_done("RESIZE", count)
        self.pause(1, 3)

    def until_done(self, *words):
        """Makes the command again until it is done."""
        for _ in range(6 * TRIES):
            told = self.told(*words)
            if told == DONE:
                return
            time.sleep(0.5)
        raise local_processes.NotBegun(f"SM {' '.join(map(str, words))} is answered by {told!r}")


class Moves(Nemesis):
    """Migrates shards, each by a random server, until it must stop; each turn is a graceful restart, after which shards
    are spread over servers."""

    def __init__(self, running, chance, lease):
        super().__init__(running, chance, lease)
        self.moved, self.restarted, self.spread, self.has_faults = 0, 0, 0, False
        self.is_over, self.thread = threading.Event(), threading.Thread(target=self.work)

    def work(self):
        while not self.is_over.is_set():
            shard, server = self.chance.randrange(self.shards), self.chance.choice(self.fleet.servers)
            self.moved += self.is_done("MIGRATE", shard, server.number)
            self.is_over.wait(0.02)

    def turn(self):
        """Restarts a server as an upgrade does: it is drained, its process ends, and another one begins."""
        server = self.chance.choice(self.fleet.servers)
        # Beside faults it may be stopped, and wait for its process, whatever the answers were.
        if self.is_done("RESTART", server.number) or self.has_faults:
            server.stop()
            server.begin()
            with contextlib.suppress(local_processes.NotBegun):
                server.wait(server.is_up)
                self.restarted += 1
        self.spread += self.is_done("SPREAD")
        self.pause(2, 4)


KINDS = {
    "kill-server": KillServer, "kill-etcd": KillEtcd, "kill-leader": KillLeader, "stop-continue": StopContinue,
    "cut": Cut, "delay": Delay, "full": Full, "clock": Clock, "reassign": Reassign,
    "resize": Resize, "moves": Moves,
}  # fmt: skip


def lacking(kind):
    """Returns the program that a nemesis needs and that isn't there, or none."""
    if kind == "clock" and not pathlib.Path(LIBFAKETIME).is_file():
        return "faketime isn't installed: no clock is turned; tools/setup installs it"
    if kind != "moves" and not shutil.which("etcd"):
        return "etcd isn't installed"
    return None


def prepared(kinds, folder):
    """Returns the options of etcd for these nemeses, and a server's environment by its number."""
    options = ["--quota-backend-bytes", QUOTA] if "full" in kinds else []

    def env(number):
        if "clock" not in kinds:
            return {}
        file = folder / f"clock-{number}"
        file.write_text("+0s\n")
        named = {"LD_PRELOAD": LIBFAKETIME, "FAKETIME_TIMESTAMP_FILE": str(file), "FAKETIME_NO_CACHE": "1"}
        # The clock that measures durations isn't turned, because no system turns it.
        return {**named, "DONT_FAKE_MONOTONIC": "1", "FAKETIME_DONT_FAKE_MONOTONIC": "1"}

    return options, env
