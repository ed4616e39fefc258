"""Nemeses, which disturb the processes of a fleet, and the etcd below them, while clients call: each makes a fault of
its kind, and repairs it.

`turn` makes one fault and repairs it, which takes seconds. It returns a description of the fault.
"""
import contextlib
import mmap
import pathlib
import signal
import subprocess
import time

import local_processes

# The space of etcd if it must be filled, the bytes that are written until it is full, and how many of them at a time.
QUOTA, JUNK, PIECE = 24_000_000, b"junk", 500_000
ALARM, TRIES = "/v3/maintenance/alarm", 30
# By how many parts of a thousand clocks differ in speed: less than --drift says.
DRIFT = 9
# How long a command may take in seconds.
LONG = 20
SECOND = 1_000_000_000
# The clocks that are turned, by their places in the file of a process.
MONOTONIC, REAL, BOOT = range(3)
CLOCKS = 3


class Disturbed:
    """The library of tools/disturbed.c, and the clocks of the processes that are loaded with it."""

    def __init__(self, folder):
        self.folder, self.library = pathlib.Path(folder), str(pathlib.Path(folder) / "disturbed.so")
        source = str(pathlib.Path(__file__).with_name("disturbed.c"))
        flags = ["-O2", "-Wall", "-Wextra", "-Werror", "-shared", "-fPIC", "-o", self.library, source, "-ldl"]
        subprocess.run(["cc", *flags], check=True)

    def environment(self, via):
        """Returns the options of a process that connects to ports by these relays."""
        ports = ",".join(f"{port}={relay}" for port, relay in via.items())
        return {"LD_PRELOAD": self.library, "DISTURBED": str(self.folder), "VIA": ports}

    def turn(self, process, which, nanoseconds):
        """Sets a clock of the process back or ahead by this much more, but CLOCK_REALTIME by this much in all."""
        with contextlib.suppress(OSError, ValueError), open(self.folder / str(process.run.pid), "r+b") as file:
            with mmap.mmap(file.fileno(), 8 * CLOCKS) as shared:
                at = slice(8 * which, 8 * which + 8)
                before = int.from_bytes(shared[at], "little", signed=True)
                now = nanoseconds if which == REAL else before + nanoseconds
                shared[at] = now.to_bytes(8, "little", signed=True)


class Nemesis:
    """A nemesis that disturbs a fleet by chance."""

    def __init__(self, running, chance, lease):
        self.fleet, self.chance, self.lease, self.faults = running, chance, lease, 0

    def wait(self, least, most):
        """Waits so long by chance; returns how long."""
        seconds = self.chance.uniform(least, most)
        time.sleep(seconds)
        return f"{seconds:.1f} s"

    def server(self):
        return self.chance.choice(self.fleet.servers)

    def member(self):
        return self.chance.choice(self.fleet.members)

    def begun(self, *processes):
        """Begins these, and waits until they answer."""
        for it in processes:
            it.begin()
        for it in processes:
            with contextlib.suppress(local_processes.NotBegun):
                it.wait(it.is_up)

    def links(self, server):
        """Returns the links between a server and etcd."""
        return [it for it in self.fleet.relays.links if it.startswith("to etcd") and it.endswith(f"from {server.name}")]


class KillServer(Nemesis):
    def turn(self):
        server = self.server()
        server.kill()
        away = self.wait(0.2, 2 * self.lease)
        self.begun(server)
        return f"{server.name} is killed, and begins {away} later"


class Restart(Nemesis):
    """Restarts one server after another, as an upgrade does."""

    def turn(self):
        for it in self.fleet.servers:
            it.stop()
            self.begun(it)
        return "SIGTERM ends each server in turn, and it begins again"


class Resize(Nemesis):
    """Adds a server, to which shards go, and removes it again, as an operator does."""

    def __init__(self, *given):
        super().__init__(*given)
        # Begun anew in each turn.
        self.joining = None

    def turn(self):
        count = len(self.fleet.servers)
        self.joining = joining = self.joining or self.fleet.joining()
        self.resized(count + 1)
        self.begun(joining)
        spread = self.server().control("SPREAD") or "nothing"
        stayed = self.wait(0.5, 2 * self.lease)
        joining.stop()
        self.resized(count)
        return f"{joining.name} is there for {stayed}, SPREAD is answered by {spread!r}, and SIGTERM ends it"

    def resized(self, count):
        """Makes the settings name this many servers."""
        for _ in range(TRIES):
            told = self.server().control("RESIZE", count)
            if told == f"servers {count}":
                return
            time.sleep(1)
        raise local_processes.NotBegun(f"RESIZE {count} is answered by {told!r}")


class StopContinue(Nemesis):
    def turn(self):
        server = self.server()
        server.signal(signal.SIGSTOP)
        try:
            stopped = self.wait(0.5 * self.lease, 2.5 * self.lease)
        finally:
            server.signal(signal.SIGCONT)
        return f"{server.name} is stopped for {stopped}"


class Suspend(Nemesis):
    """Does the same as a suspended machine: CLOCK_MONOTONIC stood still, and CLOCK_BOOTTIME went on."""

    def turn(self):
        server = self.server()
        server.signal(signal.SIGSTOP)
        began = time.monotonic()
        try:
            stopped = self.wait(0.5 * self.lease, 2.5 * self.lease)
        finally:
            self.fleet.disturbed.turn(server, MONOTONIC, int((time.monotonic() - began) * SECOND))
            server.signal(signal.SIGCONT)
        return f"{server.name} is suspended for {stopped}"


class CutEtcd(Nemesis):
    def turn(self):
        server = self.server()
        links = self.links(server)
        cut = self.chance.choice([links, links, self.chance.sample(links, 1 + self.chance.randrange(len(links)))])
        way = self.chance.choice([None, None, 0, 1])
        for it in cut:
            self.fleet.relays.cut(it, way)
        try:
            lasted = self.wait(0.5, 3 * self.lease)
        finally:
            self.fleet.relays.heal()
        ways = {None: "both ways", 0: "on the way there", 1: "on the way back"}[way]
        return f"{server.name} is cut from {len(cut)} of {len(links)} members {ways} for {lasted}"


class CutServers(Nemesis):
    def turn(self):
        links = [it for it in self.fleet.relays.links if it.startswith("to server")]
        link, way = self.chance.choice(links), self.chance.choice([None, 0, 1])
        _, to, _, other = link.split()
        back = f"to {other} from {to}"
        # Both ways include connections from either side.
        for it, of in {None: [(link, None), (back, None)], 0: [(link, 0), (back, 1)], 1: [(link, 1), (back, 0)]}[way]:
            self.fleet.relays.cut(it, of)
        try:
            lasted = self.wait(0.5, 3 * self.lease)
        finally:
            self.fleet.relays.heal()
        ways = {None: f"between {other} and {to} nothing", 0: f"from {other} to {to} nothing",
                1: f"from {to} to {other} nothing"}  # fmt: skip
        return f"{ways[way]} goes for {lasted}"


class SlowEtcd(Nemesis):
    def turn(self):
        links = [it for it in self.fleet.relays.links if it.startswith("to etcd")]
        slow, late = self.chance.sample(links, 1 + self.chance.randrange(len(links))), [0.005, 0.05, 0.2, 0.8]
        for it in slow:
            self.fleet.relays.delay(it, self.chance.choice(late))
        try:
            lasted = self.wait(1, 3 * self.lease)
        finally:
            self.fleet.relays.heal()
        return f"{len(slow)} of {len(links)} links to etcd are slow by up to 800 ms for {lasted}"


class EtcdGone(Nemesis):
    def turn(self):
        for it in self.fleet.members:
            it.kill()
        away = self.wait(0.5 * self.lease, 3 * self.lease)
        self.begun(*self.fleet.members)
        return f"all members are killed, and begin {away} later"


class KillEtcd(Nemesis):
    def turn(self):
        member = self.member()
        member.kill()
        away = self.wait(0.2, 2 * self.lease)
        self.begun(member)
        return f"{member.name} is killed, and begins {away} later"


class KillLeader(Nemesis):
    def turn(self):
        leader = self.fleet.leader() or self.member()
        leader.kill()
        away = self.wait(0.2, 2 * self.lease)
        self.begun(leader)
        return f"{leader.name} is killed, which leads, and begins {away} later"


class RestartEtcd(Nemesis):
    def turn(self):
        for it in self.fleet.members:
            it.stop()
            self.begun(it)
        return "SIGTERM ends each member in turn, and it begins again"


class Full(Nemesis):
    """Writes over and over to etcd until its space is taken, and makes room again a while later."""

    def turn(self):
        is_full = self.fill()
        lasted = self.wait(self.lease, 3 * self.lease) if is_full else "0 s"
        self.make_room()
        return f"etcd takes no writes for {lasted}" if is_full else "etcd got too few writes to be full"

    def fill(self):
        """Whether etcd said that it has no more room."""
        asked = {"key": local_processes.text(JUNK), "value": local_processes.text(bytes(PIECE))}
        for _ in range(4 * QUOTA // PIECE):
            with contextlib.suppress(OSError):
                if "space exceeded" in str(self.fleet.ask("/v3/kv/put", asked).get("error", "")):
                    return True
        return False

    def make_room(self):
        """Does the work of an operator, until etcd takes writes again."""
        for _ in range(TRIES):
            with contextlib.suppress(OSError):
                self.fleet.ask("/v3/kv/deleterange", {"key": local_processes.text(JUNK)})
            compact(self.fleet)
            for it in self.fleet.members:
                with contextlib.suppress(OSError):
                    it.ask("/v3/maintenance/defragment", {})
            with contextlib.suppress(OSError):
                for it in self.fleet.ask(ALARM, {"action": "GET"}).get("alarms", []):
                    self.fleet.ask(ALARM, {**it, "action": "DEACTIVATE"})
                if "error" not in self.fleet.ask("/v3/kv/put", {"key": local_processes.text(JUNK)}):
                    return
            time.sleep(1)


class Compact(Nemesis):
    """Compacts etcd's past while a server doesn't hear of its changes."""

    def turn(self):
        server = self.server()
        for it in self.links(server):
            self.fleet.relays.cut(it)
        try:
            lasted = self.wait(0.2, 0.5 * self.lease)
            compact(self.fleet)
        finally:
            self.fleet.relays.heal()
        return f"{server.name} is cut from etcd for {lasted}, and the past is compacted"


class Clock(Nemesis):
    """Sets CLOCK_REALTIME of a server. No system turns the clock by which etcd's members measure leases."""

    def turn(self):
        server, seconds = self.server(), self.chance.choice([-3_600, -60, -2, 2, 60, 3_600])
        self.fleet.disturbed.turn(server, REAL, seconds * SECOND)
        self.wait(0.5, 1.5 * self.lease)
        return f"the clock of {server.name} jumps to {seconds:+d} s"


class BootClock(Nemesis):
    """Makes CLOCK_BOOTTIME of a server jump: ahead, so that its lease has ended for it, or back, by less than --drift
    says."""

    def turn(self):
        server, back = self.server(), -self.lease * DRIFT / 1_000
        seconds = self.chance.choice([back, back, 0.7 * self.lease, 2 * self.lease, 60])
        self.fleet.disturbed.turn(server, BOOT, int(seconds * SECOND))
        # So no lease sees two steps back.
        self.wait(self.lease, 1.5 * self.lease)
        return f"CLOCK_BOOTTIME of {server.name} jumps by {seconds:+.3f} s"


class Drift(Nemesis):
    """Restarts a server with a clock that is slow or fast, by less than --drift says."""

    def turn(self):
        server, slow = self.server(), self.chance.randint(-DRIFT, DRIFT)
        server.env["DURKENZO_SLOW_CLOCK"] = str(slow)
        server.stop()
        self.begun(server)
        self.wait(0.5, self.lease)
        return f"the clock of {server.name} is slow by {slow} parts of a thousand from now on"


class Fail(Nemesis):
    """Says of a server that is there that it has failed, which is refused."""

    def turn(self):
        server = self.server()
        others = [it for it in self.fleet.servers if it is not server]
        told = self.chance.choice(others).control("FAIL", server.number)
        self.wait(0.2, 0.5)
        return f"FAIL {server.number} is answered by {told!r}"


def compact(running):
    """Makes etcd forget everything but the present."""
    with contextlib.suppress(OSError):
        revision = running.ask("/v3/kv/range", {"key": local_processes.text(JUNK)})["header"]["revision"]
        running.ask("/v3/kv/compaction", {"revision": revision})


KINDS = {
    "kill-server": KillServer, "restart": Restart, "resize": Resize, "stop-continue": StopContinue, "suspend": Suspend,
    "cut-etcd": CutEtcd, "cut-servers": CutServers, "slow-etcd": SlowEtcd, "etcd-gone": EtcdGone,
    "kill-etcd": KillEtcd, "kill-leader": KillLeader, "restart-etcd": RestartEtcd, "full": Full, "compact": Compact,
    "clock": Clock, "boot-clock": BootClock, "drift": Drift, "fail": Fail,
}  # fmt: skip
# The work of the clients' process beside all other nemeses: it migrates and drains.
MOVES = "moves"
# The nemeses that need a program in which clocks can be turned.
OF_FEATURE = {"drift", "boot-clock"}
# The nemeses that leave each call answered.
GRACEFUL = {"restart", "resize", "fail", "clock", "drift", MOVES}
