"""Records which values etcd had of shards' records during a run, change by change, and checks that the proved rule
makes these changes. Of servers, it checks that each had read that a shard is taken before it was dropped."""
import collections
import contextlib
import http.client
import json
import subprocess
import threading
import time

import local_processes
import other_crates
import runs

# All records, then all servers that are there: no other keys lie between.
RECORD, SERVER = b"record/", b"server/"
END, RECORDS_END = b"server0", b"record0"
# How long nothing may come before another member is asked: the member may be stopped.
SECONDS = 2
# How long the replay may take.
REPLAY = 200
# The places of the numbers of a record and of a server, behind the version and the first fields.
WORD, FOLLOWED = slice(1, 9), slice(9, 17)
# The phase of a record whose shard has a new owner, to which the one before forwards yet.
TAKEN, PHASE = 4, 61
STANDS = ("Vacant", "Serving", "Prepared", "Forwarding", "Taken", "Paused", "-", "-")


class Told(collections.namedtuple("Told", "revision key value created version at")):
    """A change of a key: its value, or none if it was deleted, its number among those of the key, and when it came. The
    key is none if changes may be missing."""

    def is_record(self):
        return self.key is not None and self.key.startswith(RECORD)

    def __str__(self):
        front = f"{self.at:.2f} {self.revision}"
        if self.key is None:
            return f"{front} changes may be missing"
        if self.value is None:
            return f"{front} {self.key.decode()} is gone"
        first = int.from_bytes(self.value[WORD], "big")
        if not self.is_record():
            followed = int.from_bytes(self.value[FOLLOWED], "big")
            return f"{front} {self.key.decode()} process {first} has read up to {followed}"
        stand, owner, other = STANDS[first >> PHASE], first >> 48 & 0xFFF, first >> 36 & 0xFFF
        return f"{front} {self.key.decode()} {stand} {owner} {other} by process {int.from_bytes(self.value[9:], 'big')}"


class Recorder:
    """Follows the records from the store's first revision on, at whichever member answers."""

    def __init__(self, running):
        self.fleet, self.told, self.next, self.start = running, [], 1, time.monotonic()
        self.is_over, self.thread = threading.Event(), threading.Thread(target=self.work, daemon=True)

    def __enter__(self):
        self.thread.start()
        return self

    def __exit__(self, *_):
        self.is_over.set()
        self.thread.join()

    def work(self):
        for turn in range(1 << 62):
            if self.is_over.is_set():
                return
            member = self.fleet.members[turn % len(self.fleet.members)]
            # If a member dies in the middle of a message, the next one sends it again.
            with contextlib.suppress(OSError, ValueError, KeyError, http.client.HTTPException):
                self.follow(member)
            self.is_over.wait(0.1)

    def follow(self, member):
        """Takes changes from this member, until it sends no more."""
        connection = http.client.HTTPConnection(local_processes.HOST, member.port, timeout=SECONDS)
        with contextlib.closing(connection):
            asked = {"key": local_processes.text(RECORD), "range_end": local_processes.text(END)}
            asked["start_revision"] = str(self.next)
            connection.request("POST", "/v3/watch", json.dumps({"create_request": asked}))
            answer = connection.getresponse()
            while line := answer.readline():
                if self.is_over.is_set():
                    return
                self.take(json.loads(line)["result"])

    def take(self, told):
        if told.get("canceled"):
            # Changes before that revision were compacted before they came: most often only changes of other keys.
            self.next = max(self.next, int(told.get("compact_revision", 0)))
            self.told.append(Told(self.next, None, None, 0, 0, time.monotonic() - self.start))
        for event in told.get("events", []):
            pair = event["kv"]
            revision, key = int(pair["mod_revision"]), local_processes.bytes_of(pair["key"])
            if revision >= self.next:
                value = None if event.get("type") == "DELETE" else local_processes.bytes_of(pair.get("value"))
                created, version = (int(pair.get(it, 0)) for it in ("create_revision", "version"))
                self.told.append(Told(revision, key, value, created, version, time.monotonic() - self.start))
        if told.get("events"):
            self.next = max(self.next, self.told[-1].revision + 1)

    def changes(self):
        """The changes of records, in their order."""
        return [it for it in self.told if it.is_record()]

    def missing(self):
        """Returns how many changes of records were compacted before they came."""
        made = {local_processes.bytes_of(it["key"]): int(it["version"]) for it in self.pairs()}
        return sum(made.values()) - len({(it.key, it.version) for it in self.changes()})

    def pairs(self):
        asked = {"key": local_processes.text(RECORD), "range_end": local_processes.text(RECORDS_END)}
        found = self.fleet.ask("/v3/kv/range", asked)
        return found.get("kvs", [])

    def last(self):
        """The revision of the latest change of a record, as etcd says."""
        return max((int(it["mod_revision"]) for it in self.pairs()), default=0)

    def caught_up(self, seconds):
        """Whether it has, or gets in that time, all changes so far."""
        last, wait = self.last(), threading.Event()
        for _ in range(int(10 * seconds)):
            if self.next > last:
                return True
            wait.wait(0.1)
        return False


def replayed(changes, program):
    """Returns the output of the replay of these changes, and whether the rule makes them. If changes before a change
    are missing, its record begins anew there."""
    versions, lines = {}, ""
    for it in changes:
        behind = " anew" if it.version > versions.get(it.key, 0) + 1 else ""
        lines += f"{int(it.key.removeprefix(RECORD))} {int.from_bytes(it.value[WORD], 'big')}{behind}\n"
        versions[it.key] = it.version
    try:
        ran = subprocess.run([program], input=lines, capture_output=True, text=True, timeout=REPLAY)
    except subprocess.TimeoutExpired:
        return f"the replay of {len(changes)} changes was ended after {REPLAY} s", False
    return ran.stdout.strip(), ran.returncode == 0


def dropped_early(told):
    """Returns a sentence for each shard that was dropped before a server, whose key was there, had read that it is
    taken."""
    records, servers, said = {}, {}, []
    for it in told:
        if it.key is None:
            servers.clear()
        elif not it.is_record():
            servers[it.key] = it
        else:
            stood = records.get(it.key)
            if stood and int.from_bytes(stood.value[WORD], "big") >> PHASE == TAKEN:
                late = [server.key.decode() for server in servers.values() if is_behind(server, stood.revision)]
                dropped = f"{it.key.decode()} is dropped at revision {it.revision}"
                said += [f"{dropped} before {name} has read it" for name in late]
            records[it.key] = it
    return said


def is_behind(server, revision):
    """Whether the server, whose key is there since before that revision, hasn't read up to it."""
    is_there = server.value is not None and server.created < revision
    return is_there and int.from_bytes(server.value[FOLLOWED], "big") < revision


def program():
    """Builds the example of the library that replays changes, over the library that there is."""
    words = ["build", "--release", "-p", "durkenzo", "--example", "replay"]
    ran = other_crates.cargo(*words, library=runs.loaded("serve").any_library())
    if ran.returncode:
        raise local_processes.NotBegun(f"cargo build of the replay ended with {ran.returncode}\n{ran.stderr[-2000:]}")
    return other_crates.target() / "release/examples/replay"
