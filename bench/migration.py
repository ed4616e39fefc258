"""Moves a shard of ./sm serve, and beside it a slot of Redis Cluster, under clients, and times their requests.

A shard and a slot of 100,000 keys with texts of 32 bytes, which have one tag, and 1,000 counts. Two clients, processes of
their own, make one request after another: MGET of two of the keys, and INCR of a count. They follow MOVED and ASK, and ask
again a millisecond after TRYAGAIN, which Redis tells while one key has moved and the other hasn't; a request takes until
its answer. A round first times them while nothing moves, then while a slot moves
as redis-cli moves it, 10 keys at a time, and a shard 200 times, by SM MIGRATE.
"""
import contextlib
import gc
import multiprocessing
import pathlib
import random
import re
import socket
import statistics
import sys
import time

HERE = pathlib.Path(__file__).resolve().parent
sys.path.insert(0, str(HERE.parent / "server/tests"))
from served import Client, Refused

KEYS, COUNTS, TEXT, BATCH, MOVES = 100_000, 1_000, 32, 10, 200
REDIRECTED = re.compile(r"(MOVED|ASK) \d+ 127\.0\.0\.1:(\d+)$")
REQUESTS = {
    "MGET": lambda: ("MGET", *(f"{{m}}:{random.randrange(KEYS)}" for _ in range(2))),
    "INCR": lambda: ("INCR", f"{{m}}:count:{random.randrange(COUNTS)}"),
}


def free_port():
    """A free port whose number 10,000 above may be one too, as nodes of Redis Cluster talk to one another there."""
    while True:
        port = random.randrange(20_000, 30_000)
        with contextlib.suppress(OSError), socket.create_server(("127.0.0.1", port)):
            with socket.create_server(("127.0.0.1", port + 10_000)):
                return port


def wait(port, process):
    for _ in range(200):
        if process.poll() is not None:
            sys.exit(f"{process.args[0]} ended with {process.returncode}")
        with contextlib.suppress(OSError), socket.create_connection(("127.0.0.1", port), 1):
            return
        time.sleep(0.05)
    sys.exit(f"{process.args[0]} doesn't listen")


class Asker:
    """A client that follows a slot from node to node."""

    def __init__(self, port):
        self.nodes, self.port = {}, port

    def node(self, port):
        if port not in self.nodes:
            self.nodes[port] = Client(port)
        return self.nodes[port]

    def ask(self, *words):
        """The answer to a command; that of another node where it is sent there."""
        port, is_asking = self.port, False
        while True:
            node = self.node(port)
            answers = node.piped([("ASKING",), words] if is_asking else [words])
            if not isinstance(answers[-1], Refused):
                return answers[-1]
            text, is_asking = str(answers[-1]), False
            if found := REDIRECTED.match(text):
                port, is_asking = int(found[2]), found[1] == "ASK"
                self.port = self.port if is_asking else port
            elif text.startswith("TRYAGAIN"):
                time.sleep(0.001)
                port = self.port
            else:
                raise answers[-1]


def call(port, kind, phases, told):
    """Makes requests in each phase until that ends; tells of each how many there were and the longest, in milliseconds."""
    gc.disable()
    asker, request, found = Asker(port), REQUESTS[kind], []
    asker.ask(*request())
    for begun, ended in phases:
        begun.wait()
        count, longest = 0, 0
        while not ended.is_set():
            words = request()
            began = time.perf_counter()
            asker.ask(*words)
            count, longest = count + 1, max(longest, time.perf_counter() - began)
        found.append((count, longest * 1000))
    told.put((kind, found))


def fill(port):
    with Client(port) as client:
        for start in range(0, KEYS, 1000):
            client.piped([("SET", f"{{m}}:{it}", "x" * TEXT) for it in range(start, start + 1000)])
        client.piped([("SET", f"{{m}}:count:{it}", 0) for it in range(COUNTS)])


def under_load(port, works):
    """Does each work while clients make requests; returns by kind of request the longest of each."""
    phases = [(multiprocessing.Event(), multiprocessing.Event()) for _ in works]
    told = multiprocessing.Queue()
    clients = [multiprocessing.Process(target=call, args=(port, it, phases, told)) for it in REQUESTS]
    for client in clients:
        client.start()
    for work, (begun, ended) in zip(works, phases):
        time.sleep(0.2)
        begun.set()
        work()
        ended.set()
    found = dict(told.get(timeout=60) for _ in clients)
    for client in clients:
        client.join()
    return {kind: [longest for _, longest in rows] for kind, rows in found.items()}


def joined(one, other):
    """Makes one cluster of two nodes, the first of which has all slots; returns the slot of the keys, and both nodes."""
    first, second = Client(one), Client(other)
    first.ask("CLUSTER", "ADDSLOTSRANGE", 0, 16383)
    first.ask("CLUSTER", "MEET", "127.0.0.1", other)
    for node in (first, second):
        while b"cluster_state:ok" not in node.ask("CLUSTER", "INFO") or b":2\r" not in node.ask("CLUSTER", "INFO"):
            time.sleep(0.05)
    return first.ask("CLUSTER", "KEYSLOT", "{m}"), first, second


def slot_moved(slot, first, second, port):
    """Moves the slot from the first node to the second, as redis-cli does; returns the seconds that it took."""
    one, other = first.ask("CLUSTER", "MYID"), second.ask("CLUSTER", "MYID")
    began = time.perf_counter()
    second.ask("CLUSTER", "SETSLOT", slot, "IMPORTING", one)
    first.ask("CLUSTER", "SETSLOT", slot, "MIGRATING", other)
    while keys := first.ask("CLUSTER", "GETKEYSINSLOT", slot, BATCH):
        first.ask("MIGRATE", "127.0.0.1", port, "", 0, 60_000, "KEYS", *keys)
    for node in (second, first):
        node.ask("CLUSTER", "SETSLOT", slot, "NODE", other)
    return time.perf_counter() - began


def of_redis(one, other):
    """A round of Redis Cluster: the longest requests at rest and while the slot moves, and how long that took."""
    slot, first, second = joined(one, other)
    fill(one)
    took = []
    works = [lambda: time.sleep(2), lambda: took.append(slot_moved(slot, first, second, other))]
    return under_load(one, works), took[0]


def shard_moved(client, shard):
    """Moves the shard around all servers; returns the seconds that one migration took in the middle."""
    took = []
    for turn in range(MOVES):
        began = time.perf_counter()
        client.ask("SM", "MIGRATE", shard, int(client.ask("SM", "LOOK", shard).split(" ")[1]) % 4 + 1)
        took.append(time.perf_counter() - began)
        time.sleep(0.01)
    return statistics.median(took)


def of_ours(port):
    """A round of ./sm serve, likewise."""
    fill(port)
    with Client(port) as client:
        rows = client.rows("SHARDS")
        shard = next(it[0] for it in rows if int(it[-1]) >= KEYS)
        took = []
        works = [lambda: time.sleep(2), lambda: took.append(shard_moved(client, shard))]
        return under_load(port, works), took[0]


def table(rounds, bench):
    """Rows of the longest requests, in milliseconds: the middle of the rounds, and the longest of all."""
    print("| request | Redis, nothing moves | a slot moves | ours, nothing moves | a shard moves |")
    print("|---|---|---|---|---|")
    for kind in REQUESTS:
        columns = [[side[0][kind][phase] for side in sides] for sides in zip(*rounds) for phase in (0, 1)]
        for what, longest in zip(("nothing moves", "a shard moves"), columns[2:]):
            bench.row(f"the longest {kind}, {what}", "", longest, "ms")
        print(f"| {kind} | {' | '.join(f'{statistics.median(it):.1f} (at most {max(it):.1f})' for it in columns)} |")
    slots, shards = ([side[1] for side in sides] for sides in zip(*rounds))
    print(
        f"\nA slot took {statistics.median(slots):.1f} s, a shard {statistics.median(shards) * 1000:.2f} ms: its data stays"
    )
    print("where it is, as all servers are of one process, and a slot's goes to another one by TCP.")
