"""Moves a large shard between the servers of a cluster over etcd, and tells how long its clients waited.

The shard has all keys: texts of some KiB, and a count for each client. Half of the clients make INCR of their counts,
and half GET of random texts, at any server, one request after another. They do so at rest first, and then while the
shard moves from server to server. A request that is refused isn't sent again. At the end the counts must have all
additions that were acknowledged.
"""
import collections
import contextlib
import multiprocessing
import random
import statistics
import time

from local_processes import served

TEXT, TOGETHER, CLIENTS = 4_096, 64, 8
# How long clients ask at rest, and between moves.
REST, BETWEEN = 5, 1
# How long the clients may take for their last requests.
PATIENCE = 120

# A request: when it was sent, how long the answer took, and why it was refused, or an empty text.
Asked = collections.namedtuple("Asked", "began took refusal")


def filled(client, mebibytes):
    """Writes the texts, and returns how many there are."""
    count = mebibytes * (1 << 20) // TEXT
    for first in range(0, count, TOGETHER):
        texts = {f"text:{it}": (str(it) * TEXT)[:TEXT] for it in range(first, min(first + TOGETHER, count))}
        client.ask("MSET", *(word for pair in texts.items() for word in pair))
    return count


def asks(port, number, texts, stop, told):
    """Asks until it is told to stop. Tells everything that it asked, and how many additions were acknowledged and how
    many aren't known."""
    asked, done, unknown = [], 0, 0
    with served.Client(port) as client:
        while not stop.is_set():
            writes, refusal, began = number % 2 == 0, "", time.monotonic()
            try:
                client.ask(*(("INCR", f"count:{number}") if writes else ("GET", f"text:{random.randrange(texts)}")))
                done += writes
            except served.Refused as error:
                refusal = str(error)
                unknown += writes and refusal.startswith("UNKNOWN")
            asked.append(Asked(began, time.monotonic() - began, refusal))
    told.put((number, asked, done, unknown))


@contextlib.contextmanager
def under_load(running, texts):
    """Has clients ask while the body runs. Afterwards the list that it gives has their results."""
    stop, told, found = multiprocessing.Event(), multiprocessing.Queue(), []
    ports = [running.servers[it % len(running.servers)].port for it in range(CLIENTS)]
    every = [multiprocessing.Process(target=asks, args=(port, it, texts, stop, told)) for it, port in enumerate(ports)]
    for it in every:
        it.start()
    try:
        yield found
    finally:
        stop.set()
        found += [told.get(timeout=PATIENCE) for _ in every]
        for it in every:
            it.join()


def moved(client, to):
    """Moves the shard, and returns when the move began, how long it took, and why it was refused, if it was."""
    began, refusal = time.monotonic(), ""
    try:
        client.ask("SM", "MIGRATE", 0, to)
    except served.Refused as error:
        refusal = str(error)
    return Asked(began, time.monotonic() - began, refusal)


def line_of(name, asked):
    took = sorted(1_000 * it.took for it in asked)
    refused = collections.Counter(it.refusal.split(" ")[0] for it in asked if it.refusal)
    said = ", ".join(f"{count} {name}" for name, count in refused.items()) or "none"
    return (name, len(took), f"{statistics.median(took):.1f}", f"{took[int(len(took) * 0.99)]:.1f}", f"{took[-1]:.0f}",
            said)  # fmt: skip


def measured(running, mebibytes, moves):
    """Returns rows about the requests, and a sentence about the moves."""
    with running.servers[0].client() as one:
        texts = filled(one, mebibytes)
        for it in range(CLIENTS):
            one.ask("SET", f"count:{it}", 0)
        # The last base is written by then.
        time.sleep(REST)
        with under_load(running, texts) as found:
            time.sleep(REST)
            took = []
            for _ in range(moves):
                owner = int(one.ask("SM", "LOOK", 0).split(" ")[1])
                took.append(moved(one, owner % len(running.servers) + 1))
                time.sleep(BETWEEN)
        counted = sum(int(one.ask("GET", f"count:{it}")) for it in range(CLIENTS))
    asked = [it for _, every, _, _ in found for it in every]
    done, unknown = (sum(it[place] for it in found) for place in (2, 3))
    assert done <= counted <= done + unknown, f"{done} acknowledged, {unknown} unknown, and {counted} counted"
    rest = [it for it in asked if it.began + it.took < took[0].began]
    while_moving = [it for it in asked if it.began + it.took >= took[0].began]
    said = ", ".join(f"{it.took:.1f} s{' ' + it.refusal if it.refusal else ''}" for it in took)
    return [line_of("at rest", rest), line_of("while it moves", while_moving)], f"moves took {said}"
