#!/usr/bin/env python3
"""Data that outlives the process: restarts keep everything, kills lose no acknowledged write, and migrations lose no
addition.

    server/tests/durable.py PROGRAM

tools/kills kills a server at random under load, many times."""
import collections
import contextlib
import itertools
import json
import pathlib
import random
import re
import shutil
import signal
import socket
import sqlite3
import struct
import subprocess
import sys
import tempfile
import threading
import time

sys.dont_write_bytecode = True
import scans
import served
from served import Refused, again, caught, main

SETTINGS = pathlib.Path(__file__).resolve().parents[2] / "tools/settings"
SHARDS = 16
KILLS = 20
CLIENTS = 8
# If servers are killed, a shard gets a base as often as this.
BATCHES = 20


@contextlib.contextmanager
def folder():
    with tempfile.TemporaryDirectory(prefix="sm-durable-") as room:
        yield f"{room}/data"


def over(program, data, *options):
    """Runs a server over this folder, until the body ends."""
    return served.served(program, "--data", data, "--shards", SHARDS, *options)


def stands(client):
    """Returns each shard's stand and generation."""
    return [it[:6] for it in client.rows("SHARDS")]


def restarts_keep_all(program):
    lines = [("SET", f"key:{it}", f"value {it}") for it in range(200)]
    lines += [("SET", "count", 7), ("INCR", "count"), ("APPEND", "count", "x"), ("SET", "n", 12), ("APPEND", "n", 3)]
    lines += [("DEL", "key:3"), ("MSET", "a", 1, "b", "text", "c", ""), ("INCRBY", "n", 7), ("DECRBY", "a", 5)]
    reads = [("GET", f"key:{it}") for it in range(200)] + [("MGET", "count", "n", "a", "b", "c", "none")]
    with folder() as data:
        with over(program, data) as server, server.client() as client:
            told = client.piped(lines)
            assert not [it for it in told if isinstance(it, Refused)], told
            client.ask("SM", "MIGRATE", 3, 2)
            held = client.piped(reads)
            assert held[-1] == [b"8x", b"130", b"-4", b"text", b"", None], held[-1]
            client.ask("SM", "PAUSE", 5)
            stood = stands(client)
        for sync in ("always", "second", "no"):
            with over(program, data, "--sync", sync) as server, server.client() as client:
                after = stands(client)
                assert after == stood, f"{stood} became {after}"
                client.ask("SM", "RESUME", 5)
                assert client.piped(reads) == held
                client.ask("SM", "PAUSE", 5)
                stood = stands(client)


def commands_answer_as_in_memory(program):
    with folder() as data, over(program, data) as durable, served.served(program, "--shards", SHARDS) as memory:
        with durable.client() as one, memory.client() as other:
            for seed in range(3):
                lines = random_lines(random.Random(seed), 700)
                answers = list(zip(lines, one.piped(lines), other.piped(lines)))
                wrong = [it for it in answers if str(it[1]) != str(it[2])]
                assert not wrong, wrong[:3]
            for words in SCANS:
                told, wanted = (answer_of(it, words) for it in (one, other))
                assert str(told) == str(wanted), (words, told, wanted)
            for server in ((), (1,), (0,), (9,)):
                told, wanted = (str(answer_of(it, ("SM", "PLAN", *server))) for it in (one, other))
                assert told == wanted, (server, told, wanted)
            for words in (("SM", "AT", 1, "GET", "a"), ("SM", "DUMP", "x"), ("SM", "LOAD", "x")):
                assert "NOTDURABLE" in str(answer_of(one, words)).upper(), words


def transactions_have_a_bound(program):
    """The bounds of memory mode apply, and some others. A transaction beyond one changes nothing."""
    sets = [("MSET", *itertools.chain(*((f"{{t}}{row}:{it}", "x") for it in range(511)))) for row in range(5)]
    counts = [("INCR", f"{{t}}{it}") for it in range(5)]
    with folder() as data, over(program, data) as server, server.client() as client:
        for commands, told in (
            ([("PING",)] * 1_025, "EXECABORT"),
            (sets, "QUEUEFULL nothing has changed, .* at most 4096 arguments: "),
            (sets[:4] + counts, "QUEUEFULL nothing has changed, .* at most 2048 writes, "),
        ):
            client.piped([("MULTI",), *commands])
            answer = answer_of(client, ("EXEC",))
            assert re.match(told, str(answer)) and client.ask("DBSIZE") == 0, answer
        client.piped([("MULTI",), *sets[:4], *counts[:4]])
        assert client.ask("EXEC") == ["OK"] * 4 + [1] * 4 and client.ask("DBSIZE") == 2_048


def answers_have_a_bound(program):
    """Tests the bound of one command over several shards, and the bound of many commands of a client that reads
    nothing."""
    with folder() as data, over(program, data) as durable, served.served(program, "--shards", SHARDS) as memory:
        with durable.client() as one, memory.client() as other:
            many = ("MGET", *["a", "b"] * 63, "a", "c")
            for length, is_refused in ((64_377, False), (64_378, True)):
                for it in (one, other):
                    it.ask("MSET", "a", b"x" * 65_535, "b", b"y" * 65_535, "c", b"z" * length)
                told = one.raw(*many)
                assert told == other.raw(*many) and told.startswith(b"-TOOLARGE") == is_refused, told[:99]
            before, most = durable.memory(), 0
            with durable.client() as deaf:
                deaf.socket.sendall(served.packed("MGET", *["a"] * 127) * 40)
                end = time.monotonic() + 1.5
                while time.monotonic() < end:
                    most = max(most, durable.memory() - before)
                    time.sleep(0.01)
                answer = b"*127\r\n" + (b"$65535\r\n" + b"x" * 65_535 + b"\r\n") * 127
                assert all(deaf.stream.read(len(answer)) == answer for _ in range(40))
        assert most < 64 << 20, f"{most} bytes more"
    return f"{most >> 20} MiB more memory"


def a_refusal_of_one_key_hides_no_write_of_another(program):
    with folder() as data, served.served(program, "--data", data, "--bounds", "m,t", "--wait", 300) as server:
        with server.client() as client, server.client() as other:
            for shard in (1, 2):
                client.ask("SM", "PAUSE", shard)
            for words, name, held in [
                (("MSET", "a", 1, "z", 1), "UNKNOWN", b"1"),
                (("MGET", "a", "z"), "SHARDPAUSED", b"1"),
                (("MSET", "n", 1, "z", 1), "SHARDPAUSED", b"1"),
                (("DEL", "z", "a"), "UNKNOWN", None),
            ]:
                told = str(answer_of(client, words))
                assert told.startswith(f"{name} "), (words, told)
                # If the disk is slow, the write may come later than the refusal of the other key.
                wait_until(lambda: answer_of(other, ("GET", "a")) == held, words)


def commands_of_a_transaction_are_counted_once(program):
    with folder() as data, over(program, data) as durable, served.served(program, "--shards", SHARDS) as memory:
        for server in (durable, memory):
            with server.client() as client:
                lines = [("INFO",), ("MULTI",), *[("INCR", "a")] * 7, ("EXEC",), ("INFO",)]
                told = [it for it in client.piped(lines) if isinstance(it, bytes)]
                before, after = (int(re.search(rb"total_commands_processed:(\d+)", it)[1]) for it in told)
                assert after - before == 10, after - before


# Commands that go over keys, with few keys in each shard, so that no cursor is told; and commands that transactions
# refuse.
SCANS = [
    ("DBSIZE",), ("SCANRANGE", "", "", 9), ("SCANRANGE", "b", "{", 9), ("SCANRANGE", "x" * 256, "", 9),
    ("SCANRANGE", "", "", "x"), ("SCAN", 0, "COUNT", 99), ("SCAN", 0, "MATCH", "a*", "COUNT", 99), ("SCAN",),
    ("SCAN", "x"), ("SCAN", 99), ("SCAN", 0, "COUNT", 0), ("SCAN", 0, "NOSUCH", 1),
    ("SCAN", "x", "COUNT", 0), ("SCAN", 99, "COUNT", 0), ("SCAN", 0, "COUNT", 0, "COUNT", 5),
    ("SCAN", 0, "MATCH", "x" * 1_025), ("CONFIG", "GET", "x" * 1_025),
    ("MULTI",), ("SCAN", 0), ("SCANRANGE", "", "", 9), ("DISCARD",),
    ("MULTI",), ("INCR", "{t}n"), ("MULTI",), ("MSET", "{t}1", 1, "{t}2"), ("INCR", "{t}n"), ("EXEC",),
    ("MULTI",), ("MSET", "{t}1"), ("EXEC",), ("MSET", "{t}1", 1, "{t}2"),
]


def answer_of(client, words):
    """Returns the answer, which may be an error."""
    client.send(*words)
    return client.read()


def scans_give_each_key_once_in_order(program):
    for options in scans.OPTIONS:
        options = [*options, "--log-batches", 50]
        with folder() as data:
            with served.served(program, "--data", data, *options) as server:
                client = scans.of(server)
                scans.written(client)
                scans.checked(client, options)
                for shard in range(3):
                    client.execute_command("SM", "MIGRATE", shard, 4)
                scans.checked(client, "after migrations")
            with served.served(program, "--data", data, *options) as server:
                scans.checked(scans.of(server), "after a start")


def cursors_stay_known_where_others_scan(program):
    with folder() as data, over(program, data) as server, server.client() as client:
        client.piped([("SET", it, 1) for it in range(9)])
        scans.cursors_stay_known(server)


def scans_give_what_stays_while_shards_move(program):
    with folder() as data, over(program, data, "--sync", "no", "--log-batches", BATCHES) as server:
        with server.client() as client, server.client() as other:
            stays = {f"stays:{it}".encode() for it in range(300)}
            client.piped([("SET", it, 1) for it in stays])
            writers = [Writer(server.port, it, {}) for it in range(3)]
            for it in writers:
                it.start()
            end, rounds = time.monotonic() + 3, 0
            while time.monotonic() < end:
                found = scans.scanned(client, random.choice((3, 20, 1000)))
                assert stays <= found, f"{len(stays - found)} keys aren't given"
                new = f"new:{rounds}".encode()
                client.ask("SET", new, 1)
                assert new in scans.scanned(other)
                assert client.ask("DEL", new) == 1 and new not in scans.scanned(other)
                shard = rounds % SHARDS
                client.ask("SM", "MIGRATE", shard, owner(client, shard) % 4 + 1)
                rounds += 1
    return f"{rounds} rounds"


def scans_wait_for_a_paused_shard(program):
    asked = ("SCAN", 0, "COUNT", 1000), ("SCANRANGE", "", "", 9), ("DBSIZE",)
    with folder() as data, over(program, data, "--wait", 300) as server, server.client() as client:
        client.ask("SM", "PAUSE", 7)
        for words in asked:
            began = time.monotonic()
            assert scans.refused(server, *words) == "SHARDPAUSED" and time.monotonic() - began > 0.25, words
    with folder() as data, over(program, data) as server, server.client() as client:
        client.piped([("SET", it, 1) for it in range(99)])
        client.ask("SM", "PAUSE", 7)
        for words in asked:
            with server.client() as waiting:
                waiting.send(*words)
                time.sleep(0.05)
                client.ask("SM", "RESUME", 7)
                assert not isinstance(waiting.read(), Refused), words
                client.ask("SM", "PAUSE", 7)


def keys_are_listed_and_flushed(program):
    with folder() as data, over(program, data, "--sync", "no") as server:
        scans.keys_are_listed_and_flushed(server)
        scans.a_flush_waits(server)
    with folder() as data, over(program, data, "--sync", "no", "--wait", 1_000) as server:
        scans.a_flush_that_stops_is_told(server, SHARDS)
    with folder() as data:
        with over(program, data) as server, server.client() as client:
            client.piped([("SET", it, 1) for it in range(300)])
            assert client.ask("FLUSHDB") == "OK" and client.ask("SET", "new", 1) == "OK"
        with over(program, data) as server, server.client() as client:
            assert client.ask("KEYS", "*") == [b"new"]


def what_reads_first_has_no_number(program):
    """SM CALL refuses each such command by this name."""
    with folder() as data, over(program, data) as server, server.client() as client:
        for number, words in enumerate(
            [
                ("GET", "a"), ("GETDEL", "a"), ("GETSET", "a", 1), ("APPEND", "a", 1), ("SETRANGE", "a", 0, 1),
                ("INCRBYFLOAT", "a", 1), ("SETNX", "a", 1), ("SET", "a", 1, "NX"), ("MSETNX", "a", 1),
                ("GETRANGE", "a", 0, 1),
            ], 1
        ):  # fmt: skip
            told = str(answer_of(client, ("SM", "CALL", 1, number, *words)))
            wanted = f"NOTNUMBERED {words[0].lower()} with these arguments doesn't write without reading first, so SM CALL"
            assert told.startswith(wanted) and client.ask("GET", "a") is None, told
        for words, wanted in (
            (("INCRBY", "a", "x"), "ERR value is not an integer"), (("SET", "a", 1, "XY"), "ERR syntax error"),
            (("SET", "a", "v" * 65_536), "TOOLONG"),
        ):  # fmt: skip
            told = str(answer_of(client, ("SM", "CALL", 1, 98, *words)))
            assert told.startswith(wanted) and client.ask("GET", "a") is None, told
        for words in (("KEYS", "*"), ("FLUSHDB",), ("PING",), ("MSET", *"a1b2c3d4e5f6g7h8i9")):
            told = str(answer_of(client, ("SM", "CALL", 1, 99, *words)))
            assert told.startswith(("NOTNUMBERED", "CROSSSHARD")) and client.ask("DBSIZE") == 0, told
        assert client.ask("SM", "CALL", 1, 100, "INCR", "a") == 1


def random_lines(chance, count):
    """Returns commands on few keys. Some are in transactions of one shard."""
    keys = ["a", "b", "c", "{t}1", "{t}2"]
    texts = ["1", "-7", "x", "007", "", "9223372036854775807", "two words", "12345"]
    found = []
    while len(found) < count:
        key, other, text = chance.choice(keys), chance.choice(keys), chance.choice(texts)
        simple = [
            ("GET", key), ("SET", key, text), ("APPEND", key, text), ("INCR", key), ("DECR", key), ("STRLEN", key),
            ("INCRBY", key, text), ("DECRBY", key, text), ("DEL", key, other), ("EXISTS", key, other, key),
            ("TYPE", key), ("MGET", key, other, "none"), ("MSET", key, text, other, "z"), ("SET", key, text, "NX"),
            ("SET", key, text, "XX", "GET"), ("SET", key, text, "EX", 3), ("DEL", key), ("DEL", key, "{t}1", "{t}2"),
            ("GETSET", key, text), ("GETDEL", key), ("SETNX", key, text), ("SUBSTR", key, 1, -2),
            ("GETRANGE", key, chance.randint(-4, 4), text), ("TOUCH", key, other), ("UNLINK", key, other, "{t}1"),
            ("MSETNX", "{t}1", text, "{t}2", "new"), ("MSETNX", "{t}2", text), ("INCRBYFLOAT", key, text),
            ("SETRANGE", key, chance.randint(-1, 9), text), ("INCRBYFLOAT", key, "0.5"),
        ]
        found.append(chance.choice(simple))
        if chance.random() < 0.1:
            inner = [("INCR", "{t}1"), ("APPEND", "{t}2", text), ("GET", "{t}1"), ("DEL", "{t}2"), ("PING",)]
            inner += [("GETSET", "{t}1", text), ("GETDEL", "{t}2"), ("SETNX", "{t}2", text), ("TOUCH", "{t}1", "{t}2")]
            found += [("MULTI",), *chance.sample(inner, 3), ("EXEC",)]
    return found


@contextlib.contextmanager
def served_refusal(name):
    try:
        yield
    except Refused as refused:
        assert str(refused).startswith(name), refused
        return
    raise AssertionError(f"it isn't refused by {name}")


class Writer(threading.Thread):
    """Writes to its own keys until the server is gone, and keeps the answers."""

    def __init__(self, port, number, held):
        super().__init__(daemon=True)
        self.port, self.number, self.held = port, number, held
        self.answered = 0

    def run(self):
        with contextlib.suppress(ConnectionError, OSError):
            with served.Client(self.port) as client:
                while True:
                    self.write(client)

    def write(self, client):
        chance = random.random()
        key = f"{self.number}:{random.randrange(20)}"
        last = self.held.get(key, (None, None))[0]
        if chance < 0.4:
            value = f"{random.random()}"
            self.held[key] = (last, value)
            client.ask("SET", key, value)
        elif chance < 0.8:
            key = f"{self.number}:count"
            last = self.held.get(key, (None, None))[0]
            value = str(int(last or 0) + 1)
            self.held[key] = (last, value)
            assert client.ask("INCR", key) == int(value), f"{key} wasn't {last}"
        else:
            value = None
            self.held[key] = (last, value)
            client.ask("DEL", key)
        self.held[key] = (value, value)
        self.answered += 1


def checked(client, held, stood):
    """Checks that each key has the value that was acknowledged last, or one that was sent and not answered; that counts
    are right; and that no shard has gone back. Returns the stands of the shards."""
    for key, (answered, asked) in held.items():
        found = client.ask("GET", key)
        found = None if found is None else found.decode()
        assert found in (answered, asked), f"{key} holds {found}, not {answered} or {asked}"
        held[key] = (found, found)
    keys = sum(found is not None for found, _ in held.values())
    counted = client.ask("DBSIZE")
    assert counted == keys, f"{counted} keys are counted, and {keys} hold something"
    now = [int(it[5]) for it in stands(client)]
    gone_back = [it for it, (before, after) in enumerate(zip(stood, now)) if after < before]
    assert not gone_back, f"shards {gone_back} had {stood} and have {now}"
    return now


def kill(program, data, held, stood, seconds):
    """Runs a server over the folder under load until it is killed. Returns the stands of the shards, and how many
    writes were answered."""
    command = served.server_command(program, "--data", data, "--shards", SHARDS, "--log-batches", BATCHES)
    with subprocess.Popen(command, stderr=subprocess.PIPE, stdin=subprocess.DEVNULL, text=True) as process:
        port = served.port_of(process)
        reading = served.read_all(process, collections.deque(maxlen=0))
        with served.Client(port) as client:
            stood = checked(client, held, stood)
            writers = [Writer(port, it, part) for it, part in enumerate(parts(held))]
            for it in writers:
                it.start()
            end = time.monotonic() + seconds
            while time.monotonic() < end:
                shard = random.randrange(SHARDS)
                with contextlib.suppress(Refused):
                    client.ask("SM", "MIGRATE", shard, random.randrange(1, 5))
                    stood[shard] = max(stood[shard], int(client.ask("SM", "LOOK", shard).split()[4]))
            process.send_signal(signal.SIGKILL)
            process.wait()
            reading.join(served.SECONDS)
        for it in writers:
            it.join(served.SECONDS)
            held.update(it.held)
    return stood, sum(it.answered for it in writers)


def parts(held):
    """The keys of each writer."""
    for number in range(CLIENTS):
        yield {key: it for key, it in held.items() if key.startswith(f"{number}:")}


def killed(program, count, seconds, tell=lambda *_: None):
    """Kills a server so often, each time after some such time. Returns how many writes were answered."""
    held, stood, total = {}, [0] * SHARDS, 0
    with folder() as data:
        for number in range(count):
            stood, answered = kill(program, data, held, stood, seconds * random.uniform(0.3, 1.7))
            total += answered
            tell(number + 1, total)
        with over(program, data) as server, server.client() as client:
            checked(client, held, stood)
    return total


def kills_lose_nothing_that_was_answered(program):
    total = killed(program, KILLS, 0.3)
    return f"{KILLS} kills, {total} writes answered"


def owners(client):
    return [it[2] for it in client.rows("SHARDS")]


def wait_until(is_so, what):
    end = time.monotonic() + served.SECONDS
    while not is_so():
        assert time.monotonic() < end, f"in vain: {what}"
        time.sleep(0.01)


@again
def drains_and_returns_go_on_at_the_next_start(program):
    """A process ends while shards go elsewhere, or come home after a restart."""
    with folder() as data:
        for word, doing in (("RESTART", b"returning"), ("DRAIN", b"draining")):
            with over(program, data, "--pace", 50) as server, server.client() as client, server.client() as other:
                before = owners(client)
                other.send("SM", word, 2)
                caught(lambda: any(doing in it for it in client.ask("SM", "SERVERS")), other)
                # Each shard takes four steps, so this is in the middle of the first one.
                time.sleep(0.1)
            with over(program, data) as server, server.client() as client:
                are_elsewhere = word == "DRAIN"
                wait_until(lambda: "2" not in owners(client) if are_elsewhere else owners(client) == before, word)
                wait_until(lambda: not any(b" of " in it for it in client.ask("SM", "SERVERS")), "its end is told")


def restarts_wait_for_no_server_that_has_failed(program):
    """They do so although nobody brings the server back. The shards of a restarting server do, until it has failed."""
    with folder() as data, over(program, data) as server, server.client() as client, server.client() as other:
        for begins in ((), ("ASK", "APPROVE")):
            for word in begins:
                client.ask("SM", word, 2)
            if not begins:
                client.ask("SM", "FAIL", 2)
            other.send("SM", "RESTART", 1)
            if begins:
                waits = b"waiting for server 2, approved"
                wait_until(lambda: any(waits in it for it in client.ask("SM", "SERVERS")), "it waits")
                client.ask("SM", "FAIL", 2)
            told = str(other.read())
            assert told.startswith("REFUSED GlobalCap: ") and "server 2 has failed" in told, told
            assert [it[1] for it in client.rows("SERVERS")] == ["up", "failed", "up", "up"]
            client.ask("SM", "BACK", 2)
        assert str(client.ask("SM", "RESTART", 1)).startswith("server 1 is back")


def shards_spread_as_far_as_they_fit(program):
    """A shard for which there is no room elsewhere stays, and the answer says so."""
    rows = {
        "version": 1, "bounds": ["", "g", "n", "t", "w"], "groups": [{"limit": 5, "down": 5}], "ops": 2, "kept": 9,
        "servers": [{"id": it, "domain": it, "capacity": size} for it, size in ((1, 5), (2, 1), (3, 5))],
        "shards": [{"group": 0, "load": 1, "cap": 1}] * 5, "ceiling": 10_000, "workers": 1,
    }  # fmt: skip
    with folder() as data:
        settings = pathlib.Path(f"{data}.json")
        settings.write_text(json.dumps(rows))
        with served.served(program, "--data", data, "--settings", settings) as server, server.client() as client:
            for shard, owner in enumerate(owners(client)):
                if owner != "1":
                    client.ask("SM", "MIGRATE", shard, 1)
            told = client.ask("SM", "SPREAD")
            assert sorted(owners(client)) == ["1", "1", "2", "3", "3"], (owners(client), told)
            assert [it.split(b";")[0].split(b":")[1:2] for it in told].count([b" REFUSED NoCapacity"]) == 1, told


def migrations_lose_no_addition(program):
    with folder() as data, over(program, data, "--sync", "no") as server:
        acked, stop = [0] * CLIENTS, threading.Event()

        def add(number):
            with server.client() as client:
                while not stop.is_set():
                    client.ask("INCR", "{hot}")
                    acked[number] += 1

        threads = [threading.Thread(target=add, args=(it,)) for it in range(CLIENTS)]
        for it in threads:
            it.start()
        with server.client() as client:
            shard = client.ask("SM", "KEY", "{hot}")
            end, moves = time.monotonic() + 3, 0
            while time.monotonic() < end:
                client.ask("SM", "MIGRATE", shard, owner(client, shard) % 4 + 1)
                moves += 1
                time.sleep(0.002)
            client.ask("SM", "RESTART")
            stop.set()
            for it in threads:
                it.join()
            counted = int(client.ask("GET", "{hot}"))
        assert counted == sum(acked), f"{sum(acked)} answered, {counted} counted"
    return f"{counted} additions, {moves} migrations"


def spent_generations_are_told(program):
    """This is as in memory, at the step where a migration would begin: nobody is told to try again if that can never
    succeed."""
    # Two migrations leave no generation.
    words = [SETTINGS, "--servers", "2", "--ranges", "1", "--ceiling", "9"]
    line = subprocess.run(words, check=True, capture_output=True, text=True).stdout
    with folder() as data, tempfile.NamedTemporaryFile("w", suffix=".json") as settings:
        settings.write(line)
        settings.flush()
        options = ["--data", data, "--settings", settings.name]
        with served.served(program, *options) as server, server.client() as client:
            told = [str(answer_of(client, ("SM", "MIGRATE", 0, it))) for it in (2, 1, 2)]
            assert told[:2] == ["OK", "OK"], told
            assert told[2].startswith("REFUSED Spent: the shard's generations are spent; try: "), told


def owner(client, shard):
    return int(client.ask("SM", "LOOK", shard).split()[1])


def refused_start(program, *options):
    """Returns the message of a start that is refused."""
    command = [program, "--port", "0", "--http-port", "0", *map(str, options)]
    ran = subprocess.run(command, capture_output=True, text=True, timeout=served.SECONDS)
    assert ran.returncode == 1, f"it ended with {ran.returncode}"
    return ran.stderr


def changed(file, statement):
    """Changes the file of a folder with this statement."""
    with contextlib.closing(sqlite3.connect(file)) as tables:
        tables.execute(statement)
        tables.commit()


def wrong_folders_are_refused_by_name(program):
    with folder() as data:
        with over(program, data) as server, server.client() as client:
            client.ask("SET", "a", 1)
            told = refused_start(program, "--data", data, "--shards", SHARDS)
            assert "in use by another process" in told, told
        told = refused_start(program, "--data", data, "--shards", 8)
        assert "OTHERSETTINGS" in told and "16 shards by hash" in told and "8 shards" in told, told
        file = pathlib.Path(data) / "durkenzo.sqlite"
        torn = pathlib.Path(f"{data}-torn")
        shutil.copytree(data, torn)
        with open(torn / file.name, "r+b") as torn_file:
            torn_file.truncate(5000)
        told = refused_start(program, "--data", torn, "--shards", SHARDS)
        assert "damaged" in told or "isn't of this program" in told, told
        changed(file, "PRAGMA user_version = 9")
        told = refused_start(program, "--data", data, "--shards", SHARDS)
        assert "version 9" in told, told


def damaged_logs_are_refused_by_name(program):
    with folder() as data:
        with over(program, data) as server, server.client() as client:
            client.piped([("SET", f"key:{it}", it) for it in range(100)])
        changed(f"{data}/durkenzo.sqlite", "UPDATE pairs SET value = x'00' WHERE CAST(key AS TEXT) LIKE 'batch/%'")
        with over(program, data) as server, server.client() as client:
            with served_refusal("SHARDDAMAGED"):
                client.ask("GET", "key:1")


def changed_bits_are_refused_by_name(program):
    """If one bit of a value is flipped, each key has the right value, or its shard is refused and others go on."""
    with folder() as data:
        file = pathlib.Path(data) / "durkenzo.sqlite"
        values = {f"key:{it}": f"value {it:03} ".encode() * 30 for it in range(100)}
        with over(program, data) as server, server.client() as client:
            client.piped([("SET", *it) for it in values.items()])
        whole, refused = file.read_bytes(), 0
        for _ in range(6):
            changed_bytes = bytearray(whole)
            places = [it.start() for it in re.finditer(random.choice(list(values.values())), whole)]
            changed_bytes[random.choice(places) + random.randrange(300)] ^= 1 << random.randrange(8)
            file.write_bytes(changed_bytes)
            refused += refused_keys(program, data, values)
        assert refused, "no bit of a value was changed"
        file.write_bytes(whole)
        to = "CAST(replace(CAST(value AS TEXT), 'hash', 'hasi') AS BLOB)"
        changed(file, f"UPDATE pairs SET value = {to} WHERE CAST(key AS TEXT) = 'settings'")
        told = refused_start(program, "--data", data, "--shards", SHARDS)
        assert "the bytes at settings aren't those that were written: restore the folder" in told, told
    return f"{refused} keys refused"


def refused_keys(program, data, values):
    """Returns how many of the written keys are refused. All others must have their values, and can be written."""
    with over(program, data) as server, server.client() as client:
        told = dict(zip(values, client.piped([("GET", it) for it in values])))
        wrong = {it for it, answer in told.items() if answer != values[it] and not isinstance(answer, Refused)}
        assert not wrong, [(it, told[it]) for it in wrong]
        refused = [it for it, answer in told.items() if isinstance(answer, Refused)]
        assert all(str(told[it]).startswith("SHARDDAMAGED ") for it in refused), told
        assert len(refused) < len(values) / 2, refused
        others = [it for it in values if it not in refused]
        assert client.piped([("SET", it, 1) for it in others]) == ["OK"] * len(others)
        return len(refused)


@contextlib.contextmanager
def small_disk(megabytes):
    """Mounts a folder on a disk of this size; yields nothing if nothing can be mounted."""
    with folder() as data:
        pathlib.Path(data).mkdir()
        mount = ["mount", "-t", "tmpfs", "-o", f"size={megabytes}m", "none", data]
        if subprocess.run(mount, capture_output=True).returncode:
            yield None
            return
        try:
            yield data
        finally:
            subprocess.run(["umount", data], check=True)


def full_disks_are_refused_by_name(program):
    with small_disk(1) as data:
        if not data:
            return "nothing can be mounted here"
        with over(program, data) as server, server.client() as client:
            held = fill(client)
            assert client.piped([("GET", key) for key in held]) == list(held.values())


def full_disks_take_deletions_and_then_writes(program):
    """This also holds after a crash: the server starts, reads, deletes, and makes room by itself or on command."""
    for is_told in (False, True):
        with small_disk(6) as data:
            if not data:
                return "nothing can be mounted here"
            held = filled_and_killed(program, data)
            with over(program, data) as server, server.client() as client:
                assert client.piped([("GET", key) for key in held]) == list(held.values())
                with served_refusal("STOREFULL"):
                    client.ask("SET", "large", b"y" * 20_000)
                deleted = list(held)[10:]
                told = client.piped([("DEL", key) for key in deleted])
                assert told == [1] * len(deleted), told
                if is_told:
                    assert client.ask("SM", "COMPACT") == "OK"
                wait_until(lambda: answers(client, "again"), "there is room again")
                kept = list(held)[:10]
                wanted = [held[it] for it in kept]
                again = {f"again:{it}": b"z" * 20_000 for it in range(60)}
                for key, value in again.items():
                    wait_until(lambda: answers(client, key, value), "there is room")
            with over(program, data) as server, server.client() as client:
                assert client.piped([("GET", key) for key in kept]) == wanted
                assert client.piped([("GET", key) for key in again]) == list(again.values())
                assert client.ask("DBSIZE") == len(kept) + len(again) + 1
    return f"{len(held)} keys"


def filled_and_killed(program, data):
    """Runs a server over the folder until its disk is full, and then kills it. Returns what was written."""
    command = served.server_command(program, "--data", data, "--shards", SHARDS)
    with subprocess.Popen(command, stderr=subprocess.PIPE, stdin=subprocess.DEVNULL, text=True) as process:
        try:
            with served.Client(served.port_of(process)) as client:
                return fill(client)
        finally:
            process.kill()


def fill(client):
    """Writes until the disk is full. Returns what was written."""
    held = {}
    with served_refusal("STOREFULL"):
        for number in range(1_000):
            key, value = f"key:{number}", b"x" * 20_000
            client.ask("SET", key, value)
            held[key] = value
    assert len(held) > 5
    return held


def waiting_stops_its_own_connections_alone(program):
    """If others waited too, a client that waits for the shard would be refused before these are answered."""
    with folder() as data, over(program, data, "--sync", "no") as server, server.client() as client:
        client.ask("SET", "{hot}", 1)
        shard = client.ask("SM", "KEY", "{hot}")
        client.ask("SM", "PAUSE", shard)
        other = next(key for key in map(str, range(99)) if client.ask("SM", "KEY", key) != shard)
        with server.client() as waiting:
            waiting.send("INCR", "{hot}")
            for _ in range(20):
                client.ask("INCR", other)
            client.ask("SM", "RESUME", shard)
            assert waiting.read() == 2
    with folder() as data, over(program, data, "--wait", 200) as server, server.client() as client:
        client.ask("SM", "PAUSE", client.ask("SM", "KEY", "{hot}"))
        with served_refusal("SHARDPAUSED"):
            client.ask("GET", "{hot}")


# Requests of clients that leave at once, how many such clients there are, and for how long.
ASKED = [("GET", "a"), ("SET", "a", "x"), ("DBSIZE",), ("SCAN", "0"), ("SM", "SHARDS")]
LEAVERS, BEGUN, BESIDE = 4, 0.4, 0.4
# The longest mean time that another client may wait for an answer, or how many times the mean without them just before,
# and the most descriptors that the server may have then.
MOST_WAIT, TIMES, MOST_DESCRIPTORS = 0.1, 20, 500


def mean_of(server, client, *words):
    """Returns the mean time of an answer to this, and the most descriptors that the server has meanwhile."""
    began, count, most = time.monotonic(), 0, 0
    while time.monotonic() < began + BESIDE or count < 10:
        client.ask(*words)
        count, most = count + 1, max(most, server.descriptors())
    return (time.monotonic() - began) / count, most


def beside_leavers(server, words):
    """Returns by how much the mean time of an answer to GET exceeds its bound while clients ask this and leave, the
    time itself, and the most descriptors that the server has then."""
    command = [sys.executable, pathlib.Path(__file__).parent / "leavers.py", str(server.port), *words]
    with contextlib.ExitStack() as stack, server.client() as client:
        client.ask("GET", "a")
        # A client that reads a key being written waits for the disk.
        alone = max(mean_of(server, client, *it)[0] for it in (("GET", "a"), words))
        for _ in range(LEAVERS):
            stack.enter_context(served.begun(command))
        time.sleep(BEGUN)
        took, most = mean_of(server, client, "GET", "a")
        return took / max(MOST_WAIT, TIMES * alone), took, most


def who_asks_and_leaves_holds_nobody_up(program):
    """Others are answered soon, and descriptors are few. The test is tried again on a machine that has other work."""
    told = []
    options = ("--threads", 2)
    with folder() as data, over(program, data, *options) as durable, served.served(program, *options) as memory:
        with durable.client() as client:
            client.piped([("SET", f"key:{it}", it) for it in range(300)])
        for server, words in [*((durable, it) for it in ASKED), (memory, ("SM", "SHARDS"))]:
            before, found = server.at_rest(), []
            while not found or found[-1][0] > 1 or found[-1][2] > MOST_DESCRIPTORS:
                assert len(found) < served.TRIES, f"beside {words}: seconds of GET and descriptors {found}"
                found.append(beside_leavers(server, words))
                assert server.settle(before) <= before, f"{server.descriptors()} descriptors stay after {words}"
            told.append(f"{found[-1][1] * 1000:.1f} ms and {found[-1][2]}")
    return ", ".join(told)


def reset(client):
    """Ends the connection at once."""
    client.socket.setsockopt(socket.SOL_SOCKET, socket.SO_LINGER, struct.pack("ii", 1, 0))
    client.stream.close()
    client.socket.close()


def work_of_who_has_left_is_dropped(program):
    """A command that waits for a paused shard isn't done once its client is gone. Its descriptor is closed."""
    commands = [("INCR", "a"), ("APPEND", "a", 1), ("MSET", "a", 9, "b", 9)]
    of_store = [*commands, ("DBSIZE",), ("SM", "CALL", 7, 1, "INCR", "a")]
    for name, asked in (("--data", of_store), (None, commands)):
        with contextlib.ExitStack() as stack:
            options = [name, stack.enter_context(folder())] if name else []
            options += ["--shards", 1, "--wait", 60_000]
            server = stack.enter_context(served.served(program, *options))
            client = stack.enter_context(server.client())
            client.ask("SM", "PAUSE", 0)
            before = server.at_rest()
            for words in asked:
                leaves = server.client()
                leaves.send(*words)
                # It is sent before its client leaves.
                time.sleep(0.1)
                reset(leaves)
            assert server.settle(before) <= before, f"{before} descriptors before, and {server.descriptors()} after"
            client.ask("SM", "RESUME", 0)
            assert client.ask("MGET", "a", "b") == [None, None] and client.ask("INCR", "a") == 1


def who_sends_no_more_is_answered(program):
    """It waits for a second at most. A machine that has other work may miss that now and then."""
    sent = b"SET a 1\r\nINCR a\r\nDEL a b\r\nDBSIZE\r\nSM KEY a\r\nSM LOOK 3\r\nGET a\r\n"
    whole, count = rb"\+OK\r\n:2\r\n:1\r\n:0\r\n:\d+\r\n\+Serving .*\r\n\$-1\r\n", 20
    with folder() as data, over(program, data, "--sync", "no") as server:
        told = []
        for _ in range(count):
            with server.client() as client:
                client.socket.sendall(sent)
                client.socket.shutdown(socket.SHUT_WR)
                told.append(client.stream.read())
        answered = sum(bool(re.fullmatch(whole, it)) for it in told)
        assert answered > count // 2, f"{answered} of {count} are answered: {told}"


def migrations_keep_no_client_that_has_left(program):
    with folder() as data, over(program, data, "--pace", 20_000) as server, server.client() as client:
        before = server.at_rest()
        for it in range(50):
            with server.client() as leaves:
                leaves.send("SM", "MIGRATE", it % SHARDS, owner(client, it % SHARDS) % 4 + 1)
                began = time.monotonic()
        assert server.settle(before) <= before, f"{before} descriptors before, and {server.descriptors()} after"
        took = time.monotonic() - began
        # A migration takes three of these paces.
        assert took < 40, f"descriptors stay for {took} s"


def answers(client, key, value=1):
    try:
        return client.ask("SET", key, value) == "OK"
    except Refused:
        return False


def used(client):
    """Returns how many bytes of memory the server uses."""
    return int(re.search(rb"used_memory:(\d+)", client.ask("INFO", "memory"))[1])


def what_is_written_over_or_deleted_takes_no_memory(program):
    text, keys = b"v" * 50_000, [f"key:{it}" for it in range(10)]
    with folder() as data, over(program, data, "--sync", "no") as server, server.client() as client:
        client.piped([("SET", it, text) for it in keys])
        before, most = used(client), 0
        for turn in range(100):
            client.piped([("SET", it, text) for it in keys])
            if turn % 2:
                client.piped([("DEL", it) for it in keys])
            most = max(most, used(client) - before)
        assert most < 20 << 20, f"{most} bytes more, where 50,000,000 were written"
        return f"{most >> 10} KiB more"


TESTS = [
    restarts_keep_all,
    commands_answer_as_in_memory,
    transactions_have_a_bound,
    answers_have_a_bound,
    a_refusal_of_one_key_hides_no_write_of_another,
    commands_of_a_transaction_are_counted_once,
    scans_give_each_key_once_in_order,
    cursors_stay_known_where_others_scan,
    scans_give_what_stays_while_shards_move,
    scans_wait_for_a_paused_shard,
    keys_are_listed_and_flushed,
    what_reads_first_has_no_number,
    wrong_folders_are_refused_by_name,
    damaged_logs_are_refused_by_name,
    changed_bits_are_refused_by_name,
    full_disks_are_refused_by_name,
    full_disks_take_deletions_and_then_writes,
    waiting_stops_its_own_connections_alone,
    who_asks_and_leaves_holds_nobody_up,
    work_of_who_has_left_is_dropped,
    who_sends_no_more_is_answered,
    migrations_keep_no_client_that_has_left,
    drains_and_returns_go_on_at_the_next_start,
    restarts_wait_for_no_server_that_has_failed,
    shards_spread_as_far_as_they_fit,
    spent_generations_are_told,
    migrations_lose_no_addition,
    what_is_written_over_or_deleted_takes_no_memory,
    kills_lose_nothing_that_was_answered,
]

if __name__ == "__main__":
    main(TESTS)
