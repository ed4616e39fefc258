"""SCAN, SCANRANGE and DBSIZE with redis-py, of any server: each key that stays is given once, in order."""
import itertools

import served
from served import Refused

COUNT = 700
KEYS = sorted(f"k{it}" for it in range(COUNT))
# The rules that assign keys to shards.
OPTIONS = ([], ["--ranges", 8], ["--bounds", "k1,k25,k9"], ["--ranges", 5, "--hash"])


def of(server):
    """Returns a client of the server, with redis-py. Tests without such a client don't need redis-py."""
    import redis

    return redis.Redis(port=server.port, decode_responses=True)


def written(client):
    """Writes each key, with its number, and another one that is deleted again."""
    with client.pipeline(transaction=False) as pipe:
        for key in KEYS:
            pipe.set(key, key[1:])
            pipe.set(f"{key}:gone", "x")
        pipe.delete(*(f"{key}:gone" for key in KEYS))
        pipe.execute()


def checked(client, told=""):
    """Checks that there are these keys and no others."""
    assert sorted(client.scan_iter(count=7)) == KEYS, told
    assert sorted(client.scan_iter("k1*", count=500)) == [it for it in KEYS if it.startswith("k1")], told
    assert client.scan(0, _type="list") is not None and list(client.scan_iter(_type="list")) == []
    found = client.execute_command("SCANRANGE", "k2", "k3", 40)
    assert found[::2] == [it for it in KEYS if "k2" <= it < "k3"][:40], (told, found)
    assert found[1::2] == [it[1:] for it in found[::2]]
    assert client.execute_command("SCANRANGE", "", "", 1000)[::2] == KEYS[:100]
    assert client.execute_command("SCANRANGE", "z", "a", 9) == []
    assert client.execute_command("SCANRANGE", "", "", 0) == []
    assert client.dbsize() == COUNT, told


def pages(client, count):
    """Yields the keys of each SCAN, until the cursor is 0."""
    cursor = b"0"
    for number in itertools.count():
        assert number < 10_000, "SCAN has no end"
        cursor, keys = client.ask("SCAN", cursor, "COUNT", count)
        yield keys
        if cursor == b"0":
            return


def scanned(client, count=100):
    """Returns all keys. Each must be given once."""
    found = list(itertools.chain(*pages(client, count)))
    assert len(set(found)) == len(found), "a key is given twice"
    return set(found)


def cursors_stay_known(server):
    """Meanwhile others scan the written keys, more often than cursors are kept."""
    with server.client() as client, server.client() as other:
        cursor, _ = client.ask("SCAN", 0, "COUNT", 1)
        told = other.piped([("SCAN", 0, "COUNT", 1)] * 5_000)
        assert len({it[0] for it in told}) == len(told), "a cursor is given twice"
        assert client.ask("SCAN", cursor, "COUNT", 1) and refused(server, "SCAN", cursor) == "ERR"


def keys_are_listed_and_flushed(server, most=10_000):
    """KEYS returns the same as SCAN, or above its bound says to use SCAN. FLUSHDB leaves nothing, and MULTI refuses
    both."""
    client = of(server)
    assert client.flushdb() and client.dbsize() == 0 and client.keys() == []
    written(client)
    for pattern in ("*", "k1*", "k?", "k[2-4]9", "nosuch*", ""):
        wanted = sorted(client.scan_iter(pattern)) if pattern else []
        assert sorted(client.keys(pattern)) == wanted, pattern
    with server.client() as one:
        for words in (("FLUSHDB", "NOW"), ("FLUSHDB", "SYNC", "SYNC"), ("KEYS", "x" * 1_025), ("KEYS",)):
            assert refused(server, *words) in ("ERR", "TOOLONG"), words
        for words in (("KEYS", "*"), ("FLUSHDB",)):
            told = one.piped([("MULTI",), words, ("EXEC",)])
            assert "not allowed inside a transaction" in str(told[1]) and "EXECABORT" in str(told[2]), told
        assert one.ask("DBSIZE") == COUNT
        if most:
            too_many_keys_are_refused(one, most)
        for how in ("ASYNC", "sync"):
            assert one.ask("SET", "k", 1) == "OK" and one.ask("FLUSHDB", how) == "OK"
            assert one.ask("DBSIZE") == 0 and one.ask("KEYS", "*") == [] and one.ask("GET", "k") is None
        assert one.ask("INCR", "k") == 1 and one.ask("KEYS", "*") == [b"k"]


def too_many_keys_are_refused(client, most):
    for first in range(0, most + 1, 100):
        pairs = ((f"many:{it}", it) for it in range(first, min(first + 100, most + 1)))
        assert client.ask("MSET", *itertools.chain(*pairs)) == "OK"
    for pattern in ("many:*", "*"):
        client.send("KEYS", pattern)
        told = str(client.read())
        assert told.startswith("TOOLARGE KEYS gives") and told.endswith("use SCAN"), told
    assert len(client.ask("KEYS", "many:*[0-8]")) == sum(it % 10 != 9 for it in range(most + 1))


def a_flush_that_stops_is_told(server, shards):
    """A shard is paused for longer than a command waits. The refusal says whether other shards are empty already."""
    keys = [f"k{it}" for it in range(200)]
    with server.client() as client:
        client.piped([("SET", it, 1) for it in keys])
        client.ask("SM", "PAUSE", shards - 1)
        assert refused(server, "FLUSHDB") == "UNKNOWN"
        left = [it for it in keys if client.ask("SM", "KEY", it) == shards - 1]
        client.ask("SM", "RESUME", shards - 1)
        assert sorted(it.decode() for it in client.ask("KEYS", "*")) == sorted(left) and left
        client.ask("SM", "PAUSE", 0)
        assert refused(server, "FLUSHDB") == "SHARDPAUSED" and refused(server, "KEYS", "*") == "SHARDPAUSED"


def a_flush_waits(server):
    """The command waits for a paused shard."""
    with server.client() as client, server.client() as waiting:
        client.piped([("SET", it, 1) for it in range(200)])
        client.ask("SM", "PAUSE", 0)
        waiting.send("FLUSHDB")
        client.ask("SM", "RESUME", 0)
        assert waiting.read() == "OK" and client.ask("DBSIZE") == 0


def refused(server, *words):
    """Returns the name of the command's refusal."""
    with served.Client(server.port) as client:
        try:
            client.ask(*words)
        except Refused as why:
            return str(why).split()[0]
    raise AssertionError(f"{words} isn't refused")
