#!/usr/bin/env python3
"""Clients that send something invalid, or nothing, or don't read: hostile.py PROGRAM."""
import contextlib
import random
import re
import resource
import select
import signal
import socket
import subprocess
import tempfile
import time
import urllib.error
import urllib.request

from served import SECONDS, TRIES, Client, Refused, eventually, free_port, main, packed, served

SEED = 20_251_126
SPOILT_BYTES = 1_000_000
# There are fewer if the system gives a process fewer descriptors.
IDLE = min(10_000, resource.getrlimit(resource.RLIMIT_NOFILE)[1] - 500)
# How much memory an idle connection with half a command may take.
MOST_IDLE_BYTES = 2_000
MEBIBYTE = 1 << 20
# The text about bounds behind Redis' words.
BYTES = b": at most 536870912 bytes of a command are read"
ARGUMENTS = b": at most 1048576 arguments of a command are read"
# The answer to a command that is read to its end and refused.
MANY = "TOOLARGE a command has at most 1024 arguments, its name among them: send it in parts"
LARGE = "TOOLARGE a command has at most 1048576 bytes: send it in parts"
# The answer to a command whose data may take more memory, above --max-memory.
OVER = "OOM command not allowed when used memory > 'maxmemory'."
# The beginning of refusals if the system gives no more memory, and the commands of each client then.
NO_MEMORY = "OOM memory was refused"
TRIED = [("PING",), ("STRLEN", "key 0"), ("GET", "key 0"), ("APPEND", "key 1", ""), ("DEL", "nothing"), ("DBSIZE",)]
# How many bytes a client reads that always waits for more, and for how many answers it waits.
READ, OUTSTANDING = 100_000_000, 100
PIECES = [
    b"*", b"$", b"\r\n", b"\n", b"-1", b"9223372036854775808", b"\x00", b"\xff" * 9, b'"', b"*1024\r\n", b"$65536\r\n",
]  # fmt: skip
COMMANDS = [
    ("GET", "a"), ("SET", "a", "b" * 40), ("INCR", "n"), ("MGET", "{t}a", "{t}b"), ("MULTI",), ("EXEC",), ("DISCARD",),
    ("SCAN", "0"), ("SCANRANGE", "", "", "10"), ("CLIENT", "SETNAME", "x"), ("HELLO", "3"), ("HELLO", "2"),
    ("ECHO", "x"), ("APPEND", "a", "x"), ("DEL", "a"),
    ("INFO",), ("COMMAND",), ("SM", "LOOK", "0"), ("SM", "AT", "1", "GET", "a"),
    ("SM", "MIGRATE", "0", "2"), ("SELECT", "0"), ("TYPE", "a"), ("CONFIG", "GET", "*"), ("AUTH", "x"), ("RESET",),
]  # fmt: skip


def spoilt(chance):
    """Returns commands of which some bytes are changed, lost or added."""
    bytes_ = bytearray(b"".join(packed(*chance.choice(COMMANDS)) for _ in range(chance.randrange(1, 20))))
    for _ in range(chance.randrange(1, 5)):
        at = chance.randrange(len(bytes_))
        match chance.randrange(4):
            case 0:
                bytes_[at] = chance.randrange(256)
            case 1:
                del bytes_[at : at + chance.randrange(1, 9)]
            case 2:
                bytes_[at:at] = chance.choice(PIECES)
            case _:
                bytes_[at:at] = bytes(chance.randrange(256) for _ in range(chance.randrange(1, 9)))
        bytes_ = bytes_ or bytearray(b"*")
    return bytes(bytes_)


def sent(port, bytes_):
    """Sends them, and reads answers until nothing comes for a while or the connection ends."""
    with socket.create_connection(("127.0.0.1", port), SECONDS) as one, contextlib.suppress(ConnectionError):
        one.sendall(bytes_)
        one.shutdown(socket.SHUT_WR)
        while one.recv(1 << 16):
            pass


def spoilt_bytes_crash_and_leak_nothing(program):
    chance = random.Random(SEED)
    with served(program) as server:
        for _ in range(200):
            sent(server.port, spoilt(chance))
        before, memory = server.at_rest(), server.memory()
        count, connections = 0, 0
        while count < SPOILT_BYTES:
            bytes_ = spoilt(chance)
            sent(server.port, bytes_)
            count, connections = count + len(bytes_), connections + 1
        grown = server.memory() - memory
        assert server.settle(before) <= before, f"{before} descriptors before, and {server.descriptors()} after"
        assert grown < 8 * MEBIBYTE, f"{grown} bytes more"
        with server.client() as client:
            assert client.ask("PING") == "PONG"
        return f"{count} bytes in {connections} connections"


def each_bound_is_told(program):
    """A request that is too large is answered once, and the connection ends."""
    with served(program) as server:
        for bytes_, wanted in [
            (b"*1\r\n$9223372036854775808\r\n", b"-ERR Protocol error: invalid bulk length"),
            (b"*1\r\n$536870913\r\n", b"-ERR Protocol error: invalid bulk length" + BYTES),
            (b"*9223372036854775808\r\n", b"-ERR Protocol error: invalid multibulk length"),
            (b"*9223372036854775807\r\n", b"-ERR Protocol error: invalid multibulk length" + ARGUMENTS),
            (b"*1048577\r\n", b"-ERR Protocol error: invalid multibulk length" + ARGUMENTS),
            (b"*1025\r\n$1\r\nabc", b"-ERR Protocol error: expected CRLF behind an argument"),
            (b"*1\r\nGET\r\n", b"-ERR Protocol error: expected '$', got 'G'"),
            (b"x" * 70_000, b"-ERR Protocol error: too big inline request: it has at most 65536 bytes"),
            (b'SET a "b\r\n', b"-ERR Protocol error: unbalanced quotes in request"),
        ]:
            with socket.create_connection(("127.0.0.1", server.port), SECONDS) as one:
                one.sendall(bytes_)
                answer = b""
                with contextlib.suppress(ConnectionError):
                    while more := one.recv(4096):
                        answer += more
                # Unread bytes may make the system drop the answer with the connection.
                assert answer == wanted + b"\r\n" or not answer and len(bytes_) > 65536, (bytes_[:30], answer)


def too_large_commands_are_refused_alone(program):
    """They are read to their end, nothing of them is kept, and the commands behind them are done."""
    with served(program) as server, server.client() as client:
        client.ask("SET", "a", 1)
        many, long = ("MGET", *["a"] * 1_100), ("SET", "a", b"v" * 2 * MEBIBYTE)
        answers = client.piped([many, ("GET", "a"), long, ("GET", "a"), ("DEL", *["a"] * 1_024), ("GET", "a")])
        told = [str(it) if isinstance(it, Refused) else it for it in answers]
        assert told == [MANY, b"1", LARGE, b"1", MANY, b"1"], told
        answers = client.piped([("MULTI",), ("INCR", "a"), many, ("INCR", "a"), ("EXEC",), ("GET", "a")])
        assert str(answers[4]).startswith("EXECABORT") and answers[5] == b"1", answers
        client.socket.sendall(b"DEL" + b" a" * 1_100 + b"\r\nGET a\r\n")
        assert str(client.read()) == MANY and client.read() == b"1"
        before, most, value = server.memory(), 0, b"v" * MEBIBYTE
        client.socket.sendall(b"*3\r\n$3\r\nSET\r\n$1\r\na\r\n$%d\r\n" % (200 * MEBIBYTE))
        with server.client() as other:
            for _ in range(200):
                client.socket.sendall(value)
                assert other.ask("PING") == "PONG"
                most = max(most, server.memory() - before)
        client.socket.sendall(b"\r\n")
        assert str(client.read()) == LARGE and client.ask("GET", "a") == b"1"
        assert most < 8 * MEBIBYTE, f"{most} bytes more"
        client.socket.sendall(b"*1048576\r\n" + b"$0\r\n\r\n" * (1 << 20))
        assert str(client.read()) == MANY and client.ask("GET", "a") == b"1"
        return f"{max(most, 0) >> 10} KiB more memory for 200 MiB"


def slow_senders_are_served(program):
    """It sends byte by byte, and others go on meanwhile."""
    with served(program) as server, server.client() as slow, server.client() as other:
        for byte in packed("SET", "slow", "text") + b"GET slow\r\n":
            slow.socket.sendall(bytes([byte]))
            assert other.ask("PING") == "PONG"
        assert (slow.read(), slow.read()) == ("OK", b"text")


def who_never_reads_takes_no_memory(program):
    with served(program) as server, server.client() as client:
        client.ask("SET", "a", b"v" * 60_000)
        before = server.memory()
        with socket.create_connection(("127.0.0.1", server.port), SECONDS) as deaf:
            deaf.setblocking(False)
            taken, end = 0, time.monotonic() + 1.5
            while time.monotonic() < end:
                if not select.select([], [deaf], [], 0.2)[1]:
                    break
                with contextlib.suppress(BlockingIOError):
                    taken += deaf.send(b"GET a\r\n" * 2_000)
            assert client.ask("PING") == "PONG"
            grown = server.memory() - before
        assert grown < 16 * MEBIBYTE, f"{grown} bytes more after {taken} bytes of requests"
        # A reply has a bound, too.
        answers = client.piped([("MGET", *["a"] * 200), ("PING",)])
        assert str(answers[0]).startswith("TOOLARGE") and answers[1] == "PONG", answers[1]
        client.ask("MULTI")
        assert set(client.piped([("GET", "a")] * 200)) == {"QUEUED"}
        answers = client.ask("EXEC")
        assert len(answers) == 200 and str(answers[-1]).startswith("TOOLARGE")
        # If many reads are too large, only one of them is done, and the writes behind them are done.
        client.ask("MULTI")
        many = [("MGET", *["a"] * 100)] * 500 + [("INCR", "{a}n"), ("SET", "{a}b", 1, "GET"), ("DEL", "a")]
        assert set(client.piped(many)) == {"QUEUED"}
        used = server.processor_seconds()
        answers = client.ask("EXEC")
        assert len(answers[0]) == 100 and str(answers[1]).startswith("TOOLARGE")
        assert answers[500] == 1 and str(answers[501]).startswith("TOOLARGE") and answers[502] == 1, answers[500:]
        assert client.piped([("GET", "{a}b"), ("GET", "{a}n")]) == [None, b"1"]
        used = server.processor_seconds() - used
        assert used < 2, f"{used} processor seconds"
        return f"{taken} bytes of requests taken, {max(grown, 0) >> 10} KiB more memory"


def who_always_waits_for_more_takes_no_memory(program):
    """It reads steadily, and its socket never takes everything that it asked for."""
    with served(program, "--threads", 1) as server, server.client() as client, socket.socket() as one:
        client.ask("SET", "a", b"v" * 60_000)
        length, before, most = len(client.raw("GET", "a")), server.memory(), 0
        one.setsockopt(socket.SOL_SOCKET, socket.SO_RCVBUF, 4_096)
        one.setsockopt(socket.IPPROTO_TCP, socket.TCP_MAXSEG, 1_000)
        one.connect(("127.0.0.1", server.port))
        asked = read = told = 0
        while read < READ:
            if asked - read < OUTSTANDING * length:
                one.sendall(b"GET a\r\n" * OUTSTANDING)
                asked += OUTSTANDING * length
            more = one.recv(1 << 16)
            assert more, f"the connection ended behind {read} bytes"
            read += len(more)
            # By then the thread has sent what the socket took, and done commands.
            assert client.ask("PING") == "PONG"
            if read > told:
                told += 10 * MEBIBYTE
                most = max(most, server.memory() - before)
        assert most < 8 * MEBIBYTE, f"{most} bytes more"
        return f"{read} bytes were read, {max(most, 0) >> 10} KiB more memory"


def scans_leave_turns_to_others(program):
    """Many commands that are sent at once hold the thread no longer than one. They and a command of another client come
    while the server is stopped, so only the server decides which are done first."""
    scans = 400
    with served(program, "--threads", 1) as server, server.client() as client:
        client.piped([("SET", f"k{it}", "v" * 1_000) for it in range(1_000)])
        for _ in range(TRIES):
            before = done(client)
            with server.client() as scanner:
                assert scanner.ask("PING") == "PONG"
                before += 1
                server.process.send_signal(signal.SIGSTOP)
                eventually(server.is_stopped)
                scanner.socket.sendall(b"SCAN 0 COUNT 1000 MATCH zz*\r\n" * scans)
                client.send("INFO", "stats")
                server.process.send_signal(signal.SIGCONT)
                found = done_of(client.read()) - before - 1
                assert all(scanner.read()[1] == [] for _ in range(scans))
            # The command of the other client may have been looked at first.
            if 0 < found:
                assert found < scans, "all were answered first"
                return f"{found} of {scans} were answered before another client"
        raise AssertionError("another client always comes first")


def done(client):
    """Returns how many commands the server has done."""
    return done_of(client.ask("INFO", "stats"))


def done_of(info):
    return int(re.search(rb"total_commands_processed:(\d+)", info)[1])


def web_pages_change_nothing(program):
    """A request that a browser sends for a page, with commands in it, ends the connection, and nothing of it is
    done."""
    with served(program) as server:
        for head in (b"POST / HTTP/1.1\r\n\r\n", b"GET / HTTP/1.1\r\nhost: a\r\n\r\n", b"*1\r\n$4\r\npost\r\n"):
            with socket.create_connection(("127.0.0.1", server.port), SECONDS) as one:
                answer = b""
                with contextlib.suppress(ConnectionError):
                    one.sendall(head + b"SET web 1\r\n")
                    while more := one.recv(4096):
                        answer += more
                assert b"+OK" not in answer and answer.count(b"\n") <= 2, answer
        with server.client() as client:
            assert client.ask("GET", "web") is None


def transactions_are_bounded(program):
    with served(program) as server, server.client() as client:
        client.ask("MULTI")
        answers = client.piped([("INCR", "a")] * 1_100)
        assert answers[1_023] == "QUEUED" and str(answers[1_024]).startswith("QUEUEFULL")
        client.send("EXEC")
        assert str(client.read()).startswith("EXECABORT") and client.ask("GET", "a") is None
        client.ask("MULTI")
        answers = client.piped([("SET", "a", 1), ("SET", "b", 1), ("SET", "c", 1), ("SET", "d", 1), ("EXEC",)])
        assert any(str(it).startswith("CROSSSHARD") for it in answers) and str(answers[-1]).startswith("EXECABORT")


def idle_connections_cost_little(program):
    with served(program) as server:
        before, memory = server.at_rest(), server.memory()
        idle = []
        try:
            for _ in range(IDLE):
                one = socket.create_connection(("127.0.0.1", server.port), SECONDS)
                one.sendall(b"*3\r\n$3\r\nSET\r\n$3\r\n")
                idle.append(one)
            load = ["redis-benchmark", "-p", str(server.port), "-t", "get", "-n", "50000", "-q", "-c", "50"]
            subprocess.run(load, stdout=subprocess.DEVNULL, timeout=5 * SECONDS, check=True)
            each = (server.memory() - memory) / IDLE
            assert each < MOST_IDLE_BYTES, f"{each:.0f} bytes each"
            idle[IDLE // 2].sendall(b"abc\r\n$1\r\nx\r\n")
            assert idle[IDLE // 2].recv(100) == b"+OK\r\n"
        finally:
            for one in idle:
                one.close()
        assert server.settle(before) <= before, f"{server.descriptors()} descriptors"
        return f"{IDLE} connections, {each:.0f} bytes each"


def more_clients_than_allowed_are_told(program):
    with served(program, "--max-clients", 3) as server, contextlib.ExitStack() as stack:
        clients = [stack.enter_context(server.client()) for _ in range(3)]
        assert all(it.ask("PING") == "PONG" for it in clients)
        with Client(server.port) as one:
            answer = one.read()
            assert isinstance(answer, Refused) and "max number of clients" in str(answer), answer


def few_open_files_are_shared_out(program):
    """The soft limit is raised to the hard one. Reserved descriptors let the page answer, however many clients come."""
    port = free_port()
    limited = ["prlimit", "--nofile=256:1024"]
    with served(program, "--http-port", port, before=limited) as server, contextlib.ExitStack() as stack:
        with server.client() as client:
            most = int(client.ask("CONFIG", "GET", "maxclients")[1])
            assert f"maxclients:{most}\r\n" in client.ask("INFO", "clients").decode()
        assert 512 < most < 1_024 - 256, most
        clients = [stack.enter_context(server.client()) for _ in range(1_100)]
        assert all(it.ask("PING") == "PONG" for it in clients[:most])
        told = {str(it.read()) for it in clients[most:]}
        assert told == {"ERR max number of clients reached"}, told
        for path in ("healthz", "metrics"):
            with urllib.request.urlopen(f"http://127.0.0.1:{port}/{path}", timeout=SECONDS) as answer:
                assert answer.status == 200
        return f"{most} clients of 1024 open files"


def quick_ends_leave_nothing(program):
    with served(program) as server:
        before = server.at_rest()
        for turn in range(1_000):
            with socket.create_connection(("127.0.0.1", server.port), SECONDS) as one:
                if turn % 2:
                    one.sendall(b"PING\r\n")
                if turn % 3 == 0:
                    # It resets the connection instead of closing it.
                    one.setsockopt(socket.SOL_SOCKET, socket.SO_LINGER, b"\1\0\0\0\0\0\0\0")
        assert server.settle(before) <= before, f"{before} before, {server.descriptors()} after"


def filled(client, value, name="key"):
    """Sets keys of this name to the value until one is refused. Returns the keys and the refusal."""
    keys = []
    while True:
        keys.append(f"{name} {len(keys)}")
        client.send("SET", keys[-1], value)
        if isinstance(answer := client.read(), Refused):
            return keys[:-1], str(answer)


def page_of(port, path):
    """Returns the status of the page, and its text."""
    try:
        with urllib.request.urlopen(f"http://127.0.0.1:{port}/{path}", timeout=SECONDS) as answer:
            return answer.status, answer.read().decode()
    except urllib.error.HTTPError as error:
        return error.code, error.read().decode()


def beyond_its_memory(program, *options):
    """A command that takes more memory is refused above --max-memory, and everything else goes on."""
    port, most = free_port(), 32 * MEBIBYTE
    with served(program, "--max-memory", "32mb", "--http-port", port, *options) as server:
        with server.client() as client, server.client() as other:
            assert other.piped([("MULTI",), ("SET", "{x}a", 1), ("GET", "{x}a")]) == ["OK", "QUEUED", "QUEUED"]
            keys, why = filled(client, b"v" * 50_000)
            assert why == OVER and 200 < len(keys) < 640, (why, len(keys))
            # The last commands' own bytes were in use, and are free again.
            eventually(lambda: not filled(client, b"v" * 500, "small")[0])
            told = dict(it.split(":") for it in client.ask("INFO", "memory").decode().split("\r\n") if ":" in it)
            assert most - MEBIBYTE < int(told["used_memory"]) < most + 8 * MEBIBYTE, told
            assert (told["maxmemory"], told["maxmemory_policy"]) == (str(most), "noeviction"), told
            assert client.ask("CONFIG", "GET", "maxmemory") == [b"maxmemory", str(most).encode()]
            assert f"durkenzo_memory_max_bytes {most}\n" in page_of(port, "metrics")[1]
            refused = [("APPEND", "a", "x"), ("INCR", "n"), ("DECRBY", "n", 2), ("MSET", "a", 1, "b", 2)]
            assert {str(it) for it in client.piped(refused)} == {OVER}
            assert client.ask("MGET", *keys[:3]) == [b"v" * 50_000] * 3 and client.ask("EXISTS", *keys) == len(keys)
            answers = [str(it) for it in client.piped([("MULTI",), ("SET", "{x}a", 1), ("GET", "{x}a"), ("EXEC",)])]
            assert answers[:3] == ["OK", OVER, OVER] and answers[3].startswith("EXECABORT"), answers
            answers = [str(it) for it in other.piped([("EXEC",), ("EXEC",)])]
            wanted = ["EXECABORT Transaction discarded because of: " + OVER, "ERR EXEC without MULTI"]
            assert answers == wanted, answers
            # A shard gives memory back if more bytes were deleted than stay.
            gone = len(keys) * 3 // 4
            assert client.ask("DEL", *keys[:gone]) == gone and client.ask("EXISTS", *keys) == len(keys) - gone
            eventually(lambda: client.piped([("SET", "a", 1)]) == ["OK"])
            assert client.ask("MGET", "a", keys[-1]) == [b"1", b"v" * 50_000]


def few_bytes_make_no_more_than_allowed(program):
    """A command that makes a long value from few bytes is refused above --max-memory, too."""
    most = 64 * MEBIBYTE
    with served(program, "--max-memory", "64mb") as server, server.client() as client:
        for batch in range(100):
            told = client.piped([("SETRANGE", f"k{batch}.{it}", 65_534, "x") for it in range(100)])[-1]
            if isinstance(told, Refused):
                break
        assert str(told) == OVER, told
        info = dict(it.split(":") for it in client.ask("INFO", "memory").decode().split("\r\n") if ":" in it)
        assert int(info["used_memory"]) < most + 8 * MEBIBYTE, info
        return f"{int(info['used_memory']) >> 20} MiB of {most >> 20}"


def more_memory_than_allowed_is_refused(program):
    beyond_its_memory(program)
    with tempfile.TemporaryDirectory() as folder:
        beyond_its_memory(program, "--data", folder, "--sync", "no")


def told_beside(server, keys):
    """Returns the answers to clients, or that their connection ends, if the system gives no more memory."""
    shown = [("MGET", *keys[:100]), ("SM", "DUMP", "full"), ("SM", "SHARDS"), ("SM", "SERVERS"), ("INFO",)]
    shown += [("SCAN", 0, "COUNT", 1_000), ("SCANRANGE", "", "", 100), ("COMMAND",), ("SET", "more", b"v" * 60_000)]
    shown += [("MULTI",), *[("GET", keys[0])] * 100, *[("SET", keys[0], b"v" * 60_000)] * 15, ("EXEC",)]
    for command in shown:
        with server.client() as one:
            try:
                one.send(*command)
                yield str(one.read())
            except OSError as error:
                yield str(error)


def without_memory(program, limit, *options):
    """If the system gives no more memory, nothing ends the process, and all its data stays. Returns how many keys there
    are."""
    port = free_port()
    with contextlib.ExitStack() as stack:
        options = ("--threads", 2, "--http-port", port, *options)
        server = stack.enter_context(served(program, *options, before=("prlimit", f"--as={limit}")))
        clients = [stack.enter_context(server.client()) for _ in range(20)]
        keys, why = filled(clients[0], b"v" * 60_000)
        assert why.startswith(NO_MEMORY) and len(keys) > 200, (why, len(keys))
        # Clients that are there are answered. New clients are answered, or told why not.
        for client in clients:
            client.socket.sendall(b"".join(packed(*it) for it in TRIED) + packed("MGET", *keys[:100]))
        for client in clients:
            answers = [client.read() for _ in range(len(TRIED) + 1)]
            assert answers[0] == "PONG" and all(may_be(it) for it in answers), answers
        for _ in range(3):
            for told in told_beside(server, keys):
                assert server.is_alive(), told
        for one in [stack.enter_context(server.client()) for _ in range(50)]:
            with contextlib.suppress(ConnectionError):
                one.send("PING")
                assert str(one.read()).startswith(("PONG", "OOM"))
        assert page_of(port, "healthz")[0] == 200 and page_of(port, "metrics")[0] in (200, 503)
        # After some keys are deleted, all others are there.
        gone = len(keys) * 3 // 4
        assert sum(clients[0].piped([("DEL", it) for it in keys[:gone]])) == gone
        assert all(clients[1].ask("GET", it) == b"v" * 60_000 for it in keys[gone:])
        eventually(lambda: clients[0].piped([("SET", "a", 1)]) == ["OK"])
        assert all(it.ask("PING") == "PONG" for it in clients)
        return len(keys)


def refused_memory_is_an_answer(program):
    with tempfile.TemporaryDirectory() as folder:
        small, large = (without_memory(program, it * MEBIBYTE, "--folder", folder) for it in (150, 300))
    return f"{small} and {large} keys"


def may_be(answer):
    """Returns whether the answer is no refusal, or one for lack of memory."""
    return not isinstance(answer, Refused) or str(answer).startswith(NO_MEMORY)


def what_clients_took_is_given_back(program):
    """When they are gone, the process has little more memory than before."""
    with served(program) as server:
        before = server.memory()
        with contextlib.ExitStack() as stack:
            clients = [stack.enter_context(server.client()) for _ in range(200)]
            for client in clients:
                client.socket.sendall(packed("MULTI") + packed("SET", "a", b"v" * 60_000) * 15)
            for client in clients:
                assert [client.read() for _ in range(16)] == ["OK", *["QUEUED"] * 15]
            most = server.memory() - before
            assert most > 100 * MEBIBYTE, most
        eventually(lambda: server.memory() - before < most // 2)
        return f"{most >> 20} MiB, and then {(server.memory() - before) >> 20}"


TESTS = [
    spoilt_bytes_crash_and_leak_nothing,
    each_bound_is_told,
    too_large_commands_are_refused_alone,
    slow_senders_are_served,
    who_never_reads_takes_no_memory,
    who_always_waits_for_more_takes_no_memory,
    scans_leave_turns_to_others,
    web_pages_change_nothing,
    transactions_are_bounded,
    idle_connections_cost_little,
    more_clients_than_allowed_are_told,
    few_open_files_are_shared_out,
    more_memory_than_allowed_is_refused,
    few_bytes_make_no_more_than_allowed,
    refused_memory_is_an_answer,
    what_clients_took_is_given_back,
    quick_ends_leave_nothing,
]

if __name__ == "__main__":
    most = resource.getrlimit(resource.RLIMIT_NOFILE)[1]
    resource.setrlimit(resource.RLIMIT_NOFILE, (most, most))
    main(TESTS)
