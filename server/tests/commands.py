#!/usr/bin/env python3
"""Every command, beside redis-server and with redis-py: commands.py PROGRAM. It needs redis-server and redis-py."""
import contextlib
import itertools
import pathlib
import random
import re
import socket
import subprocess
import tempfile
import time

import redis
import scans
from served import SECONDS, Client, Refused, eventually, free_port, main, served

SM = pathlib.Path(__file__).resolve().parents[2] / "sm"

# Each is sent to both servers. Their answers must be the same bytes.
ALIKE = """
GET a
SET a 10
GET a
INCR a
INCRBY a -20
DECR a
DECRBY a 5
APPEND a 0
INCR a
STRLEN a
SET a 007
INCR a
INCRBY a 1x
SET a hello
APPEND a world
GET a
STRLEN a
SET a 9223372036854775807
INCR a
DECRBY a -9223372036854775808
SET a b NX
SET a b XX
SET a c XX GET
SET none x XX
SET fresh x NX GET
SET a b NX XX
SET a b WHAT
SET a b KEEPTTL
GET
GET a b
SET a
MSET a
MSET {a}1 x {a}2
MSET {a}1 x {a}2 7
MGET {a}1 {a}2 {a}3
EXISTS {a}1 {a}1 {a}3
DEL {a}1 {a}2 {a}3
MSET b 1 c 2 d 3 e 4 f 5
MSET b 1 c
MGET b c d e f nothing b
EXISTS b c d e f nothing b
DEL b c d e f nothing b
TYPE a
TYPE nothing
SETNX fresh x
SETNX newer 12
SETNX newer x
SETNX newer
INCR newer
GETRANGE newer 0 0
GETRANGE newer -1 9
SET range hello
GETRANGE range 1 3
GETRANGE range -3 -2
GETRANGE range -2 -3
GETRANGE range -99 -98
GETRANGE range 3 99
GETRANGE range 5 5
GETRANGE range 9223372036854775807 -9223372036854775808
GETRANGE range -9223372036854775808 9223372036854775807
GETRANGE range 0
GETRANGE range 0 x
GETRANGE nothing 0 x
GETRANGE nothing 0 -1
SUBSTR range 2 -1
GETSET range 7
GETSET nothing new
GETSET nothing
GETDEL nothing
GETDEL nothing
GETDEL range newer
TOUCH range newer b c d e f nothing b
TOUCH
MSETNX {a}1 x {a}2 y
MSETNX {a}2 z {a}3 z
MGET {a}1 {a}2 {a}3
MSETNX {a}1
MSETNX {a}1 x {a}2
MSETNX
DEL {a}1 {a}2 {a}3
TIME x
SETRANGE ranged 6 there
GET ranged
SETRANGE ranged 0 hello
GET ranged
SETRANGE ranged 5 , you and all
GETRANGE ranged 0 -1
SETRANGE ranged 3 
SETRANGE nothing 3 
SETRANGE nothing 70000 
SETRANGE ranged -1 x
SETRANGE ranged -1 
SETRANGE ranged x x
SETRANGE ranged 1.5 x
SETRANGE ranged 9223372036854775808 x
SETRANGE ranged 0
SETRANGE ranged 0 x x
SET ranged 12
SETRANGE ranged 1 3
INCR ranged
SETRANGE ranged 2 .5
INCRBYFLOAT ranged 0.1
INCRBYFLOAT ranged -14.6
INCR ranged
INCRBYFLOAT ranged 5.0e3
INCRBYFLOAT ranged 1e-17
INCRBYFLOAT ranged 1e-18
INCRBYFLOAT ranged 0x1.8p1
INCRBYFLOAT ranged inf
INCRBYFLOAT ranged -INFINITY
INCRBYFLOAT ranged nan
INCRBYFLOAT ranged x
INCRBYFLOAT ranged 1e5000
INCRBYFLOAT ranged 1x
INCRBYFLOAT ranged
INCRBYFLOAT ranged 1 2
INCRBYFLOAT newer 3.0
INCRBYFLOAT another -0
INCRBYFLOAT another 0.1
INCRBYFLOAT another 0.2
INCRBYFLOAT another 18446744073709551616
INCRBYFLOAT another 1e4931
STRLEN another
APPEND another x
INCRBYFLOAT another 1
KEYS ranged*
KEYS nosuch*
KEYS
KEYS a b
FLUSHDB NOW
FLUSHDB SYNC ASYNC
MULTI
SETRANGE {m}r 2 x
INCRBYFLOAT {m}f 1.5
INCRBYFLOAT {m}r 1
SETRANGE {m}f 0 2
DEL {m}r {m}f
EXEC
DEL ranged newer another
MULTI
MSETNX {m}n 1 {m}o 2
MSETNX {m}n 1 {m}p 2
MSETNX {m}n
DEL {m}n {m}o
EXEC
MULTI
SETNX {m}n 1
SETNX {m}n 2
GETSET {m}n 3
GETRANGE {m}n 0 -1
GETDEL {m}n
TOUCH {m}n
UNLINK {m}n
EXEC
UNLINK range newer b c d e f nothing b
UNLINK
PING
PING hello
PING a b
ECHO hello
ECHO
SELECT 0
SELECT 99
SELECT x
MULTI
SET {m}a 1
INCR {m}a
GET {m}b
EXEC
MULTI
MULTI
DISCARD
DISCARD
EXEC
MULTI
SET {m}a 1
MULTI
INCR {m}a
EXEC
MULTI
MSET {m}a 1 {m}b
MSET {m}a 5 {m}b 6
GET {m}a
EXEC
MULTI
MSET {m}a
EXEC
MULTI
INCR
EXEC
MULTI
PING
ECHO x
EXEC
MULTI
SET {m}c 1
DBSIZE
DEL {m}c
DBSIZE
EXEC
MULTI
AUTH secret
AUTH other secret
HELLO 9
SET {m}a 1
EXEC
MULTI
SET {m}a text
INCR {m}a
GET {m}a
EXEC
MULTI
SET {m}a 1
EXEC x
EXEC
EXEC x
MULTI
CLIENT NOSUCH
EXEC
MULTI
CONFIG GET
EXEC
MULTI
ACL WHOAMI x
EXEC
MULTI
COMMAND COUNT x
EXEC
MULTI
ACL WHOAMI
CLIENT GETNAME
EXEC
CLIENT HELP x
AUTH secret
AUTH other secret
CLIENT SETNAME me
CLIENT GETNAME
CLIENT SETNAME two\twords
CLIENT SETNAME
CLIENT NOSUCH
COMMAND NOSUCH
CONFIG NOSUCH
GETX a
DBSIZE
NOSUCH a b
CONFIG GET appendonly
CONFIG GET nosuch
COMMAND COUNT x
SCAN x
SCAN x COUNT 0
SCAN 99 COUNT 0
SCAN 0 COUNT 0
SCAN 0 COUNT 0 COUNT 5
SCAN 0 COUNT 0 COUNT x
SCAN 0 COUNT x
SCAN 0 NOSUCH 1
SCAN 0 MATCH nosuch:* COUNT 1000
HELLO 4
HELLO -1
HELLO abc
HELLO 02
HELLO 99999999999999999999
HELLO 3 NOSUCH
HELLO 2 setname
HELLO 3 AUTH default
HELLO abc NOSUCH
"""
# The same for arguments that aren't text, or have a zero byte.
ALIKE_BYTES = [
    (b"\xff\xfe", "a", b"\xc3("), (b"no\x00such", b"a\x00b", b"\xff\n"), (b"x" * 200, b"y" * 100, b"z" * 100),
    (b"\xff" * 200,), ("CLIENT", b"N\xff"), ("CONFIG", b"\r\n\xe4"), ("HELLO", 3, b"N\xff"), ("GET", b"\xff", b"\xfe"),
]  # fmt: skip
# Commands that only one of them has, with the beginnings of their answers.
OWN = [
    ("SET a b EX 10", "NOEXPIRY"),
    ("SM AT 1 MGET a b c d e f", "CROSSSHARD"),
    ("SM LOOK 0", "Serving"),
    ("SM LOOK 64", "REFUSED UnknownShard"),
    ("SM LOOK x", "REFUSED BadLine: it is written SM LOOK k"),
    ("SM NOSUCH", "REFUSED UnknownWord"),
    ("SM ADD 0", "REFUSED WrongPhase"),
    ("SM MIGRATE 0 9", "REFUSED UnknownServer"),
    ("SM MIGRATE 0 1", "REFUSED SameServer"),
    ("SM STOPPED 1", "REFUSED NotApproved"),
    ("SM APPROVE 1", "REFUSED NotAsked"),
    ("SM BACK 1", "REFUSED AlreadyUp"),
    ("SM AT 9 GET a", "REFUSED UnknownServer"),
    ("SM AT 1 PING", "ERR SM AT"),
    ("FLUSHALL", "ERR unknown command 'FLUSHALL'"),
]


@contextlib.contextmanager
def redis_served():
    """Runs a redis-server that keeps nothing, and returns its port."""
    port = free_port()
    with tempfile.TemporaryDirectory() as room:
        command = ["redis-server", "--port", str(port), "--save", "", "--appendonly", "no", "--dir", room]
        with subprocess.Popen(command, stdout=subprocess.DEVNULL) as process:
            try:
                eventually(lambda: process.poll() is not None or is_served(port))
                assert process.poll() is None, f"redis-server ended with {process.returncode}"
                yield port
            finally:
                process.terminate()


def is_served(port):
    """Returns whether somebody listens at this port."""
    with contextlib.suppress(OSError), Client(port):
        return True
    return False


def by_hello(client, version):
    """Switches the connection to this version of the protocol."""
    client.raw("HELLO", version)
    return client


def answers_are_those_of_redis(program):
    """Both versions of the protocol are compared."""
    count, differences = 0, []
    with redis_served() as other, served(program) as server:
        for version in (2, 3):
            with Client(other) as theirs, server.client() as ours:
                by_hello(theirs, version).raw("FLUSHALL")
                by_hello(ours, version)
                for line in ALIKE.strip().split("\n"):
                    words = line.split(" ")
                    wanted, found = theirs.raw(*words), ours.raw(*words)
                    if wanted != found:
                        differences.append(f"{line} in version {version}: Redis {wanted!r}, and we {found!r}")
                    count += 1
                for words in ALIKE_BYTES:
                    wanted, found = theirs.raw(*words), ours.raw(*words)
                    if wanted != found:
                        differences.append(f"{words} in version {version}: Redis {wanted!r}, and we {found!r}")
                    count += 1
                assert [it.raw("FLUSHDB", "ASYNC") for it in (theirs, ours)] == [b"+OK\r\n"] * 2
    assert not differences, "\n".join(differences)
    return f"{count} answers"


# Arguments that are numbers, or look like numbers.
ODD = ["0", "1", "-1", "-0", "", "x", "007", "+1", " 1", "1 ", "0.1", ".5", "5.", "-1.5e3", "1e400", "1e-30", "0x1p3"]
ODD += ["inf", "-Infinity", "nan", "1e5000", "3", "100", "9223372036854775807", "-9223372036854775808", "two words"]
ODD += [b"\0\xff", "1e", "99999999999999999999", "3.14159265358979323846"]
OFFSETS = ["0", "1", "5", "300", "-1", "x", "", "1.0", " 1", "-9223372036854775808", "99999999999999999999"]


def random_call(chance):
    """Returns a command on few keys. It may have no arguments, or too many."""
    key, other, text, more = (chance.choice(it) for it in (["{t}1", "{t}2", "b"], ["{t}1", "{t}3"], ODD, ODD))
    offset = chance.choice(OFFSETS)
    calls = [("GET",), ("STRLEN",), ("TYPE",), ("INCR",), ("DECR",), ("GETDEL",), ("EXISTS", key), ("TOUCH", key)]
    calls += [("SET", text), ("SETNX", text), ("GETSET", text), ("APPEND", text), ("INCRBY", text), ("DECRBY", text)]
    calls += [("INCRBYFLOAT", text)] * 6 + [("SETRANGE", offset, text)] * 6 + [("GETRANGE", text, more)]
    calls += [("SUBSTR", text, more), ("SET", text, "XX"), ("SET", text, "NX", "GET"), ("MGET", other), ("DEL",)]
    calls += [("MSET", text, other, more), ("UNLINK", other)]
    name, *rest = chance.choice(calls)
    words = [name, key, *rest]
    # A command with any number of keys would take a text for a key.
    if name not in ("DEL", "EXISTS", "MGET", "MSET", "TOUCH", "UNLINK") and chance.random() < 0.03:
        words = words[:-1] if chance.random() < 0.5 else [*words, text]
    return ["MSETNX", "{t}1", text, "{t}4", more] if chance.random() < 0.02 else words


def random_calls_are_answered_as_by_redis(program):
    """They are compared in memory and over a store, one by one and in transactions."""
    with tempfile.TemporaryDirectory() as room, redis_served() as other, contextlib.ExitStack() as stack:
        servers = [stack.enter_context(served(program, *it)) for it in ([], ["--data", f"{room}/data"])]
        theirs, *ours = [stack.enter_context(Client(it)) for it in (other, *(it.port for it in servers))]
        chance, count = random.Random(41), 0
        while count < 3_000:
            calls = [random_call(chance) for _ in range(20)]
            if chance.random() < 0.2:
                calls = [["MULTI"], *(it for it in calls if "b" not in it), ["EXEC"], ["DISCARD"]]
            for words in calls:
                wanted = theirs.raw(*words)
                told = [it.raw(*words) for it in ours]
                assert told == [wanted] * 2, (words, wanted, told)
            count += len(calls)
    return f"{count} calls"


def a_reply_of_exec_has_a_bound(program):
    """The reply may be filled by any command, and each change is still answered."""
    grown, last = ("SETRANGE", "{t}a", 59_999, "x"), ("SETRANGE", "{t}e", 2, "x")
    for words, is_full in [
        (("GETRANGE", "{t}a", 0, -1), True), (("GETSET", "{t}a", "y"), True), (("GETDEL", "{t}a"), True),
        (("STRLEN", "{t}a"), False), (("INCRBYFLOAT", "{t}c", "1e4929"), False),
    ]:  # fmt: skip
        with served(program) as server, server.client() as client:
            answers = client.piped([("MULTI",), *[grown, words] * 300, last, ("EXEC",)])[-1]
            size = sum(len(it) for it in answers if isinstance(it, bytes))
            assert size <= 8 << 20 and answers[-1] == 3 and answers[:-1:2] == [60_000] * 300, (words, size)
            refused = [it for it in answers if isinstance(it, Refused)]
            assert bool(refused) == is_full and all(str(it).startswith("TOOLARGE") for it in refused), words
            # A command that isn't answered isn't done.
            assert client.ask("STRLEN", "{t}a") == 60_000, words


def keys_are_listed_and_flushed(program):
    for options in scans.OPTIONS:
        with served(program, *options) as server:
            scans.keys_are_listed_and_flushed(server)
    with served(program, "--shards", 8) as server:
        scans.a_flush_waits(server)
    with served(program, "--shards", 8, "--wait", 300) as server:
        scans.a_flush_that_stops_is_told(server, 8)


def texts_for_people_are_told_as_by_redis(program):
    """The values in INFO differ, but not its form."""
    with redis_served() as other, served(program) as server:
        for port in (other, server.port):
            with Client(port) as client:
                assert client.raw("INFO", "server").startswith(b"$")
                by_hello(client, 3)
                told = client.raw("INFO", "server")
                length, text = told.split(b"\r\n", 1)
                assert length.startswith(b"=") and int(length[1:]) + 2 == len(text), told[:99]
                assert text.startswith(b"txt:# Server\r\n"), told[:99]
                client.raw("MULTI")
                assert client.raw("HELLO", "") and client.raw("INFO", "server") == b"+QUEUED\r\n"
                errors = b"-ERR Protocol version is not an integer or out of range\r\n"
                assert client.raw("EXEC").startswith(b"*2\r\n" + errors + b"=")


def who_quits_is_answered_and_cut_off(program):
    with redis_served() as other, served(program) as server:
        for port, lines in itertools.product((other, server.port), (b"QUIT\r\n", b"MULTI\r\nPING\r\nQUIT\r\n")):
            with socket.create_connection(("127.0.0.1", port), SECONDS) as one:
                one.sendall(lines)
                told = one.makefile("rb").read()
            wanted = b"+OK\r\n+QUEUED\r\n+OK\r\n" if b"MULTI" in lines else b"+OK\r\n"
            assert told == wanted, (port == other, told)


def other_answers_are_named(program):
    with served(program) as server, server.client() as client:
        for line, wanted in OWN:
            client.send(*line.split(" "))
            found = client.read()
            text = found if isinstance(found, str) else str(found)
            if not text.startswith(wanted):
                raise AssertionError(f"{line}: {text}")
        seconds, microseconds = map(int, client.ask("TIME"))
        assert abs(time.time() - seconds) < SECONDS and 0 <= microseconds < 10**6, (seconds, microseconds)
        for key in (b"", b"k" * 256):
            client.send("GET", key)
            assert str(client.read()).startswith("BADKEY"), key[:9]
        client.send("SET", "a", b"v" * 65536)
        assert str(client.read()).startswith("TOOLONG")
        assert client.ask("SET", b"k" * 255, b"v" * 65535) == "OK"


def hints_lead_somewhere(program):
    """If an error says HELP, HELP is answered."""
    with served(program) as server, server.client() as client:
        for name in ("ACL", "CLIENT", "COMMAND", "CONFIG"):
            client.send(name, "NOSUCH")
            assert str(client.read()) == f"ERR unknown subcommand 'NOSUCH'. Try {name} HELP."
            told = client.ask(name, "help")
            title = f"{name} <subcommand> [<arg> [value] [opt] ...]. Subcommands are:"
            assert told[0] == title and told[-2:] == ["HELP", "    Prints this help."], told
            words = [it.split()[0] for it in told[1:] if it[0] not in " ("]
            for word in words:
                # Each subcommand exists; some lack arguments.
                client.send(name, word)
                answer = client.read()
                assert "unknown" not in str(answer), (name, word, answer)
        for cursor in (99, 2**63, 2**64 - 1):
            client.ask("SET", "a", 1)
            assert client.ask("SCAN", cursor, "COUNT", 1_000) == [b"0", [b"a"]]


def redis_py_does_all(program):
    with served(program) as server:
        client = redis.Redis(port=server.port, decode_responses=True, client_name="me")
        assert client.ping() and client.set("a", 1) and client.incr("a", 5) == 6 and client.get("a") == "6"
        assert client.append("a", "x") == 2 and client.strlen("a") == 2 and client.exists("a", "a") == 2
        assert client.mset({"{t}a": 1, "{t}b": "x"}) and client.mget("{t}a", "{t}b", "{t}c") == ["1", "x", None]
        with client.pipeline() as pipe:
            assert pipe.set("{t}c", 1).incr("{t}c").get("{t}c").execute() == [True, 2, "2"]
        with client.pipeline(transaction=False) as pipe:
            answers = pipe.set("x", 1).decr("y").get("z").delete("x", "x").execute()
        assert answers == [True, -1, None, 1], answers
        assert client.client_getname() == "me" and client.echo("hi") == "hi" and client.type("a") == "string"
        assert client.info("persistence")["storage"].startswith("in memory alone")
        assert client.config_get("save") == {"save": ""} and client.dbsize() == 5
        assert client.set("a", "b", nx=True) is None and client.decr("y", 4) == -5
        try:
            client.execute_command("INCR", "{t}b")
            raise AssertionError("a text was added to")
        except redis.ResponseError as error:
            assert str(error) == "value is not an integer or out of range", error


def scans_give_each_key_once_in_order(program):
    for options in scans.OPTIONS:
        with served(program, *options) as server:
            client = scans.of(server)
            scans.written(client)
            scans.checked(client, options)
            scans.cursors_stay_known(server)


def passwords_are_asked_for(program):
    with tempfile.NamedTemporaryFile("w", suffix=".txt") as file:
        file.write("secret\n")
        file.flush()
        with served(program, "--password-file", file.name) as server, server.client() as client:
            for words, wanted in [
                (("GET", "a"), "NOAUTH"),
                (("SM", "SHARDS"), "NOAUTH"),
                (("AUTH", "wrong"), "WRONGPASS"),
                (("AUTH", "user", "secret"), "WRONGPASS"),
                (("HELLO", "3"), "NOAUTH"),
                (("HELLO", "3", "AUTH", "default", "wrong"), "WRONGPASS"),
            ]:
                client.send(*words)
                found = client.read()
                assert isinstance(found, Refused) and str(found).startswith(wanted), (words, found)
            assert client.ask("AUTH", "secret") == "OK" and client.ask("GET", "a") is None
            assert redis.Redis(port=server.port, password="secret").ping()


def redis_cli_speaks_with_it(program):
    with served(program) as server:

        def said(*words, given=None):
            command = ["redis-cli", "-p", str(server.port), *words]
            ran = subprocess.run(command, input=given, capture_output=True, text=True, timeout=SECONDS)
            assert ran.returncode == 0, ran.stderr
            return ran.stdout

        assert said("-3", "ping").strip() == "PONG"
        assert "errors: 0, replies: 2" in said("--pipe", given="SET a b\r\nGET a\r\n")
        assert said(given='set q "two words"\nget q\n').split("\n")[:2] == ["OK", "two words"]
        assert sorted(said("--scan").split()) == ["a", "q"]
        assert "Sampled 2 keys" in said("--bigkeys")


def words_of_sm_say_how_they_are_written(program):
    with served(program, "--shards", 8) as server, server.client() as client:
        for words, wanted in [
            (("SM",), "ERR wrong number of arguments for 'sm' command: SM HELP lists its words"),
            (("SM", "AT", 1), "REFUSED BadLine: it is written SM AT a COMMAND .., with numbers for a;"),
            (("SM", "MIGRATE", "x", 2), "REFUSED BadLine: it is written SM MIGRATE k b, with numbers for k and b;"),
            (("SM", "PLAN", "x"), "REFUSED BadLine: it is written SM PLAN a, with numbers for a;"),
            (("SM", "KEY"), "REFUSED BadLine: it is written SM KEY key;"),
            (("SM", "KEY", ""), "BADKEY"),
            (("SM", "ROUTES"), "REFUSED NotThere: SM ROUTES exists only with --etcd;"),
            (("SM", "CALL", 1, 1, "DEL", "a"), "REFUSED NotThere: SM CALL exists only with --data or --etcd;"),
            (("SM", "COMPACT"), "REFUSED NotThere: SM COMPACT exists only with --data or --etcd;"),
            (("SM", "HELP", "nothing"), "REFUSED UnknownWord: SM has no such word, and no refusal or error"),
        ]:
            client.send(*words)
            found = client.read()
            assert isinstance(found, Refused) and str(found).startswith(wanted), (words, found)
        assert client.ask("SM", "HELP", "NotThere")[0].startswith(b"NotThere: the word exists only if data lies")
        assert client.ask("SM", "HELP", "look") == [b"SM LOOK k: the stand of shard k"]
        for word, first in (("SHARDS", b"shard stand owner "), ("SERVERS", b"server standing domain ")):
            names, *lines = client.ask("SM", word)
            assert names.startswith(first) and {len(it.split()) for it in lines} == {len(names.split())}, names
        found = [client.ask("SM", "KEY", it) for it in ("a", "{a}b", *map(str, range(99)))]
        assert found[0] == found[1] and set(found) == set(range(8)), found
        for key in ("a", "7"):
            owner = client.ask("SM", "LOOK", client.ask("SM", "KEY", key)).split()[1]
            assert client.ask("SM", "AT", owner, "SET", key, 1) == "OK"


# Lines for the shell, and their answers.
SHELL = """
look 0                  Serving 1 0 idle 1
migrate 0 3             OK
look 0                  Serving 3 0 idle 5
put greeting "two words" OK
get greeting            two words
inc n 4                 4
inc n -5                -1
scan g h 5              greeting|two words
at 9 get n              REFUSED UnknownServer
nonsense                ERR
"""


def the_shell_speaks_with_it(program):
    pairs = [re.split(r" {2,}|(?<=\") ", it) for it in SHELL.strip().splitlines()]
    wanted = [it for _, answer in pairs for it in answer.split("|")]
    with served(program) as server:
        command = [SM, "shell", "--connect", str(server.port)]
        given = "".join(f"{line}\n" for line, _ in pairs) + "quit\n"
        ran = subprocess.run(command, input=given, capture_output=True, text=True, timeout=SECONDS)
        assert ran.returncode == 0, ran.stderr
        found = ran.stdout.splitlines()
        assert len(found) == len(wanted) and all(map(str.startswith, found, wanted)), found
    ran = subprocess.run(command, input=given, capture_output=True, text=True, timeout=SECONDS)
    assert ran.returncode == 1 and "does ./sm serve run there?" in ran.stderr, ran


TESTS = [
    answers_are_those_of_redis,
    random_calls_are_answered_as_by_redis,
    a_reply_of_exec_has_a_bound,
    keys_are_listed_and_flushed,
    texts_for_people_are_told_as_by_redis,
    who_quits_is_answered_and_cut_off,
    other_answers_are_named,
    hints_lead_somewhere,
    redis_py_does_all,
    scans_give_each_key_once_in_order,
    passwords_are_asked_for,
    redis_cli_speaks_with_it,
    words_of_sm_say_how_they_are_written,
    the_shell_speaks_with_it,
]

if __name__ == "__main__":
    main(TESTS)
