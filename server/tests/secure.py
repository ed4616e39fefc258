#!/usr/bin/env python3
"""TLS, passwords and roles, and clients that show neither certificate nor password: secure.py PROGRAM."""
import contextlib
import functools
import os
import pathlib
import random
import resource
import select
import shutil
import socket
import ssl
import subprocess
import tempfile
import time
import urllib.error
import urllib.request

import redis
from served import (
    SECONDS,
    Client,
    Missed,
    Refused,
    again,
    assailed,
    eventually,
    free_port,
    main,
    packed,
    served,
    slowest_beside,
    within,
)

SM = pathlib.Path(__file__).resolve().parent.parent.parent / "sm"
HOST = "127.0.0.1"
# Another address of this machine, at which a server is reached if it listens at all addresses.
ELSEWHERE = "127.0.0.2"
SEED = 20_261_126
# The number of TLS connections at a time, and how much memory one may take.
MANY = 500
MOST_BYTES = 64 << 10
# The number of strangers at a time, and how much memory one may take.
STRANGERS = 60
MOST_OF_A_STRANGER = 192 << 10
# The length of a value, and how many there are in a pipeline.
LONG, PIPED = 60_000, 200
# How many milliseconds strangers have for their passwords. Nobody who has one is cut off on a crowded machine.
LOGIN = 10_000
# The longest time that others may hold up a client, and how often a client may try to log in.
SOON, TRIES = 5, 4
# The number of assailants and of other clients, and how many certificates of authorities each assailant shows.
ASSAILANTS = OTHERS = 8
AUTHORITIES = 24


@functools.cache
def certificates():
    """Makes a folder with an authority `ca`, certificates from it for `server` and `client`, and a `foreign` one that
    is self-signed."""
    folder = pathlib.Path(tempfile.mkdtemp(prefix="durkenzo-secure-"))

    def openssl(*words):
        subprocess.run(["openssl", *words], cwd=folder, check=True, capture_output=True)

    names = "subjectAltName=DNS:localhost,IP:127.0.0.1\nbasicConstraints=CA:FALSE\n"
    (folder / "names").write_text(names)
    key = ["-newkey", "ec", "-pkeyopt", "ec_paramgen_curve:P-256", "-nodes"]
    for name in ("ca", "foreign"):
        openssl("req", "-x509", *key, "-keyout", f"{name}.key", "-out", f"{name}.pem", "-subj", f"/CN={name}")
    for name in ("server", "client"):
        openssl("req", *key, "-keyout", f"{name}.key", "-out", f"{name}.csr", "-subj", f"/CN={name}")
        by = ["-CA", "ca.pem", "-CAkey", "ca.key", "-CAcreateserial", "-extfile", "names"]
        openssl("x509", "-req", "-in", f"{name}.csr", "-out", f"{name}.pem", *by)
    return folder


@functools.cache
def hostile_chains():
    """Makes files with a key, its certificate, and more certificates of authorities than anybody has, by the name of
    their relation: all with the same name and their own keys, the name being nobody's or that of the trusted authority;
    or each vouched for by the one behind it."""
    folder = certificates()

    def openssl(*words):
        key = ["-newkey", "ec", "-pkeyopt", "ec_paramgen_curve:P-256", "-nodes"] if words[0] == "req" else []
        subprocess.run(["openssl", words[0], *key, *words[1:]], cwd=folder, check=True, capture_output=True)

    def certify(name, by, may_certify):
        openssl("req", "-keyout", f"{name}.key", "-out", f"{name}.csr", "-subj", f"/CN={name}")
        (folder / "role").write_text(f"basicConstraints=CA:{may_certify}\n")
        words = ["-CA", f"{by}.pem", "-CAkey", f"{by}.key", "-CAcreateserial", "-extfile", "role"]
        openssl("x509", "-req", "-in", f"{name}.csr", "-out", f"{name}.pem", *words)

    for shape, subject in (("crowd", "crowd"), ("namesakes", "ca"), ("ladder", "ladder")):
        for at in range(AUTHORITIES):
            name = f"{shape}-{at}"
            if shape == "ladder" and at:
                certify(name, f"{shape}-{at - 1}", "TRUE")
            else:
                openssl("req", "-x509", "-keyout", f"{name}.key", "-out", f"{name}.pem", "-subj", f"/CN={subject}")
        certify(shape, f"{shape}-{AUTHORITIES - 1}", "FALSE")
        parts = [f"{shape}.key", f"{shape}.pem", *(f"{shape}-{it}.pem" for it in reversed(range(AUTHORITIES)))]
        (folder / f"{shape}-all.pem").write_text("".join((folder / it).read_text() for it in parts))
    return {it: file(f"{it}-all.pem") for it in ("crowd", "namesakes", "ladder")}


def file(name):
    return str(certificates() / name)


def with_tls(*more):
    """Returns the options by which the server speaks TLS."""
    return ["--tls-cert", file("server.pem"), "--tls-key", file("server.key"), *more]


def context(own=None):
    """Returns a client's trusted authority and certificate."""
    tls = ssl.create_default_context(cafile=file("ca.pem"))
    if own:
        tls.load_cert_chain(file(f"{own}.pem"), file(f"{own}.key"))
    return tls


class TlsClient(Client):
    """A TLS connection."""

    def __init__(self, port, tls=None):
        plain = socket.create_connection((HOST, port), SECONDS)
        plain.setsockopt(socket.IPPROTO_TCP, socket.TCP_NODELAY, 1)
        self.socket = (tls or context()).wrap_socket(plain, server_hostname=HOST)
        self.stream = self.socket.makefile("rb", 1 << 16)


def refused(client, *words):
    """Returns the name of the command's refusal."""
    client.send(*words)
    answer = client.read()
    assert isinstance(answer, Refused), (words, answer)
    return str(answer).split()[0]


def connected(server):
    """Returns a connection on which nothing was sent yet."""
    return socket.create_connection((HOST, server.port), SECONDS)


def is_ended(one):
    """Returns whether the other side ends the connection in time, whatever it says before."""
    with contextlib.suppress(ConnectionError, ssl.SSLError):
        while one.recv(4096):
            pass
    return True


@contextlib.contextmanager
def environment(**variables):
    os.environ.update(variables)
    try:
        yield
    finally:
        for name in variables:
            del os.environ[name]


def clients_of_redis_speak_tls(program):
    with served(program, *with_tls()) as server:
        command = ["-p", str(server.port), "--tls", "--cacert", file("ca.pem")]
        ran = subprocess.run(["redis-cli", *command, "set", "a", "b"], capture_output=True, text=True, timeout=SECONDS)
        assert ran.stdout.strip() == "OK", ran
        load = [*command, "-t", "set,get,incr", "-n", "5000", "-c", "50", "-P", "8", "-q"]
        how = {"capture_output": True, "text": True, "timeout": 10 * SECONDS}
        ran = subprocess.run(["redis-benchmark", *load], check=True, **how)
        assert "requests per second" in ran.stdout and "rror" not in ran.stderr, ran
        client = redis.Redis(port=server.port, ssl=True, ssl_ca_certs=file("ca.pem"))
        with client.pipeline(transaction=True) as pipe:
            assert pipe.set("{t}a", 1).incr("{t}a").get("{t}a").execute() == [True, 2, b"2"]
        client.close()
        shell = [SM, "shell", "--connect", f"localhost:{server.port}", "--tls", "--ca", file("ca.pem")]
        ran = subprocess.run(shell, input="get a\nlook 0\n", capture_output=True, text=True, timeout=SECONDS)
        assert ran.stdout.splitlines()[0] == "b" and ran.returncode == 0, ran
        del shell[-2:]
        ran = subprocess.run(shell, input="", capture_output=True, text=True, timeout=SECONDS)
        assert ran.returncode == 1 and "certificate" in ran.stderr, ran


def the_page_is_on_this_machine_where_clients_need_a_password(program):
    """The page asks for no password, so it can be reached from another address only on request."""

    def answers(host, port):
        with contextlib.suppress(OSError):
            with urllib.request.urlopen(f"http://{host}:{port}/state.json", timeout=SECONDS) as answer:
                return answer.status == 200
        return False

    asked, password = ("--http-bind", "0.0.0.0"), {"DURKENZO_PASSWORD": "secret"}
    for options, variables, is_everywhere in [((), {}, True), ((), password, False), (asked, password, True)]:
        port = free_port()
        with environment(**variables), served(program, "--bind", "0.0.0.0", "--http-port", port, *options):
            eventually(lambda: answers(HOST, port))
            assert answers(ELSEWHERE, port) == is_everywhere, f"from elsewhere, with {variables} and {options}"


def the_page_speaks_tls_too(program):
    port = free_port()
    address = f"https://localhost:{port}/metrics"
    with served(program, *with_tls("--tls-ca", file("ca.pem"), "--http-port", port)):

        def shown():
            with contextlib.suppress(ConnectionRefusedError, urllib.error.URLError):
                with urllib.request.urlopen(address, timeout=SECONDS, context=context("client")) as answer:
                    return answer.read()

        assert b"durkenzo_connections" in eventually(shown)
        for ask in (
            lambda: urllib.request.urlopen(address, timeout=SECONDS, context=context()),
            lambda: urllib.request.urlopen(address.replace("https", "http"), timeout=SECONDS),
        ):
            with contextlib.suppress(OSError):
                raise AssertionError(ask().read()[:80])


def who_shows_no_certificate_gets_nothing(program):
    with served(program, *with_tls("--tls-ca", file("ca.pem"))) as server:
        before = server.at_rest()
        for own in (None, "foreign"):
            with contextlib.suppress(ssl.SSLError, ConnectionError):
                with TlsClient(server.port, context(own)) as client:
                    raise AssertionError((own, client.ask("PING")))
        with TlsClient(server.port, context("client")) as client:
            assert client.ask("SET", "a", 1) == "OK" and client.ask("ACL", "WHOAMI") == b"default"
        assert server.settle(before) <= before


def what_is_no_tls_gets_nothing(program):
    chance = random.Random(SEED)
    with served(program, *with_tls()) as server, TlsClient(server.port) as client:
        before = server.at_rest()
        spoilt = [b"PING\r\n", packed("GET", "a") * 1_000, b"\x16\x03\x01\xff\xff", b"GET / HTTP/1.1\r\n\r\n"]
        spoilt += [b"\x16\x03\x01" + chance.randbytes(chance.randrange(1, 2_000)) for _ in range(100)]
        for bytes_ in spoilt:
            with connected(server) as one, contextlib.suppress(ConnectionError):
                one.sendall(bytes_)
                # The server may have ended it before.
                with contextlib.suppress(OSError):
                    one.shutdown(socket.SHUT_WR)
                said = b""
                while more := one.recv(4096):
                    said += more
                # TLS says only an alert there.
                assert len(said) <= 7 and said[:1] in (b"", b"\x15"), (bytes_[:20], said)
        assert client.ask("PING") == "PONG" and server.settle(before) <= before


@again
def who_stalls_holds_nobody_up(program):
    """Clients send half a handshake, or none, and no password. Others go on, and these are ended in time."""
    options = with_tls("--login-time", LOGIN)
    with environment(DURKENZO_PASSWORD="secret"), served(program, *options) as server, contextlib.ExitStack() as stack:
        client = stack.enter_context(TlsClient(server.port))
        assert refused(client, "GET", "a") == "NOAUTH" and client.ask("AUTH", "secret") == "OK"
        before = server.at_rest()
        stalled = [stack.enter_context(connected(server)) for _ in range(40)]
        for one in stalled[::2]:
            one.sendall(b"\x16\x03\x01\x02\x00\x01")
        unknown = stack.enter_context(TlsClient(server.port))
        assert refused(unknown, "PING") == "NOAUTH"
        slow = stack.enter_context(TlsClient(server.port))
        longest, end = 0, time.monotonic() + 0.5
        while time.monotonic() < end:
            began = time.monotonic()
            assert client.ask("INCR", "n") > 0
            longest = max(longest, time.monotonic() - began)
        for byte in packed("AUTH", "secret") + packed("GET", "n"):
            slow.socket.sendall(bytes([byte]))
        assert slow.read() == "OK" and int(slow.read()) > 0
        within(longest, SOON, "another client")
        assert all(is_ended(it) for it in [*stalled, unknown.socket])
        # Two clients are left, including the one from before.
        assert server.settle(before + 1) == before + 1
        assert client.ask("PING") == slow.ask("PING") == "PONG"
        return f"at most {longest * 1000:.0f} ms for others"


def hostile_chains_hold_nobody_up(program):
    """A client without a certificate, or with many of unknown authorities, costs others no time, and leaves nothing."""
    options = with_tls("--tls-ca", file("ca.pem"))
    with served(program, *options) as server, contextlib.ExitStack() as stack:
        clients = [stack.enter_context(TlsClient(server.port, context("client"))) for _ in range(OTHERS)]
        before, told = server.at_rest(), []
        for name, chain in {"none": None, **hostile_chains()}.items():
            words = ["chain", ASSAILANTS, chain] if chain else ["bare", ASSAILANTS]
            told.append(f"{name} {slowest_beside(clients, server.port, *words) * 1000:.1f} ms")
        assert server.settle(before) <= before
        # A processor may take a while for the last requests.
        eventually(lambda: server.used_in_a_second() < 0.5)
        with TlsClient(server.port, context("client")) as client:
            assert f"connected_clients:{OTHERS + 1}\r" in client.ask("INFO").decode()
        return f"one of a hundred took {', '.join(told)}"


@again
def who_is_in_a_handshake_is_a_stranger(program):
    """As many clients as there are places for strangers say nothing, and as many send half a handshake. Neither keeps
    out a client with a certificate and the password, and neither holds up others. The first one gives way, wherever it
    is."""
    most, places = 300, 75
    options = with_tls("--tls-ca", file("ca.pem"), "--max-clients", most, "--login-time", 600_000)
    with environment(DURKENZO_PASSWORD="secret"), served(program, *options) as server, contextlib.ExitStack() as stack:

        def met():
            return stack.enter_context(TlsClient(server.port, context("client")))

        def known():
            began = time.monotonic()
            # If the machine has other work, so many others may come meanwhile that one gives way.
            for _ in range(TRIES):
                with contextlib.suppress(OSError, Refused):
                    client = met()
                    assert client.ask("AUTH", "secret") == "OK"
                    took.append(time.monotonic() - began)
                    return client
            raise Missed(f"nobody was let in within {time.monotonic() - began:.1f} s")

        took = []
        clients = [known() for _ in range(OTHERS)]
        before = server.at_rest()
        silent = [stack.enter_context(connected(server)) for _ in range(3)]
        first = met()
        assert refused(first, "PING") == "NOAUTH"
        with assailed(server.port, "stall", 2 * places):
            # Those that came first, before and behind their handshakes, have given way by now.
            assert all(is_ended(it) for it in silent) and str(first.read()) == "ERR max number of clients reached"
            del took[:]
            for _ in range(20):
                clients.append(known())
                assert server.descriptors() <= before + places + len(took), server.descriptors() - before
        slowest = slowest_beside(clients, server.port, "stall", 2 * places)
        within(max(took), SOON, "to be let in")
        assert server.settle(before + len(took)) == before + len(took)
        told = f"{max(took) * 1000:.0f} ms until one was let in"
        return f"{2 * places} strangers, {told}, and one of a hundred took {slowest * 1000:.1f} ms"


def half_handshakes_take_little(program):
    """Each says that its first message is as long as allowed, and sends as much of it as is taken."""
    begun = b"\x16\x03\x01\x3f\xfc" + b"\x01\x02\x00\x00" + bytes(0x3FF8)
    begun += b"\x16\x03\x01\x3f\x00" + bytes(0x3F00)
    with served(program, *with_tls()) as server, contextlib.ExitStack() as stack:
        with TlsClient(server.port) as client:
            assert client.ask("PING") == "PONG"
        descriptors, before = server.at_rest(), server.memory()
        stalled = [stack.enter_context(connected(server)) for _ in range(STRANGERS)]
        for one in stalled:
            one.sendall(begun)
        with TlsClient(server.port) as client:
            assert client.ask("PING") == "PONG"
        each = (server.memory() - before) / STRANGERS
        assert each < MOST_OF_A_STRANGER, f"{each:.0f} bytes each"
        # No more is taken.
        for one in stalled:
            one.sendall(begun[-0x3F05:])
        assert all(is_ended(it) for it in stalled) and server.settle(descriptors) <= descriptors
        return f"{STRANGERS} strangers, {each:.0f} bytes each"


def no_session_is_taken_up_again(program):
    """A client can't have a second handshake on the same connection either."""
    with served(program, *with_tls()) as server:
        for version in (ssl.TLSVersion.TLSv1_2, ssl.TLSVersion.TLSv1_3):
            tls = context()
            tls.maximum_version = version
            with TlsClient(server.port, tls) as client:
                assert client.ask("PING") == "PONG" and client.socket.version() == version.name.replace("_", ".")
                session = client.socket.session
            with connected(server) as plain:
                with tls.wrap_socket(plain, server_hostname=HOST, session=session) as one:
                    one.sendall(b"PING\r\n")
                    assert one.recv(99) == b"+PONG\r\n" and not one.session_reused
        command = ["openssl", "s_client", "-tls1_2", "-connect", f"{HOST}:{server.port}", "-CAfile", file("ca.pem")]
        # This asks for a second handshake.
        ran = subprocess.run(command, input="R\n", capture_output=True, text=True, timeout=SECONDS)
        assert "RENEGOTIATING" in ran.stdout + ran.stderr and "no renegotiation" in ran.stderr, ran


def is_told_of_no_place(server):
    """Returns whether a new client is told that there is no place, and isn't closed as a stranger that has said nothing
    for long."""
    with server.client() as one, contextlib.suppress(ConnectionError):
        return "max number of clients" in str(one.read())


@again
def strangers_leave_room_for_others(program):
    options = ["--max-clients", 300, "--login-time", LOGIN]
    with environment(DURKENZO_PASSWORD="secret"), served(program, *options) as server, contextlib.ExitStack() as stack:

        took = []

        def known():
            began = time.monotonic()
            client = stack.enter_context(server.client())
            assert client.ask("HELLO", "2", "AUTH", "default", "secret")[0] == b"server"
            took.append(time.monotonic() - began)
            return client

        def let_in():
            with contextlib.suppress(OSError, Refused):
                return known().ask("PING") == "PONG"

        clients = [known() for _ in range(100)]
        alone, before = max(took), server.at_rest()
        first = stack.enter_context(server.client())
        assert refused(first, "PING") == "NOAUTH"
        # If many say nothing, the first ones give way: there are no more than a quarter, beside the others.
        silent = [stack.enter_context(connected(server)) for _ in range(2_000)]
        assert str(first.read()) == "ERR max number of clients reached" and is_ended(first.socket)
        assert server.settle(before + 75) <= before + 75, server.descriptors()
        del took[:]
        for _ in range(100):
            silent += [stack.enter_context(connected(server)) for _ in range(10)]
            clients.append(known())
        within(max(took), max(0.5, 5 * alone), "to be let in")
        assert all(it.ask("PING") == "PONG" for it in clients)
        clients += [known() for _ in range(100)]
        # A client that has logged in or left is counted so a moment later.
        eventually(lambda: is_told_of_no_place(server))
        assert all(is_ended(it) for it in silent)
        # A place behind the password isn't one before it.
        clients.pop().socket.shutdown(socket.SHUT_RDWR)
        assert server.settle(before + 199) == before + 199
        eventually(let_in)
        return f"{len(silent)} strangers, at most {max(took) * 1000:.0f} ms"


@again
def wrong_passwords_take_time(program):
    """Guesses wait ever longer, on a connection and from an address. Others don't wait."""
    passwords = {"DURKENZO_CONTROL_PASSWORD": "master", "DURKENZO_PASSWORD": "secret"}
    with environment(**passwords), served(program, "--threads", 1) as server, contextlib.ExitStack() as stack:
        other, guesser = stack.enter_context(server.client()), stack.enter_context(server.client())
        assert other.ask("AUTH", "secret") == "OK"
        began, longest = time.monotonic(), 0
        guesser.socket.sendall(packed("AUTH", "wrong") * 9 + packed("AUTH", "secret") + packed("PING"))
        while not select.select([guesser.socket], [], [], 0)[0] or time.monotonic() - began < 0.5:
            asked = time.monotonic()
            assert other.ask("PING") == "PONG"
            longest = max(longest, time.monotonic() - asked)
        answers = [guesser.read() for _ in range(11)]
        took = time.monotonic() - began
        assert {str(it).split()[0] for it in answers[:9]} == {"WRONGPASS"} and answers[9:] == ["OK", "PONG"], answers
        assert 10 * (1 + 2 + 4 + 8 + 16 + 32 + 64) / 1000 <= took, took
        within(took, 10, "ten guesses")
        within(longest, 0.5, "another client")
        # A client that connects anew waits as well, and then logs in.
        began, count = time.monotonic(), 0
        while time.monotonic() - began < 2:
            with server.client() as one, contextlib.suppress(TimeoutError):
                one.socket.settimeout(0.01)
                asked = time.monotonic()
                one.send("AUTH", "wrong")
                # A password that was read late isn't answered at once.
                count += isinstance(one.read(), Refused) and time.monotonic() - asked < 0.02
        assert count == 0, f"{count} guesses were answered at once"
        with server.client() as one:
            began = time.monotonic()
            assert one.ask("AUTH", "secret") == "OK"
            within(time.monotonic() - began, 3, "the right password")
        # A transaction doesn't avoid the wait.
        other.ask("MULTI")
        assert set(other.piped([("AUTH", "control", "wrong")] * 500)) == {"QUEUED"}
        assert {str(it)[:20] for it in other.ask("EXEC")} == {"ERR wrong passwords "}
        assert other.ask("AUTH", "control", "master") == "OK"
        return f"10 took {took:.1f} s, and another client at most {longest * 1000:.0f} ms"


def little_is_taken_before_a_password(program):
    with environment(DURKENZO_PASSWORD="secret"), served(program) as server:
        for bytes_ in (b"*2\r\n$4\r\nAUTH\r\n$20000\r\n", b"AUTH " + b"x" * 20_000):
            with connected(server) as one:
                one.sendall(bytes_)
                told = b": before AUTH a command has at most 16384 bytes\r\n"
                assert one.recv(200) == b"-ERR Protocol error: unauthenticated bulk length" + told and is_ended(one)
        with server.client() as client:
            answers = client.piped([("SET", "a", "b" * 9_000)] * 40 + [("AUTH", "secret"), ("SET", "a", "b" * 40_000)])
            assert answers[40:] == ["OK", "OK"] and {str(it).split()[0] for it in answers[:40]} == {"NOAUTH"}


def strangers_who_read_nothing_take_little(program):
    """Each asks for more than a mebibyte of answers with few bytes, and its socket takes few of them."""
    with environment(DURKENZO_PASSWORD="secret"), served(program) as server, contextlib.ExitStack() as stack:
        before = server.memory()
        for _ in range(STRANGERS):
            one = stack.enter_context(socket.socket())
            one.setsockopt(socket.SOL_SOCKET, socket.SO_RCVBUF, 4_096)
            one.setsockopt(socket.IPPROTO_TCP, socket.TCP_MAXSEG, 1_000)
            one.connect((HOST, server.port))
            one.sendall(b"x\n" * 40_000)
        time.sleep(0.5)
        with server.client() as client:
            assert client.ask("AUTH", "secret") == "OK"
        each = (server.memory() - before) / STRANGERS
        assert each < MOST_OF_A_STRANGER, f"{each:.0f} bytes each"
        return f"{STRANGERS} strangers, {each:.0f} bytes each"


def many_connections_by_tls(program):
    with served(program, *with_tls()) as server, contextlib.ExitStack() as stack:
        before, memory, tls = server.at_rest(), server.memory(), context()
        clients = [stack.enter_context(TlsClient(server.port, tls)) for _ in range(MANY)]
        for client in clients:
            client.send("INCR", "n")
        assert sorted(it.read() for it in clients) == [*range(1, MANY + 1)]
        each = (server.memory() - memory) / MANY
        assert each < MOST_BYTES, f"{each:.0f} bytes each"
        stack.close()
        assert server.settle(before) <= before, server.descriptors()
        return f"{MANY} connections, {each:.0f} bytes each"


def exchanged(one, bytes_, wanted):
    """Sends these bytes, and reads as soon as there is something, until as many bytes came as are wanted or none
    come."""
    found, left = bytearray(), memoryview(bytes_)
    one.setblocking(False)
    while len(found) < wanted:
        assert any(select.select([one], [one] if left else [], [], SECONDS)), f"{len(found)} bytes came, and no more"
        with contextlib.suppress(ssl.SSLWantReadError, ssl.SSLWantWriteError):
            left = left[one.send(left[:100_000]) :] if left else left
        with contextlib.suppress(ssl.SSLWantReadError, ssl.SSLWantWriteError):
            while more := one.recv(1 << 16):
                found += more
            break
    return bytes(found)


def large_values_go_both_ways(program):
    chance = random.Random(SEED)
    values = [chance.randbytes(chance.randrange(LONG)) for _ in range(PIPED)]
    with served(program, *with_tls()) as server, TlsClient(server.port) as client:
        assert client.ask("SET", "k", values[-1]) == "OK"
        commands = b"".join(packed("SET", "k", it, "GET") for it in values)
        # Each command is answered by the one before it.
        wanted = b"".join(b"$%d\r\n%s\r\n" % (len(it), it) for it in [values[-1], *values[:-1]])
        assert exchanged(client.socket, commands, len(wanted)) == wanted
        return f"{len(wanted)} bytes each way"


def a_stop_answers_what_came(program):
    options = with_tls("--grace", SECONDS * 1_000)
    with served(program, *options) as server, TlsClient(server.port) as client:
        client.ask("SET", "k", b"v" * LONG)
        client.socket.sendall(packed("GET", "k") * 100 + b"PING\r\n")
        time.sleep(0.2)
        server.process.terminate()
        assert [client.read() for _ in range(100)] == [b"v" * LONG] * 100 and client.read() == "PONG"
        # TLS announces the end, so that it isn't taken for a cut.
        assert client.socket.recv(1) == b""
        server.process.wait(SECONDS)
        server.is_alive = lambda: True


def roles_are_kept_apart(program):
    changes = [("SM", "MIGRATE", 0, 2), ("sm", "restart", 1), ("SM", "DUMP", "f"), ("SM", "NOSUCH"), ("SM", "PLAN")]
    passwords = {"DURKENZO_CONTROL_PASSWORD": "master", "DURKENZO_PASSWORD": "secret"}
    with tempfile.TemporaryDirectory() as folder, environment(**passwords):
        for options in ([], ["--data", f"{folder}/data"]):
            with served(program, *options) as server, server.client() as client:
                assert refused(client, "ACL", "WHOAMI") == "NOAUTH" == refused(client, "SM", "LOOK", 0)
                assert refused(client, "AUTH", "master") == "WRONGPASS" == refused(client, "AUTH", "control", "secret")
                assert client.ask("AUTH", "secret") == "OK" and client.ask("ACL", "WHOAMI") == b"default"
                for words in changes:
                    assert refused(client, *words) == "NOPERM", words
                client.send(*changes[0])
                said = str(client.read())
                assert said == "NOPERM this user has no permissions to run the 'sm|migrate' command", said
                for words in [("HELP",), ("SHARDS",), ("look", 0), ("SERVERS",), ("SETTINGS",)]:
                    assert client.ask("SM", *words), words
                # A client that gives a wrong password keeps its role.
                assert refused(client, "AUTH", "control", "wrong") == "WRONGPASS"
                assert refused(client, *changes[0]) == "NOPERM" and client.ask("SET", "a", 1) == "OK"
                assert client.ask("AUTH", "control", "master") == "OK" and client.ask("ACL", "WHOAMI") == b"control"
                assert client.ask("SM", "MIGRATE", 0, 2) == "OK" and client.ask("GET", "a") == b"1"
                client.ask("HELLO", 2, "AUTH", "default", "secret")
                assert client.ask("ACL", "WHOAMI") == b"default" and refused(client, *changes[0]) == "NOPERM"
                client.ask("HELLO", 2, "AUTH", "control", "master")
                assert client.ask("RESET") == "RESET" and refused(client, "ACL", "WHOAMI") == "NOAUTH"
                shell = [SM, "shell", "--connect", str(server.port), "--user", "control"]
                ran = subprocess.run(shell, input="migrate 0 1\n", capture_output=True, text=True, timeout=SECONDS)
                assert ran.stdout.splitlines() == ["OK", "OK"], ran
                shell[-1] = "default"
                ran = subprocess.run(shell, input="migrate 0 2\n", capture_output=True, text=True, timeout=SECONDS)
                assert ran.stdout.splitlines()[1].startswith("NOPERM"), ran


def one_password_alone_keeps_the_control(program):
    with environment(DURKENZO_CONTROL_PASSWORD="master"), served(program) as server, server.client() as client:
        assert client.ask("SET", "a", 1) == "OK" and refused(client, "SM", "PAUSE", 0) == "NOPERM"
        assert refused(client, "SM", "AT", 9, "GET", "a") == "REFUSED"
        assert client.ask("AUTH", "control", "master") == "OK" and client.ask("SM", "PAUSE", 0) == "OK"
    with served(program) as server, server.client() as client:
        assert client.ask("SM", "PAUSE", 0) == "OK" and client.ask("ACL", "WHOAMI") == b"default"
        assert refused(client, "AUTH", "control", "") == "WRONGPASS"
        assert refused(client, "ACL", "LIST") == "ERR"


def what_gives_no_safety_is_told(program):
    given = [
        (["--tls-cert", "/nowhere"], {}, "--tls-key"),
        (["--tls-ca", "/nowhere"], {}, "--tls-cert"),
        (["--tls-cert", "/nowhere", "--tls-key", "/nowhere"], {}, "/nowhere: No such file"),
        (["--tls-cert", "/dev/null", "--tls-key", "/dev/null"], {}, "/dev/null: it has no certificate in PEM"),
        (["--peer-ca", "/nowhere"], {}, "--peer-cert"),
        ([], {"DURKENZO_PASSWORD": ""}, "DURKENZO_PASSWORD is empty"),
        (["--control-password-file", "/dev/null"], {}, "/dev/null: its first line is empty"),
        ([], {"DURKENZO_PEER_SECRET": "s" * 257}, "DURKENZO_PEER_SECRET: a secret of processes has at most 256 bytes"),
    ]
    if shutil.which("openssl"):
        given += [
            (["--tls-cert", file("ca.pem"), "--tls-key", "/dev/null"], {}, "/dev/null: it has no key in PEM"),
            (
                ["--peer-ca", file("ca.pem"), "--peer-cert", file("server.pem"), "--peer-key", file("server.key")],
                {},
                "hasn't the name DNS:peer.durkenzo",
            ),
        ]
    for words, variables, wanted in given:
        how = {"capture_output": True, "text": True, "timeout": 20, "stdin": subprocess.DEVNULL}
        ran = subprocess.run([program, "--port", "0", *words], env={**os.environ, **variables}, **how)
        assert ran.returncode in (1, 2) and wanted in ran.stderr, (words, ran.returncode, ran.stderr[-300:])


TESTS = [
    strangers_leave_room_for_others,
    wrong_passwords_take_time,
    little_is_taken_before_a_password,
    strangers_who_read_nothing_take_little,
    roles_are_kept_apart,
    one_password_alone_keeps_the_control,
    what_gives_no_safety_is_told,
    the_page_is_on_this_machine_where_clients_need_a_password,
]
BY_TLS = [
    clients_of_redis_speak_tls,
    the_page_speaks_tls_too,
    who_shows_no_certificate_gets_nothing,
    what_is_no_tls_gets_nothing,
    who_stalls_holds_nobody_up,
    hostile_chains_hold_nobody_up,
    who_is_in_a_handshake_is_a_stranger,
    half_handshakes_take_little,
    no_session_is_taken_up_again,
    many_connections_by_tls,
    large_values_go_both_ways,
    a_stop_answers_what_came,
]

if __name__ == "__main__":
    most = resource.getrlimit(resource.RLIMIT_NOFILE)[1]
    resource.setrlimit(resource.RLIMIT_NOFILE, (most, most))
    try:
        main([*TESTS, *BY_TLS] if shutil.which("openssl") else TESTS)
    finally:
        if shutil.which("openssl"):
            shutil.rmtree(certificates())
