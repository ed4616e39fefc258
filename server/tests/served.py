"""Runs a server for a test, measures its resources, and has a plain client for it."""
import collections
import contextlib
import functools
import json
import os
import pathlib
import random
import select
import socket
import subprocess
import sys
import threading
import time

# How long a test waits for something that takes a moment if the machine has no other work.
SECONDS = 60
# How many milliseconds a command waits for a shard, unless the test is about the refusal after that. A crowded machine
# may be slow.
WAIT = 30_000
# In this range the system gives no port to its own connections.
PORTS = (12_000, 32_000)
# Reserves the ports in that range that this process has taken, as long as it runs.
TAKEN = []
# How many lines of its log are kept.
LAST_LINES = 100
# The longest time of the slowest of a hundred answers beside assailants, or how many times the time without them just
# before; how long it is measured, and how long the assailants run before that.
SLOWEST, TIMES, BESIDE, BEGUN = 0.01, 3, 1.0, 0.5
# How often a test is tried that a machine with other work may miss.
TRIES = 8


class Refused(Exception):
    """An error in an answer, with its text."""


class Missed(AssertionError):
    """Something was over before the test could look at it, or took longer than on a machine without other work."""


def again(test):
    """Tries the test again if it missed something. All other failures are reported at once."""

    @functools.wraps(test)
    def tried(program):
        missed = []
        while True:
            try:
                told = test(program)
                return ", ".join([*filter(None, [told]), *(f"missed before: {it}" for it in missed)])
            except Missed as reason:
                missed.append(reason)
                if len(missed) == TRIES:
                    raise

    return tried


def within(took, most, what="it"):
    """Checks that this took no longer than allowed."""
    if took >= most:
        raise Missed(f"{what} took {took:.2f} s, and may take {most}")


def caught(look, client, refusal=None):
    """Returns the result of this once there is one. After that the client must be answered without an error, or with
    this refusal."""

    def found():
        if (it := look()) or not client.is_answered():
            return it
        told = client.read()
        assert not isinstance(told, Refused) or (refusal and str(told).startswith(refusal)), told
        raise Missed(f"it was over: {told}")

    return eventually(found)


class Client:
    """A connection that speaks the protocol, one command or a whole pipeline at a time."""

    def __init__(self, port):
        self.socket = socket.create_connection(("127.0.0.1", port), SECONDS)
        self.socket.setsockopt(socket.IPPROTO_TCP, socket.TCP_NODELAY, 1)
        self.stream = self.socket.makefile("rb", 1 << 16)

    def __enter__(self):
        return self

    def __exit__(self, *_):
        self.stream.close()
        self.socket.close()

    def send(self, *words):
        self.socket.sendall(packed(*words))

    def ask(self, *words):
        """Returns the answer to a command. An error is raised."""
        self.send(*words)
        answer = self.read()
        if isinstance(answer, Refused):
            raise answer
        return answer

    def rows(self, word, most=-1):
        """Returns SM's answer to this word: the words of each line behind the names of its columns. If a line has more
        words than this, the last one has all the rest."""
        return [it.decode().split(" ", most) for it in self.ask("SM", word)[1:]]

    def piped(self, commands):
        """Returns the answers to these commands, which are sent at once. Errors are among them."""
        self.socket.sendall(b"".join(packed(*it) for it in commands))
        return [self.read() for _ in commands]

    def raw(self, *words):
        """Returns the answer's bytes as they came."""
        self.send(*words)
        return self.bytes_of_one()

    def is_answered(self):
        """Returns whether an answer has come. Nothing of it is read."""
        return bool(select.select([self.socket], [], [], 0)[0])

    def line(self):
        line = self.stream.readline()
        if not line.endswith(b"\r\n"):
            raise ConnectionError(f"the connection ended within {line!r}")
        return line

    def read(self):
        line = self.line()
        kind, rest = line[:1], line[1:-2]
        if kind == b"+":
            return rest.decode()
        if kind == b"-":
            return Refused(rest.decode(errors="replace"))
        if kind == b":":
            return int(rest)
        if kind == b"$":
            return None if rest == b"-1" else self.stream.read(int(rest) + 2)[:-2]
        if kind == b"*":
            return [self.read() for _ in range(int(rest))]
        raise ConnectionError(f"an answer begins with {line!r}")

    def bytes_of_one(self):
        line = self.line()
        kind, rest = line[:1], line[1:-2]
        if kind in b"$=" and rest != b"-1":
            return line + self.stream.read(int(rest) + 2)
        count = {b"*": 1, b"%": 2}.get(kind, 0) * int(rest or 0) if kind in b"*%" else 0
        return line + b"".join(self.bytes_of_one() for _ in range(count))


def eventually(look, seconds=SECONDS):
    """Returns the result of this once there is one."""
    end = time.monotonic() + seconds
    while True:
        if found := look():
            return found
        assert time.monotonic() < end, f"not within {seconds} s: {look.__name__}"
        time.sleep(0.02)


def slowest(clients, seconds):
    """Returns how long the slowest of a hundred PINGs takes that these clients send one after another, for at least so
    long."""
    took, end = [], time.monotonic() + seconds
    while time.monotonic() < end or len(took) < 100:
        for client in clients:
            began = time.monotonic()
            assert client.ask("PING") == "PONG"
            took.append(time.monotonic() - began)
    return sorted(took)[len(took) * 99 // 100]


@contextlib.contextmanager
def begun(command):
    """Runs a process of such clients during the body, which begins once they have begun."""
    with subprocess.Popen(list(map(str, command)), stdin=subprocess.PIPE, stdout=subprocess.PIPE) as process:
        try:
            process.stdout.readline()
            yield
            assert process.poll() is None, f"{command} ended with {process.returncode}"
        finally:
            process.kill()


@contextlib.contextmanager
def assailed(*assailants):
    """Runs assailants.py with these words during the body."""
    command = [sys.executable, pathlib.Path(__file__).parent / "assailants.py", *assailants]
    with begun(command):
        time.sleep(BEGUN)
        yield


def slowest_beside(clients, *assailants):
    """Does the same beside assailants.py with these words. The time without them says how much a machine with other
    work takes, and then the test is tried again."""
    found = []
    for _ in range(TRIES):
        alone = slowest(clients, BESIDE)
        with assailed(*assailants):
            found.append((alone, slowest(clients, BESIDE)))
        if found[-1][1] < max(SLOWEST, TIMES * alone):
            return found[-1][1]
    told = [tuple(round(took * 1000, 1) for took in it) for it in found]
    raise AssertionError(f"{assailants[1:]}: of a hundred PINGs one took, without and beside them, {told} ms")


def packed(*words):
    """Returns a command as clients write it."""
    words = [it if isinstance(it, bytes) else str(it).encode() for it in words]
    return b"*%d\r\n" % len(words) + b"".join(b"$%d\r\n%s\r\n" % (len(it), it) for it in words)


class Server:
    """A server that runs: its port, its process, and the resources of that."""

    def __init__(self, process, port):
        self.process, self.port = process, port
        # The last lines of its log.
        self.said = collections.deque(maxlen=LAST_LINES)

    def client(self):
        return Client(self.port)

    def says(self, *words):
        """Waits until a line of its log has all these words."""
        end = time.monotonic() + SECONDS
        while not any(all(it in line for it in words) for line in list(self.said)):
            assert time.monotonic() < end, f"{words} aren't said: {''.join(self.said)}"
            time.sleep(0.02)

    def is_alive(self):
        return self.process.poll() is None

    def is_stopped(self):
        """Returns whether a signal has stopped it."""
        return self.fields()[0] == "T"

    def fields(self):
        """Returns the system's fields about it, from the third field on."""
        return pathlib.Path(f"/proc/{self.process.pid}/stat").read_text().rpartition(")")[2].split()

    def descriptors(self):
        return len(os.listdir(f"/proc/{self.process.pid}/fd"))

    def memory(self):
        """Returns its bytes of memory."""
        return int(pathlib.Path(f"/proc/{self.process.pid}/statm").read_text().split()[1]) * 4096

    def processor_seconds(self):
        """Returns the processor time of all its threads so far."""
        fields = self.fields()
        return (int(fields[11]) + int(fields[12])) / os.sysconf("SC_CLK_TCK")

    def used_in_a_second(self):
        """Returns how many processor seconds it takes in one second."""
        used = self.processor_seconds()
        time.sleep(1)
        return self.processor_seconds() - used

    def threads(self, name):
        """Returns how many threads with this name it has."""
        count = 0
        for task in pathlib.Path(f"/proc/{self.process.pid}/task").iterdir():
            # A thread may end meanwhile.
            with contextlib.suppress(OSError):
                count += (task / "comm").read_text().strip() == name
        return count

    def at_rest(self):
        """Returns how many descriptors it has, once that number hasn't changed for a while."""
        last, since = -1, time.monotonic()
        while time.monotonic() < since + 0.3:
            if (now := self.descriptors()) != last:
                last, since = now, time.monotonic()
            time.sleep(0.02)
        return last

    def settle(self, descriptors):
        """Waits until it has at most so many descriptors, and returns how many it has."""
        end = time.monotonic() + SECONDS
        while (now := self.descriptors()) > descriptors and time.monotonic() < end:
            time.sleep(0.05)
        return now


def server_command(program, *options):
    """Returns the command of a server at a free port, with these options. Unless they say otherwise, it is patient."""
    words = [program, "--port", "0", "--http-port", "0", "--log-format", "json", *map(str, options)]
    return words if "--wait" in words else [*words, "--wait", str(WAIT)]


@contextlib.contextmanager
def served(program, *options, before=(), **how):
    """Runs the server with these options, behind the words of `before`, during the body. Checks that it ends well when
    it is told to."""
    command = [*before, *server_command(program, *options)]
    how |= {"stderr": subprocess.PIPE, "stdin": subprocess.DEVNULL, "text": True}
    with subprocess.Popen(command, **how) as process:
        try:
            server = Server(process, port_of(process))
            said, reading = server.said, read_all(process, server.said)
            yield server
            is_alive = server.is_alive()
        finally:
            process.terminate()
            try:
                process.wait(SECONDS)
            except subprocess.TimeoutExpired:
                # A server that doesn't end would otherwise be waited for forever.
                process.kill()
                raise
        reading.join(SECONDS)
        if not is_alive or process.returncode != 0:
            when = "at its stop " if is_alive else ""
            raise AssertionError(f"{when}the server ended with {process.returncode}: {''.join(said)[-2000:]}")


def free_ports(count):
    """Returns as many ports at which nobody listens, of those that the system gives to no connection of its own. No
    other process that asks here is given one of them as long as this one runs."""
    found = []
    while len(found) < count:
        port = random.SystemRandom().randrange(*PORTS)
        with contextlib.suppress(OSError), socket.create_server(("127.0.0.1", port)):
            mark = socket.socket(socket.AF_UNIX)
            mark.bind(f"\0durkenzo-port-{port}")
            TAKEN.append(mark)
            found.append(port)
    return found


def free_port():
    """Returns a port at which nobody listens."""
    return free_ports(1)[0]


def read_all(process, said):
    """Starts a thread that keeps what the process says and reads it at once; returns the thread. A process whose log
    isn't read drops lines, or waits."""
    reading = threading.Thread(target=said.extend, args=(process.stderr,), daemon=True)
    reading.start()
    return reading


def port_of(process):
    """Returns the port in the log. A server that logs none is ended after long."""
    late = threading.Timer(20 * SECONDS, process.kill)
    late.daemon = True
    late.start()
    try:
        return told_port(process)
    finally:
        late.cancel()


def told_port(process):
    for line in process.stderr:
        fields = json.loads(line).get("fields", {}) if line.startswith("{") else {}
        if "address" in fields:
            return int(fields["address"].rpartition(":")[2])
    raise AssertionError(f"the server ended with {process.wait()} before it served")


def run(tests, program):
    """Runs these tests of the program, each by its name, and says what failed. Returns the exit status."""
    failed = 0
    for test in tests:
        name = test.__name__.replace("_", " ")
        began = time.monotonic()
        try:
            told = test(program)
            print(f"passed: {name}{': ' + told if told else ''}, {time.monotonic() - began:.1f} s", flush=True)
        except Exception as error:  # whatever went wrong there, the other tests go on
            failed += 1
            reason = f"{type(error).__name__}: {error}".replace("\n", "\n    ")
            print(f"FAILED: {name}\n    {reason}", flush=True)
    return bool(failed)


def main(tests):
    if len(sys.argv) != 2:
        sys.exit(f"{sys.argv[0]} PROGRAM")
    sys.exit(run(tests, sys.argv[1]))
