#!/usr/bin/env python3
"""Services in other languages, beside sidecars over etcd: no call is refused, no count is lost, while shards move and
while each process is restarted in turn.

    sidecar/tests/languages.py PROGRAM

Three applications, three sidecars and a member of etcd run on loopback, in a folder that is removed. A language that
isn't installed isn't tried."""
import contextlib
import http.client
import json
import pathlib
import shutil
import signal
import subprocess
import sys
import tempfile
import threading
import time

sys.dont_write_bytecode = True
TOP = pathlib.Path(__file__).resolve().parents[2]
sys.path.insert(0, str(TOP / "tools"))
import local_processes
from local_processes import HOST, Member, Process, served

EXAMPLES = TOP / "sidecar/examples"
SERVERS, SHARDS, CLIENTS = 3, 12, 4
MOVES = 24
# How long an answer, a stop or a compiler may take, in seconds.
PATIENCE = 90


def asked(port, method, path, body=b""):
    """Returns the status, the error's name and the body of the answer, over a connection of its own."""
    connection = http.client.HTTPConnection(HOST, port, timeout=PATIENCE)
    try:
        connection.request(method, path, body)
        answer = connection.getresponse()
        return answer.status, answer.getheader("Durkenzo-Error"), answer.read().decode()
    finally:
        connection.close()


class Pair:
    """An application and its sidecar."""

    def __init__(self, server, words, program, etcd, folder):
        application, self.port = served.free_port(), served.free_port()
        self.server, self.program = server, program
        self.application = Process(f"application-{server}", [*words, application], folder / f"application-{server}.log")
        options = {
            "etcd": etcd, "name": server, "servers": SERVERS, "shards": SHARDS,
            "application": f"http://{HOST}:{application}", "clients": f"{HOST}:{self.port}",
            # However slow this machine is, a call that must be answered is.
            "call-time": 1_000 * PATIENCE,
        }  # fmt: skip
        words = [program, *(word for name, value in options.items() for word in (f"--{name}", value))]
        self.sidecar = Process(f"sidecar-{server}", words, folder / f"sidecar-{server}.log")

    def is_ready(self):
        with contextlib.suppress(OSError):
            return asked(self.port, "GET", "/ready")[0] == 200
        return False

    def begin(self):
        self.application.begin()
        self.sidecar.begin()
        self.sidecar.wait(self.is_ready)

    def drain(self, is_asked_twice):
        """Makes the sidecar leave, as a hook before a stop does, then ends the application. A supervisor may ask the
        sidecar to end at the same time."""
        command = [self.program, "drain", "--clients", f"{HOST}:{self.port}"]
        with subprocess.Popen(command, stderr=subprocess.PIPE, text=True) as run:
            if is_asked_twice:
                served.eventually(lambda: not self.is_ready(), PATIENCE)
                self.sidecar.signal(signal.SIGTERM)
            _, said = run.communicate(timeout=PATIENCE)
        assert run.returncode == 0, f"drain of {self.server}: {said}"
        status = self.sidecar.run.wait(PATIENCE)
        assert status == 0, f"sidecar {self.server} ended with {status}: {self.sidecar.said()}"
        self.application.kill()

    def owns(self):
        """Returns how many shards its server owns."""
        routes = json.loads(asked(self.port, "GET", "/v1/map?wait=0")[2])["routes"]
        return sum(it["server"] == self.server for it in routes)

    def migrate(self, shard, to):
        status, name, text = asked(self.port, "POST", "/v1/command", f"MIGRATE {shard} {to}".encode())
        assert status == 200 or "SameServer" in text, f"MIGRATE {shard} {to}: {status} {name} {text}"


class Clients:
    """Clients, each with a page of its own, whose counts it knows."""

    def __init__(self, pairs):
        # The pairs that take clients: as a balancer does, the test takes one out of it before it is drained.
        self.serving, self.stops = list(pairs), threading.Event()
        self.answered, self.wrong = [0] * CLIENTS, []
        self.threads = [threading.Thread(target=self.visit, args=(it,)) for it in range(CLIENTS)]

    def visit(self, client):
        turn = client
        while not self.stops.is_set():
            serving = list(self.serving)
            pair, turn = serving[turn % len(serving)], turn + 1
            try:
                status, name, text = asked(pair.port, "POST", f"/key/page-{client}", b"")
            except OSError as error:
                status, name, text = 0, type(error).__name__, str(error)
            if status == 200 and text == str(self.answered[client] + 1):
                self.answered[client] += 1
                continue
            self.wrong.append(f"after {self.answered[client]} at {pair.server}: {status} {name} {text}")
            return

    def __enter__(self):
        for it in self.threads:
            it.start()
        return self

    def __exit__(self, *_):
        self.stops.set()
        for it in self.threads:
            it.join(PATIENCE)


@contextlib.contextmanager
def begun(program, words):
    """Pairs of applications with these words and sidecars, over an etcd."""
    with tempfile.TemporaryDirectory() as room, contextlib.ExitStack() as stack:
        folder = pathlib.Path(room)
        member = Member(1, folder, served.free_ports(2))
        member.join(shutil.which("etcd"), [member])
        stack.callback(member.kill)
        member.begin()
        member.wait(member.is_up)
        pairs = [Pair(it, words, program, member.client, folder) for it in range(1, SERVERS + 1)]
        for pair in pairs:
            stack.callback(pair.application.kill)
            stack.callback(pair.sidecar.kill)
            pair.begin()
        yield pairs


def rolled(pairs, clients):
    """Restarts each application and sidecar in turn, and waits until its shards have come home."""
    for pair in pairs:
        clients.serving.remove(pair)
        pair.drain(is_asked_twice=pair.server == SERVERS)
        pair.begin()
        served.eventually(pair.owns, PATIENCE)
        clients.serving.append(pair)


def tried(program, words):
    """Moves shards and restarts all processes under load. Returns how many calls were answered."""
    with begun(program, words) as pairs, Clients(pairs) as clients:
        # All shards have owners, so that no call waits for one at first.
        served.eventually(lambda: sum(it.owns() for it in pairs) >= SHARDS, PATIENCE)
        for turn in range(MOVES):
            pairs[turn % SERVERS].migrate(turn % SHARDS, (turn + turn // SHARDS) % SERVERS + 1)
        moved = sum(clients.answered)
        rolled(pairs, clients)
        time.sleep(0.5)
        assert not clients.wrong, f"{clients.wrong}; " + "; ".join(it.sidecar.said() for it in pairs)
        assert min(clients.answered) > 50, clients.answered
        return f"{moved} calls while shards moved, {sum(clients.answered) - moved} while all were restarted"


def whose_process_is_killed(program, words):
    """Kills an application with its sidecar, waits until each page is answered again, and returns how long that took."""
    with begun(program, words) as pairs:
        served.eventually(lambda: sum(it.owns() for it in pairs) >= SHARDS, PATIENCE)
        killed, *others = pairs
        began = time.monotonic()
        for it in (killed.application, killed.sidecar):
            it.kill()
        for page in range(SHARDS * SERVERS):
            # Some call waits until the lease of the process has ended, and the shard is another server's.
            called = [asked(it.port, "POST", f"/key/page-{page}") for it in others]
            assert [it[0] for it in called] == [200, 200], called
            assert [it[2] for it in called] == ["1", "2"], called
        return f"{time.monotonic() - began:.1f} s for all pages"


def a_service_in_node_goes_on_elsewhere_once_a_process_is_killed(program):
    return whose_process_is_killed(program, ["node", EXAMPLES / "node/visits.js"])


def a_service_in_node_moves_and_restarts_with_no_call_refused(program):
    return tried(program, ["node", EXAMPLES / "node/visits.js"])


def a_service_in_go_moves_and_restarts_with_no_call_refused(program):
    with tempfile.TemporaryDirectory() as folder:
        built = f"{folder}/visits"
        command = ["go", "build", "-o", built, EXAMPLES / "go/visits.go"]
        ran = subprocess.run(command, capture_output=True, text=True, timeout=10 * PATIENCE)
        assert ran.returncode == 0, ran.stderr
        return tried(program, [built])


TESTS = {
    a_service_in_node_moves_and_restarts_with_no_call_refused: "node",
    a_service_in_node_goes_on_elsewhere_once_a_process_is_killed: "node",
    a_service_in_go_moves_and_restarts_with_no_call_refused: "go",
}

if __name__ == "__main__":
    served.main([test for test, language in TESTS.items() if shutil.which(language)])
