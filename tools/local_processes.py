"""Members of etcd and servers of a cluster on this machine. Each is a process of its own, with its data and its log in
a folder.

    with Fleet(folder, program, members=3, servers=3) as fleet: ..

starts all of them, and ends all of them however the body ends. If something must be between two of them, such as a
relay that cuts and delays, it takes the place of the addresses that `Fleet.between` gives.
"""
import base64
import contextlib
import ctypes
import http.client
import json
import os
import pathlib
import shutil
import signal
import socket
import subprocess
import sys
import time

TOP = pathlib.Path(__file__).resolve().parent.parent
sys.path.insert(0, str(TOP / "server/tests"))
import served

HOST = "127.0.0.1"
# How long a process may take until it answers, and until it ends.
SECONDS = 90
# The lines of a log that are printed if a process ended too soon.
LINES = 12
# prctl's number: by it a process ends with this signal when its parent ends, whatever ended that.
PARENT_DEATH = 1


class NotBegun(Exception):
    """Something isn't installed, a port is taken, or a process ended before it answered; the text gives advice."""


def is_free(port):
    """Returns whether nobody listens at this port."""
    with socket.socket() as tried:
        # A connection that ended a moment ago doesn't keep a server from it.
        tried.setsockopt(socket.SOL_SOCKET, socket.SO_REUSEADDR, 1)
        try:
            tried.bind((HOST, port))
        except OSError:
            return False
        return True


def ended_with_us():
    """Makes the process that is about to start end with this one."""
    ctypes.CDLL(None).prctl(PARENT_DEATH, signal.SIGKILL)


class Process:
    """A process in a group of its own, and its log. It may be ended and begun again."""

    def __init__(self, name, command, log, env=None):
        self.name, self.command, self.log = name, [*map(str, command)], pathlib.Path(log)
        self.env, self.run, self.is_wanted = env or {}, None, False

    def begin(self):
        """Starts it, and appends to its log. Must be called by a thread that outlives the process."""
        env = {**os.environ, **self.env}
        with open(self.log, "ab") as log:
            how = {"stdin": subprocess.DEVNULL, "stdout": log, "stderr": log, "env": env}
            self.run = subprocess.Popen(self.command, start_new_session=True, preexec_fn=ended_with_us, **how)
        self.is_wanted = True

    def is_alive(self):
        return self.run is not None and self.run.poll() is None

    def signal(self, number):
        """Sends a signal to it and to all that it started."""
        if self.is_alive():
            with contextlib.suppress(ProcessLookupError):
                os.killpg(self.run.pid, number)

    def kill(self):
        """Ends it at once, and waits until it is gone."""
        self.is_wanted = False
        self.signal(signal.SIGKILL)
        if self.run:
            self.run.wait()

    def stop(self):
        """Asks it to end, and kills it if that takes long."""
        self.is_wanted = False
        self.signal(signal.SIGCONT)
        self.signal(signal.SIGTERM)
        with contextlib.suppress(subprocess.TimeoutExpired):
            if self.run:
                self.run.wait(SECONDS)
        self.kill()

    def said(self):
        """The last lines of its log."""
        lines = self.log.read_text(errors="replace").splitlines() if self.log.exists() else []
        return "\n".join(f"  {it}" for it in lines[-LINES:])

    def wait(self, is_up):
        """Waits until it answers."""
        end = time.monotonic() + SECONDS
        while not is_up():
            if not self.is_alive():
                raise NotBegun(f"{self.name} ended with {self.run.returncode} before it answered:\n{self.said()}")
            if time.monotonic() > end:
                raise NotBegun(f"{self.name} didn't answer in {SECONDS} seconds:\n{self.said()}")
            time.sleep(0.05)


class Member(Process):
    """A member of etcd."""

    def __init__(self, number, folder, ports, options=()):
        self.number, self.port, self.peer_port = number, *ports
        self.data, self.peer_at = folder / f"etcd-{number}", self.peer_port
        self.client, self.peer = (f"http://{HOST}:{it}" for it in ports)
        self.options = options
        super().__init__(f"etcd-{number}", [], folder / f"etcd-{number}.log")

    def join(self, program, members):
        """Returns the list of members, each with its address for others."""
        every = ",".join(f"{it.name}=http://{HOST}:{it.peer_at}" for it in members)
        words = {
            "name": self.name, "data-dir": self.data, "listen-client-urls": self.client,
            "advertise-client-urls": self.client, "listen-peer-urls": self.peer,
            "initial-advertise-peer-urls": f"http://{HOST}:{self.peer_at}", "initial-cluster": every,
        }  # fmt: skip
        named = (str(it) for name, value in words.items() for it in (f"--{name}", value))
        self.command = [str(program), *named, *self.options]

    def ask(self, path, asked, seconds=SECONDS):
        """Returns the answer of its gateway, also if that is a refusal; raises OSError if there is none."""
        connection = http.client.HTTPConnection(HOST, self.port, timeout=seconds)
        try:
            connection.request("POST", path, json.dumps(asked), {"Content-Type": "application/json"})
            return json.loads(connection.getresponse().read())
        except (http.client.HTTPException, ValueError) as error:
            raise ConnectionError(f"{self.name}: {error}") from error
        finally:
            connection.close()

    def is_up(self):
        """Returns whether it reads; for that, most members must agree."""
        with contextlib.suppress(OSError):
            return "header" in self.ask("/v3/kv/range", {"key": text(b"up")}, 2)
        return False

    def is_leader(self):
        with contextlib.suppress(OSError):
            found = self.ask("/v3/maintenance/status", {}, 2)
            return found.get("leader") == found["header"]["member_id"]
        return False


class Server(Process):
    """A server of a cluster."""

    def __init__(self, number, folder, program, port, options):
        self.number, self.port = number, port
        super().__init__(f"server-{number}", [program, *options], folder / f"server-{number}.log")

    def client(self):
        """A connection to it."""
        return served.Client(self.port)

    def is_up(self):
        with contextlib.suppress(OSError), self.client() as client:
            client.raw("PING")
            return True
        return False

    def has_owners(self):
        """Returns whether it knows the address of each shard's owner."""
        with contextlib.suppress(OSError, served.Refused), self.client() as client:
            return not any(it.endswith(b"-") for it in client.ask("SM", "ROUTES"))
        return False


class Fleet:
    """Members of etcd, and servers over them."""

    def __init__(self, folder, program=None, members=3, servers=3, **how):
        """`port` is the first server's for clients, the next one's the next, and 0 takes free ones; `options` go to
        each server and `etcd_options` to each member; `env` gives a server's environment by its number, `relays` are
        the relays before ports, and `etcd` is another program of it."""
        self.folder, self.program, port = pathlib.Path(folder), program, how.get("port", 0)
        self.options, self.count, self.env = how.get("options", ()), servers, how.get("env", lambda number: {})
        ports = iter(served.free_ports(2 * members + 2 * servers))
        self.client_ports = [port + it if port else next(ports) for it in range(servers)]
        self.peer_ports = [next(ports) for _ in range(servers)]
        self.members = [
            Member(it + 1, self.folder, (next(ports), next(ports)), how.get("etcd_options", ()))
            for it in range(members)
        ]
        self.servers, self.relays, self.etcd = [], how.get("relays"), how.get("etcd", "etcd")
        # Servers more than there were at first, which come and go.
        self.joined = []
        self.stack = contextlib.ExitStack()

    def __enter__(self):
        with self.stack:
            self.begin()
            # From here on the body's end ends all.
            self.stack = self.stack.pop_all()
        return self

    def __exit__(self, *_):
        self.stack.close()

    def between(self, name, port):
        """The port at which others reach this one: its own, or a relay's before it."""
        return self.relays.before(name, port) if self.relays else port

    def begin(self):
        """Begins all, members first, and waits until each answers."""
        if not shutil.which("etcd"):
            raise NotBegun("etcd isn't installed: tools/setup installs it on Debian, and else your system does")
        if taken := [it for it in self.client_ports if not is_free(it)]:
            raise NotBegun(f"port {taken[0]} is taken: --port names another first one, and 0 takes free ones")
        for it in self.members:
            it.peer_at = self.between(f"to {it.name} from members", it.peer_port)
        for it in self.members:
            it.join(self.etcd, self.members)
            self.run(it, it.kill)
        for it in self.members:
            it.wait(it.is_up)
        if self.program:
            self.begin_servers()

    def begin_servers(self):
        at = [self.peer_at(number) for number in range(1, self.count + 1)]
        self.servers = [self.server(number, at[number - 1]) for number in range(1, self.count + 1)]
        for it in self.servers:
            self.run(it, it.stop)
        for it in self.servers:
            it.wait(it.is_up)
        for it in self.servers:
            it.wait(it.has_owners)

    def peer_at(self, number):
        """Returns the address of the server of this number for others."""
        return self.between(f"to server-{number} from servers", self.peer_ports[number - 1])

    def joining(self):
        """Returns one more server, which hasn't started, and which the fleet's end ends. The settings must name it
        before it starts."""
        for ports, port in zip((self.client_ports, self.peer_ports), served.free_ports(2)):
            ports.append(port)
        number = len(self.client_ports)
        made = self.server(number, self.peer_at(number))
        self.stack.callback(made.kill)
        self.joined.append(made)
        return made

    def run(self, process, end):
        """Begins a process, which the fleet's end ends so: a member waits long for others that are gone."""
        process.begin()
        self.stack.callback(end)

    def server(self, number, peer_at):
        """The server of this number, which others reach there."""
        first = (number - 1) % len(self.members)
        # Each begins with another member, so that one reads at a member that others don't write at.
        ones = [*self.members[first:], *self.members[:first]]
        members = [self.between(f"to {it.name} from server-{number}", it.port) for it in ones]
        port, peer = self.client_ports[number - 1], self.peer_ports[number - 1]
        words = {
            "etcd": ",".join(f"http://{HOST}:{it}" for it in members), "name": number,
            "servers": max(self.count, number), "listen": f"{HOST}:{peer}", "advertise": f"{HOST}:{peer_at}",
            "bind": HOST, "port": port, "http-port": 0,
        }  # fmt: skip
        options = [str(it) for name, value in words.items() for it in (f"--{name}", value)]
        made = Server(number, self.folder, self.program, port, [*options, *map(str, self.options)])
        made.env = self.env(number)
        return made

    def endpoints(self):
        return [it.client for it in self.members]

    def leader(self):
        """Returns the member that leads the others, or none if no member says so."""
        return next((it for it in self.members if it.is_alive() and it.is_leader()), None)

    def ask(self, path, asked):
        """Returns the answer of the first member that answers."""
        for it in self.members:
            with contextlib.suppress(OSError):
                return it.ask(path, asked)
        raise ConnectionError("no member of etcd answers")

    def stop(self):
        """Asks all servers to end at once; the fleet's end waits until they are gone."""
        for it in self.servers:
            it.signal(signal.SIGCONT)
            it.signal(signal.SIGTERM)


def text(some):
    """Bytes as the gateway has them."""
    return base64.b64encode(some).decode()


def bytes_of(found):
    """Returns the bytes that the gateway gave as this text."""
    return base64.b64decode(found or "")
