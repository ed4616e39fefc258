#!/usr/bin/env python3
"""Several processes over etcd, each with one server: any process answers any key, kills lose no acknowledged write, and
migrations lose no addition.

    server/tests/cluster.py PROGRAM

Three processes and a member of etcd run on loopback, in a folder that is removed."""
import base64
import contextlib
import json
import os
import pathlib
import random
import re
import shutil
import signal
import socket
import subprocess
import sys
import tempfile
import threading
import time
import urllib.error
import urllib.request

sys.dont_write_bytecode = True
import durable
import scans
import served
from served import Missed, Refused, again, caught, eventually, free_ports, main, within

# This makes a program see its machine as if it had been suspended.
SUSPENDED = pathlib.Path(__file__).resolve().parents[2] / "tools/suspended.c"
DEPLOYED = pathlib.Path(__file__).resolve().parents[2] / "deploy"
ALERTS, DASHBOARD = DEPLOYED / "alerts.yml", DEPLOYED / "dashboard.json"
SHARDS = 12
SERVERS = 3
# How long a process may stand still: if the test is about the time after that, and if it isn't.
LEASE, LASTING = 6, 30
# How long after a lease's end its shards are answered elsewhere. On a busy machine it takes longer.
RECOVERY = 2
# The time that other work on the machine may take besides.
SLOW = 6
PATIENCE = served.SECONDS
# A small quota of etcd, the length of texts that fill it, and how many bytes of them are written a second at most.
QUOTA, LONG, RATE = 60_000_000, 60_000, 1_200_000
# How soon a client is told that a process can't be reached. A connection attempt in vain takes longer.
SOON = 1.8
# The folder for etcd's data, in memory if there is room, so that tests don't wait for a disk. A member takes 64 MB at
# first.
MEMORY = "/dev/shm"
HAS_MEMORY = os.access(MEMORY, os.W_OK) and shutil.disk_usage(MEMORY).free > 1 << 30
ROOM = MEMORY if HAS_MEMORY else None


class Etcd:
    """Members of etcd, in a folder of their own."""

    def __init__(self, count, room, quota, gateway):
        ports = free_ports(2 * count)
        self.clients, peers = ports[:count], ports[count:]
        named = ",".join(f"m{it}=http://127.0.0.1:{port}" for it, port in enumerate(peers))
        self.commands = [member(it, room, self.clients[it], peers[it], named) for it in range(count)]
        more = ["--quota-backend-bytes", str(quota), f"--enable-grpc-gateway={str(gateway).lower()}"]
        self.commands = [[*it, *more] for it in self.commands]
        self.processes = [self.begin(it) for it in range(count)]
        self.urls = ",".join(f"http://127.0.0.1:{it}" for it in self.clients)

    def begin(self, number):
        quiet = {"stdin": subprocess.DEVNULL, "stdout": subprocess.DEVNULL, "stderr": subprocess.DEVNULL}
        return subprocess.Popen(self.commands[number], **quiet)

    def wait_until_up(self):
        end = time.monotonic() + PATIENCE
        while not all(is_up(it) for it in self.clients):
            assert time.monotonic() < end, "etcd doesn't begin"
            time.sleep(0.05)

    def stop(self):
        for it in self.processes:
            it.kill()
            it.wait()


def member(number, room, client, peer, named):
    here = "http://127.0.0.1"
    return [
        "etcd", "--name", f"m{number}", "--data-dir", f"{room}/etcd-{number}", "--log-level", "error",
        "--listen-client-urls", f"{here}:{client}", "--advertise-client-urls", f"{here}:{client}",
        "--listen-peer-urls", f"{here}:{peer}", "--initial-advertise-peer-urls", f"{here}:{peer}",
        "--initial-cluster", named,
    ]


def is_up(port):
    with contextlib.suppress(OSError):
        with urllib.request.urlopen(f"http://127.0.0.1:{port}/health", timeout=1) as told:
            return b"true" in told.read()
    return False


class Process(served.Server):
    """A process of the cluster. Its log is kept."""

    def __init__(self, program, cluster, server, options=()):
        # It must end by SIGTERM with 0, whatever a test does meanwhile.
        how = {"stderr": subprocess.PIPE, "stdin": subprocess.DEVNULL, "text": True, "env": cluster.env}
        process = subprocess.Popen(command(program, cluster, server, options), **how)
        super().__init__(process, served.port_of(process))
        self.log = []
        self.reading = served.read_all(process, self.log)

    def kill(self, how=signal.SIGKILL):
        self.process.send_signal(how)
        status = self.process.wait(PATIENCE)
        self.reading.join(PATIENCE)
        return status


def command(program, cluster, server, options=()):
    return [
        program, "--port", "0", "--http-port", "0", "--log-format", "json", "--etcd", cluster.etcd.urls,
        "--name", str(server), "--listen", "127.0.0.1:0", "--servers", str(SERVERS), "--shards", str(SHARDS),
        "--lease", str(cluster.lease), "--wait", str(served.WAIT), "--threads", "2", "--balance", "off",
        *map(str, options),
    ]


class Cluster:
    """Processes over members of etcd, by the numbers of their servers. Those with a port in `pages` have a page."""

    def __init__(self, program, etcd, options, lease, env, pages=()):
        self.program, self.etcd, self.options, self.lease, self.env = program, etcd, options, lease, env
        self.processes, self.pages = {}, dict(enumerate(pages, 1))

    def begin(self, server, *options):
        page = self.pages.get(server)
        options = (*options, "--http-port", page) if page else options
        self.processes[server] = Process(self.program, self, server, (*self.options, *options))
        return self.processes[server]

    def client(self, server):
        return self.processes[server].client()

    def any(self):
        """Returns a client of any process that runs."""
        return self.client(next(it for it, process in self.processes.items() if process.is_alive()))

    def leader(self):
        """Returns the server whose process leads."""
        with self.any() as client:
            return eventually(lambda: next((int(it[0]) for it in rows(client) if "leads" in it), None))

    def settled(self, without=None):
        """Waits until each shard has an owner that is there and serves, and isn't this one."""
        with self.any() as client:
            eventually(lambda: is_settled(client, str(without)))

    def stop(self):
        for it in self.processes.values():
            if it.is_alive():
                it.process.send_signal(signal.SIGTERM)
        ends = {number: it.process.wait(PATIENCE) for number, it in self.processes.items()}
        wrong = {number: it for number, it in ends.items() if it not in (0, -signal.SIGKILL)}
        assert not wrong, f"processes ended by {wrong}: {[self.processes[it].log[-3:] for it in wrong]}"


@contextlib.contextmanager
def cluster(program, *options, lease=LASTING, members=1, env=None, quota=0, has_pages=False, gateway=True):
    with tempfile.TemporaryDirectory(prefix="sm-cluster-", dir=ROOM) as room:
        etcd = Etcd(members, room, quota, gateway)
        try:
            etcd.wait_until_up()
            pages = free_ports(SERVERS) if has_pages else ()
            found = Cluster(program, etcd, options, lease, env, pages)
            try:
                for server in range(1, SERVERS + 1):
                    found.begin(server)
                found.settled()
                yield found
            except BaseException:
                for it in found.processes.values():
                    it.process.kill()
                raise
            finally:
                found.stop()
        finally:
            etcd.stop()


def rows(client):
    """Returns the rows of SM SERVERS."""
    return client.rows("SERVERS")


def shards(client):
    """Returns the stand and the owner of each shard."""
    return [tuple(it[1:3]) for it in client.rows("SHARDS")]


def is_settled(client, without=None):
    with contextlib.suppress(Refused):
        there = {it[0] for it in rows(client) if "gone" not in it} - {without}
        return all(stand == "Serving" and owner in there for stand, owner in shards(client))


def any_process_answers_any_key(program):
    # A process that begins as a server that runs already waits for a lease before it knows that.
    with cluster(program, lease=LEASE) as several, served.served(program) as memory, contextlib.ExitStack() as stack:
        one = stack.enter_context(memory.client())
        clients = [stack.enter_context(several.client(it)) for it in several.processes]
        for words in durable.random_lines(random.Random(5), 500):
            # A transaction belongs to one connection.
            is_of_one = words[0] in ("MULTI", "EXEC", "PING") or one_is_queued(one)
            client = clients[0] if is_of_one else random.choice(clients)
            told, wanted = (served_answer(it, words) for it in (client, one))
            one.is_queued = words[0] == "MULTI" or one_is_queued(one) and words[0] != "EXEC"
            assert str(told) == str(wanted), f"{words}: {told}, not {wanted}"
        routes = [it.decode().split() for it in clients[1].ask("SM", "ROUTES")]
        assert routes[0][0] == "revision" and len(routes) == SHARDS + 1, routes
        ports = {it: process.port for it, process in several.processes.items()}
        assert all(it[2] == f"127.0.0.1:{ports[int(it[1])]}" for it in routes[1:]), routes
        told = clients[2].ask("INFO", "cluster").decode()
        assert "servers_there:3" in told and "lease_kept:1" in told, told
        answered_once(clients)
        refused_by_name(program, several)
        strangers_are_refused(several)
        assert clients[1].ask("GET", "{once}") == b"2"


def a_process_without_etcd_says_so(program):
    """While etcd doesn't answer, a process is alive but not ready, and names no leader and no other process."""
    port = free_ports(1)[0]
    with cluster(program, lease=LEASE) as several:
        server = next(iter(several.processes))
        several.processes.pop(server).kill(signal.SIGTERM)
        several.begin(server, "--http-port", port)
        eventually(lambda: probed(port, "/ready")[0] == 200)
        told = numbers(port)
        assert told["lease_kept"] == told["led"] == 1 and told["servers_there"] == SERVERS, told
        assert 0 < told["lease_left_milliseconds"] <= LEASE * 1000 and told["store_full"] == 0, told
        assert told['transactions_total{outcome="made"}'] > 0 and told["store_written_bytes_total"] > 0, told
        assert told["transaction_seconds_count"] > 0, told
        watched_numbers_are_told(port, several.client(server))
        for it in several.etcd.processes:
            it.send_signal(signal.SIGSTOP)
        try:
            time.sleep(LEASE + SOON)
            status, why = probed(port, "/ready")
            assert status == 503 and why.startswith("the lease isn't kept"), (status, why)
            assert probed(port, "/live") == (200, "ok\n")
            told = numbers(port)
            gone = ("lease_kept", "lease_left_milliseconds", "led", "leads", "servers_there")
            assert not any(told[it] for it in gone) and told["store_silent_seconds"] >= LEASE, told
        finally:
            for it in several.etcd.processes:
                it.send_signal(signal.SIGCONT)
        eventually(lambda: probed(port, "/ready") == (200, "ok\n"))
        lines = lambda: logged(several.processes[server])
        leases = lambda: [it["level"] for it in lines() if " lease" in it["fields"]["message"]]
        eventually(lambda: leases() == ["INFO", "WARN", "INFO"])


def watched_numbers_are_told(port, client):
    """The alerts and the dashboard read only numbers that a process tells, in Prometheus' grammar."""
    shown = json.loads(DASHBOARD.read_text(encoding="utf-8"))["panels"]
    expressions = [target["expr"] for panel in shown for target in panel["targets"]]
    read = set(re.findall(r"durkenzo_(\w+)", ALERTS.read_text(encoding="utf-8") + " ".join(expressions)))
    with client:
        # It asks all processes, and reaches them.
        client.ask("DBSIZE")
    told = {it.split("{")[0] for it in numbers(port)}
    assert read <= told, read - told
    if shutil.which("promtool"):
        rules = [{"record": f"shown:{at}", "expr": it} for at, it in enumerate(expressions)]
        with tempfile.NamedTemporaryFile("w", suffix=".yml") as file:
            json.dump({"groups": [{"name": "shown", "rules": rules}]}, file)
            file.flush()
            subprocess.run(["promtool", "check", "rules", ALERTS, file.name], check=True, capture_output=True)


def probed(port, path):
    """Returns the status and the body at this path, or nothing while nobody listens there."""
    try:
        with urllib.request.urlopen(f"http://127.0.0.1:{port}{path}", timeout=PATIENCE) as answer:
            return answer.status, answer.read().decode()
    except urllib.error.HTTPError as error:
        return error.code, error.read().decode()
    except (ConnectionError, urllib.error.URLError):
        return None, ""


def numbers(port):
    """Returns the samples of /metrics, by name."""
    lines = probed(port, "/metrics")[1].splitlines()
    told = dict(it.removeprefix("durkenzo_").rsplit(" ", 1) for it in lines if not it.startswith("#"))
    return {name: float(value) for name, value in told.items()}


def any_process_scans_all_keys(program):
    with cluster(program, "--log-batches", 50, lease=LEASE) as several:
        ones = {it: scans.of(process) for it, process in several.processes.items()}
        scans.written(ones[1])
        for server, one in ones.items():
            scans.checked(one, f"at server {server}")
        with several.client(1) as client:
            stays = {it.encode() for it in scans.KEYS}
            with Load(several, 3):
                for shard in range(SHARDS):
                    client.ask("SM", "MIGRATE", shard, int(shards(client)[shard][1]) % SERVERS + 1)
                    found = scans.scanned(client, random.choice((7, 1000)))
                    assert stays <= found and len(found) <= len(stays) + 3, len(stays - found)
        gone = next(it for it in several.processes if it != several.leader())
        several.processes.pop(gone).kill()
        other = next(iter(several.processes))
        with several.client(other) as client:
            # The keys of a shard that no server executes aren't left out: the scan waits for it.
            assert stays <= scans.scanned(client, 1000)
            assert client.ask("DBSIZE") >= scans.COUNT


def clusters_share_an_etcd(program):
    """By prefixes: each has its own leader, settings and data, and nothing of either lies elsewhere."""
    with cluster(program, "--prefix", "/one/") as one:
        other = Cluster(program, one.etcd, ("--prefix", "/two/", "--shards", 5), one.lease, None)
        try:
            for server in range(1, SERVERS + 1):
                other.begin(server)
            with other.any() as second:
                eventually(lambda: len(shards(second)) == 5 and is_settled(second))
                with one.any() as first:
                    assert len(shards(first)) == SHARDS
                    for client, value in ((first, "1"), (second, "2")):
                        client.ask("SET", "key", value)
                    assert (first.ask("GET", "key"), second.ask("GET", "key")) == (b"1", b"2")
                _, owner = shards(second)[0]
                to = int(owner) % SERVERS + 1
                second.ask("SM", "MIGRATE", 0, to)
                eventually(lambda: (0, int(owner), to) in moves_in_log(other))
        finally:
            other.stop()
        keys = keys_in(one.etcd)
        assert {it.split("/")[1] for it in keys if it.startswith("/")} == {"one", "two"}, keys
        assert all(it.startswith("/") for it in keys), keys


def logged(process):
    """The lines of the process's log."""
    return [json.loads(it) for it in list(process.log)]


def moves_in_log(several):
    """The shards that have moved, from where, and where they are, as processes log it."""
    lines = [it["fields"] for process in several.processes.values() for it in logged(process)]
    moved = [it for it in lines if it["message"] == "the shard has moved"]
    return [(it["shard"], it["from"], it["to"]) for it in moved]


def etcd_lasts_longer_than_its_quota(program):
    """More is written than fits in etcd with all old revisions. The leader has it discard them meanwhile, so nothing is
    refused."""
    with cluster(program, "--log-batches", 10, quota=QUOTA, has_pages=True) as several:
        written, began = 0, time.monotonic()
        with several.any() as client:
            while written < 1.4 * QUOTA:
                client.ask("SET", written // LONG % 20, os.urandom(LONG // 2).hex())
                written += LONG
                time.sleep(max(0, began + written / RATE - time.monotonic()))
            assert client.ask("DBSIZE") == 20
        told = {server: numbers(page) for server, page in several.pages.items()}
        counts = {server: it['compactions_total{outcome="made"}'] for server, it in told.items()}
        leader = several.leader()
        assert counts.pop(leader) > 1 and not any(counts.values()), (leader, counts)
        sizes = [told[leader][it] for it in ("store_used_bytes", "store_file_bytes")]
        assert 0 < sizes[0] <= sizes[1] < QUOTA, sizes
        lines = [it for it in logged(several.processes[leader]) if "history is compacted" in it["fields"]["message"]]
        assert lines and lines[0]["fields"]["used"] > 0, lines
        return f"{written >> 20} MB, {len(lines)} compactions, {int(sizes[1]) >> 20} MB in the end"


def keys_in(etcd):
    """All keys that lie in etcd."""
    least = base64.b64encode(b"\0").decode()
    asked = json.dumps({"key": least, "range_end": least, "keys_only": True}).encode()
    with urllib.request.urlopen(f"{etcd.urls.split(',')[0]}/v3/kv/range", asked, timeout=PATIENCE) as answer:
        return [base64.b64decode(it["key"]).decode() for it in json.load(answer)["kvs"]]


def any_process_lists_and_flushes_all_keys(program):
    """They use only requests that older processes know, too."""
    with cluster(program) as several:
        scans.keys_are_listed_and_flushed(several.processes[2], most=None)
        clients = [scans.of(it) for it in several.processes.values()]
        scans.written(clients[0])
        with Load(several, 4):
            for client in clients:
                assert set(scans.KEYS) <= set(client.keys())
            assert clients[1].flushdb()
            assert not any(set(scans.KEYS) & set(it.keys()) for it in clients)


def a_pipeline_at_another_process_keeps_its_order(program):
    """This also holds if older processes know only some of its commands."""
    with cluster(program) as several, Load(several, 12), contextlib.ExitStack() as stack:
        clients = [stack.enter_context(several.client(it)) for it in several.processes]
        for place in range(150):
            key = f"in order {place % 16}"
            asked = [["INCR", key], ["GETRANGE", key, 0, -1], ["SETRANGE", key, 0, ""], ["GET", key]]
            count, part, length, whole = clients[place % SERVERS].piped(asked)
            wanted = b"%d" % count
            assert (part, length, whole) == (wanted, len(wanted), wanted), (count, part, length, whole)


def what_many_write_at_once_fits_etcd(program):
    """All go to one shard. etcd takes less at once than any two of the large commands have."""
    text = b"x" * 60_000
    each = [[["MULTI"], *(["SET", f"{{big}}{it} {key}", text] for key in range(14)), ["EXEC"]] for it in range(6)]
    each += [[["APPEND", f"{{big}}{it}", text], ["GET", f"{{big}}{it}"]] for it in range(30)]
    each += [[["MSET", *(word for key in range(14) for word in (f"{{big}}{it} {key}", text))]] for it in range(36, 42)]
    together = threading.Barrier(len(each))
    refused = []

    def write(client, commands):
        together.wait(PATIENCE)
        refused.extend(it for it in client.piped(commands) if isinstance(it, Refused))

    with cluster(program) as several, contextlib.ExitStack() as stack:
        for _ in range(3):
            threads = [
                threading.Thread(target=write, args=(stack.enter_context(several.client(1 + place % SERVERS)), it))
                for place, it in enumerate(each)
            ]
            for it in threads:
                it.start()
            for it in threads:
                it.join()
            with several.any() as client:
                client.ask("DEL", *(f"{{big}}{it}" for it in range(30)))
        assert not refused, f"{len(refused)} were refused: {refused[0]}"


def reads_by_lease_make_no_transaction(program):
    count = 500
    for reads, is_few in (("exact", False), ("lease", True)):
        with cluster(program, "--reads", reads) as several, several.client(1) as client:
            assert client.ask("INCR", "count") == 1
            before = transactions(several)
            assert all(client.ask("GET", "count") == b"1" for _ in range(count))
            made = transactions(several) - before
            by_lease = sum(reads_by_lease(process) for process in several.processes.values())
            assert (made < count / 5 and by_lease > count / 2) == is_few, (reads, made, by_lease)
            assert made >= count or is_few, made
            with Load(several, 6) as load:
                time.sleep(1)
                client.ask("SM", "MIGRATE", 0, int(shards(client)[0][1]) % SERVERS + 1)
            load.checked(client)
            told = [at(it, "count") for it in several.processes.values()]
            assert told == [b"1"] * SERVERS, told
    return f"{made} transactions for {count} reads"


def transactions(several):
    """Returns how many transactions etcd has answered."""
    with urllib.request.urlopen(f"{several.etcd.urls.split(',')[0]}/metrics", timeout=PATIENCE) as told:
        lines = told.read().decode().splitlines()
    counted = [it for it in lines if it.startswith("grpc_server_handled_total") and 'grpc_method="Txn"' in it]
    return sum(float(it.rsplit(" ", 1)[1]) for it in counted)


def reads_by_lease(process):
    """Returns how many reads the process has answered without a transaction."""
    with process.client() as client:
        told = client.ask("INFO", "cluster").decode()
    return int(told.partition("reads_by_lease:")[2].split()[0])


def at(process, key):
    with process.client() as client:
        return client.ask("GET", key)


def a_process_past_its_lease_tells_what_others_wrote(program):
    with cluster(program, "--reads", "lease", lease=LEASE) as several:
        return told_past_its_lease(several, lambda process, seconds: None)


def a_machine_that_was_suspended_tells_what_others_wrote(program):
    if not shutil.which("cc"):
        return "cc isn't installed"
    with tempfile.TemporaryDirectory(prefix="sm-suspended-") as room:
        library = pathlib.Path(room) / "suspended.so"
        how = ["cc", "-O2", "-Wall", "-Wextra", "-Werror", "-shared", "-fPIC", "-o", library]
        subprocess.run([*how, SUSPENDED], check=True)
        env = {**os.environ, "LD_PRELOAD": str(library), "SUSPENDED": room}

        def suspend(process, seconds):
            with open(f"{room}/{process.pid}", "r+b") as behind:
                behind.write(int(seconds * 1e9).to_bytes(8, sys.byteorder))

        with cluster(program, "--reads", "lease", lease=LEASE, env=env) as several:
            return told_past_its_lease(several, suspend)


def told_past_its_lease(several, wake):
    """Stops a process until others have written its keys, for longer than a lease. Returns how many of them it answers
    then. A command waits there already. `wake` is called with the process, and with how long it stood, before it goes
    on."""
    gone = next(it for it in several.processes if it != several.leader())
    other = next(it for it in several.processes if it != gone)
    process = several.processes[gone].process
    with several.client(gone) as client, several.client(other) as writer:
        owned = {it for it, (_, owner) in enumerate(shards(writer)) if owner == str(gone)}
        keys = sorted((f"key:{it}" for it in range(60)), key=lambda it: writer.ask("SM", "KEY", it) not in owned)
        client.piped([("SET", it, "old") for it in keys])
        assert owned and client.piped([("GET", it) for it in keys]) == [b"old"] * len(keys)
        eventually(lambda: client.ask("GET", keys[0]) and reads_by_lease(several.processes[gone]) > 0)
        began = time.monotonic()
        process.send_signal(signal.SIGSTOP)
        several.settled(without=gone)
        assert writer.piped([("SET", it, "new") for it in keys]) == ["OK"] * len(keys)
        time.sleep(LEASE)
        for it in keys:
            client.send("GET", it)
        wake(process, time.monotonic() - began)
        process.send_signal(signal.SIGCONT)
        told = [client.read() for _ in keys]
        # An answer that refuses tells no value.
        assert all(it == b"new" or isinstance(it, Refused) for it in told), told
        return f"{sum(it == b'new' for it in told)} of {len(keys)} answered at once"


def processes_speak_tls_and_know_a_secret(program):
    with tempfile.TemporaryDirectory(prefix="sm-peers-") as folder:
        certify(folder)
        tls = ["--peer-ca", f"{folder}/ca.pem", "--peer-cert", f"{folder}/peer.pem", "--peer-key", f"{folder}/peer.key"]
        with cluster(program, *tls, "--peer-secret-file", f"{folder}/secret") as several:
            with several.client(2) as client:
                assert client.piped([("INCR", f"key:{it}") for it in range(20)]) == [1] * 20
            several.processes.pop(3).kill(signal.SIGTERM)
            other = (*tls, "--peer-secret-file", f"{folder}/other")
            refused_start(command(program, several, 3, other), "its secret is another one", "--peer-secret-file")
            with several.client(1) as client:
                # Others have its shards, and it took none of them.
                several.settled(without=3)
                assert client.piped([("GET", f"key:{it}") for it in range(20)]) == [b"1"] * 20
            several.begin(3)
            with several.client(1) as client:
                eventually(lambda: rows(client)[2][1] == "up")


def who_ends_within_a_handshake_holds_no_thread(program):
    """An alert in place of a handshake between processes, or within one, ends the connection, and nobody waits."""
    with tempfile.TemporaryDirectory(prefix="sm-peers-") as folder, contextlib.ExitStack() as stack:
        certify(folder)
        tls = ["--peer-ca", f"{folder}/ca.pem", "--peer-cert", f"{folder}/peer.pem", "--peer-key", f"{folder}/peer.key"]
        several, told = stack.enter_context(cluster(program, *tls)), []
        process, clients = several.processes[1], [stack.enter_context(several.client(1)) for _ in range(8)]
        port = int(rows(clients[0])[0][8].rpartition(":")[2])
        for how in ("alert", "hello"):
            took = served.slowest_beside(clients, port, how, 8)
            told.append(f"{how} {took * 1000:.1f} ms")
            eventually(lambda: not process.threads("from"))
        eventually(lambda: process.used_in_a_second() < 0.5)
        return f"one of a hundred took {', '.join(told)}"


def certify(folder):
    """Writes two secrets, an authority, and a certificate from it for peers."""
    for name in ("secret", "other"):
        pathlib.Path(folder, name).write_text(f"the {name} one\n")
    pathlib.Path(folder, "names").write_text("subjectAltName=DNS:peer.durkenzo\nbasicConstraints=CA:FALSE\n")
    key = ["-newkey", "ec", "-pkeyopt", "ec_paramgen_curve:P-256", "-nodes"]
    by = ["-CA", "ca.pem", "-CAkey", "ca.key", "-CAcreateserial", "-extfile", "names"]
    for words in (
        ["req", "-x509", *key, "-keyout", "ca.key", "-out", "ca.pem", "-subj", "/CN=ca"],
        ["req", *key, "-keyout", "peer.key", "-out", "peer.csr", "-subj", "/CN=peer"],
        ["x509", "-req", "-in", "peer.csr", "-out", "peer.pem", *by],
    ):
        subprocess.run(["openssl", *words], cwd=folder, check=True, capture_output=True)


def one_is_queued(client):
    return getattr(client, "is_queued", False)


def served_answer(client, words):
    client.send(*words)
    return client.read()


def answered_once(clients):
    first = clients[0].ask("SM", "CALL", 7, 1, "INCR", "{once}")
    assert first == 1 and clients[1].ask("SM", "CALL", 7, 1, "INCR", "{once}") == 1
    assert clients[2].ask("SM", "CALL", 7, 2, "INCR", "{once}") == 2
    for words, name in (
        ((7, 1, "INCR", "{once}"), "PASSED"), ((7, 3, "GET", "{once}"), "NOTNUMBERED"),
        ((7, 0, "DEL", "a"), "BADNUMBER"), ((0, 1, "DEL", "a"), "BADNUMBER"), ((4097, 1, "DEL", "a"), "BADNUMBER"),
        ((7, 3, "DEL", *["{once}"] * 17), "NOTNUMBERED"),
    ):
        with durable.served_refusal(name):
            clients[0].ask("SM", "CALL", *words)
    assert clients[0].ask("GET", "{once}") == b"2"
    assert clients[0].ask("SM", "CALL", 4096, 1, "DEL", *["{once}x"] * 16) == 0


def strangers_are_refused(several):
    """Bytes that no process of the cluster sends end their connection at the processes' address, and nothing else."""
    with several.any() as client:
        places = [it[8].rpartition(":") for it in rows(client)]
    chance, hello = random.Random(9), b"SMP\0\x01\0\0\0\x19\x01"
    spoilt = [b"*1\r\n$4\r\nPING\r\n", b"SMP\0\x09", b"SMP\0\x01\xff\xff\xff\xff", hello + bytes(24), hello, b""]
    spoilt += [hello + chance.randbytes(chance.randrange(99)) for _ in range(50)]
    for bytes_of_one in spoilt:
        host, _, port = chance.choice(places)
        with socket.create_connection((host, int(port)), PATIENCE) as stranger:
            stranger.sendall(bytes_of_one)
            stranger.shutdown(socket.SHUT_WR)
            # The client is told only why it is refused.
            with contextlib.suppress(ConnectionError):
                told = b"".join(iter(lambda: stranger.recv(4096), b""))
                assert not told or told[9] == 3, told
    assert all(it.is_alive() for it in several.processes.values())


def refused_by_name(program, several):
    """Tests starts that are refused, beside a cluster that runs. The page's port is taken before anything is said to
    etcd."""
    taken = several.processes[1].port
    for options, server, name in (
        (("--servers", 2), 1, "running already"), (("--shards", 5), 1, "OTHERSETTINGS"), ((), 2, "running already"),
        ((), 9, "--name 9"), (("--http-port", taken), 2, "--http-port takes another port"),
    ):
        refused_start(command(program, several, server, (*several.options, *options)), name)


def refused_start(words, *told):
    """Tests that a start fails with a message that has all these words."""
    ran = subprocess.run(words, capture_output=True, text=True, timeout=PATIENCE)
    assert ran.returncode == 1 and all(it in ran.stderr for it in told), f"{ran.returncode}, {ran.stderr[-500:]}"


def an_etcd_that_isnt_there_is_looked_for_by_name(program):
    """A start without etcd says at which addresses it looked, and what to do."""
    ports = ("--port", "0", "--http-port", "0", "--listen", "127.0.0.1:0")
    words = [program, "--name", "1", "--etcd", "http://127.0.0.1:1", *ports]
    refused_start(words, "http://127.0.0.1:1", "refused", "is it running", "--etcd")


class Load(contextlib.AbstractContextManager):
    """Clients that add to their own counts, at all processes. If a client's process ends, the client goes on at another
    one."""

    def __init__(self, several, keys):
        self.several, self.stop = several, threading.Event()
        self.acked, self.unknown, self.errors = [0] * keys, [0] * keys, []
        self.longest = 0.0
        self.threads = [threading.Thread(target=self.add, args=(it,), daemon=True) for it in range(keys)]

    def __enter__(self):
        for it in self.threads:
            it.start()
        return self

    def __exit__(self, *_):
        self.stop.set()
        for it in self.threads:
            it.join(2 * PATIENCE)

    def add(self, number):
        server = number % SERVERS + 1
        while not self.stop.is_set():
            with contextlib.suppress(OSError, ValueError):
                with self.several.client(server) as client:
                    self.add_by(client, number)
            # Whether the last addition was made isn't known.
            self.unknown[number] += not self.stop.is_set()
            server = server % SERVERS + 1

    def add_by(self, client, number):
        while not self.stop.is_set():
            began = time.monotonic()
            try:
                client.ask("INCR", f"count:{number}")
                self.acked[number] += 1
            except Refused as refused:
                self.unknown[number] += str(refused).startswith("UNKNOWN")
                self.errors.append(str(refused))
            self.longest = max(self.longest, time.monotonic() - began)

    def checked(self, client):
        """Checks that each acknowledged addition is counted, and no other except those with an unknown outcome."""
        for number, (acked, unknown) in enumerate(zip(self.acked, self.unknown)):
            counted = int(client.ask("GET", f"count:{number}") or 0)
            told = f"count {number}: {acked} answered, {unknown} unknown, {counted} counted"
            assert acked <= counted <= acked + unknown, told
        return sum(self.acked)


def migrations_lose_no_addition(program):
    with cluster(program) as several, Load(several, 6) as load, several.any() as client:
        end, moves = time.monotonic() + 3, 0
        while time.monotonic() < end:
            shard = moves % SHARDS
            client.ask("SM", "MIGRATE", shard, int(shards(client)[shard][1]) % SERVERS + 1)
            moves += 1
        load.__exit__()
        assert not load.errors, load.errors[:3]
        assert not sum(load.unknown), load.unknown
        total = load.checked(client)
    return f"{total} additions, {moves} migrations"


def shards_spread_over_servers_again(program):
    """One command moves them, under load."""
    with cluster(program) as several, Load(several, 6) as load, several.any() as client:
        client.ask("SM", "DRAIN", 2)
        owned = sorted(owner for _, owner in shards(client))
        assert owned.count("2") == 0, owned
        told = client.ask("SM", "SPREAD")
        spread = sorted(owner for _, owner in shards(client))
        assert spread == sorted("123" * (SHARDS // SERVERS)), (owned, told, spread)
        assert len(told) == SHARDS // SERVERS and client.ask("SM", "SPREAD") == [], told
        load.__exit__()
        assert not load.errors, load.errors[:3]
        return f"{load.checked(client)} additions"


def servers_even_out_by_themselves(program):
    """Shards that were moved away come back without a word, but not to a server that was drained."""
    with cluster(program, "--balance", "fast", has_pages=True) as several, several.any() as client:
        several.settled()
        counts = lambda: [[owner for _, owner in shards(client)].count(str(it)) for it in range(1, SERVERS + 1)]
        each = SHARDS // SERVERS
        for shard, (_, owner) in enumerate(shards(client)):
            owner == "1" or client.ask("SM", "MIGRATE", shard, 1)
        eventually(lambda: counts() == [each] * SERVERS)
        client.ask("SM", "DRAIN", 3)
        eventually(lambda: counts() == [SHARDS // 2, SHARDS // 2, 0])
        assert "drained" in rows(client)[2], rows(client)
        assert client.ask("SM", "UNDRAIN", 3) == "OK" and "drained" not in rows(client)[2]
        eventually(lambda: counts() == [each] * SERVERS)
        weights = client.rows("WEIGHTS")
        assert [(it[0], len(it)) for it in weights] == [(str(it), 5) for it in range(SHARDS)], weights
        moves = sum(numbers(page)["balance_moves_total"] for page in several.pages.values())
        assert moves >= 2 * each, moves
        return f"{moves:.0f} moves"


@again
def kills_of_a_process_lose_nothing(program):
    with cluster(program, lease=LEASE) as several:
        leader = several.leader()
        killed = next(it for it in several.processes if it != leader)
        with Load(several, 6) as load:
            time.sleep(1)
            several.processes[killed].kill()
            began = time.monotonic()
            del several.processes[killed]
            several.settled(without=killed)
            took = time.monotonic() - began
            time.sleep(1)
        wrong = [it for it in load.errors if not it.startswith(("UNKNOWN", "PEERDOWN"))]
        assert not wrong, wrong[:3]
        with several.any() as client:
            total = load.checked(client)
        within(took, LEASE + RECOVERY + SLOW)
        several.begin(killed)
        with several.any() as client:
            eventually(lambda: rows(client)[killed - 1][1] == "up")
            client.ask("SM", "MIGRATE", 0, killed)
            several.settled()
    return f"{total} additions, answered elsewhere after {took:.1f} s, longest {load.longest:.1f} s"


def a_cluster_by_grpc_needs_no_gateway(program):
    """Members without their gateway are called. A kill loses no addition, and a shard moves."""
    with cluster(program, "--etcd-protocol", "grpc", lease=LEASE, members=3, gateway=False) as several:
        killed = next(it for it in several.processes if it != several.leader())
        with Load(several, 6) as load:
            several.processes[killed].kill()
            del several.processes[killed]
            several.settled(without=killed)
        wrong = [it for it in load.errors if not it.startswith(("UNKNOWN", "PEERDOWN"))]
        assert not wrong, wrong[:3]
        several.begin(killed)
        with several.any() as client:
            total = load.checked(client)
            eventually(lambda: rows(client)[killed - 1][1] == "up")
            client.ask("SM", "MIGRATE", 0, killed)
            several.settled()
    return f"{total} additions"


@again
def who_does_not_wait_is_told(program):
    """A process is stopped, and one is gone. Requests that were sent to it may be done; others aren't."""
    with cluster(program, "--wait", 150, lease=LEASE) as several:
        gone = next(it for it in several.processes if it != several.leader())
        with Load(several, 18) as load:
            time.sleep(0.3)
            several.processes[gone].process.send_signal(signal.SIGSTOP)
            time.sleep(LEASE + 1.5)
            several.processes[gone].process.send_signal(signal.SIGCONT)
            with several.any() as client:
                eventually(lambda: rows(client)[gone - 1][1] == "up")
                for shard in range(0, SHARDS, 2):
                    with contextlib.suppress(Refused):
                        client.ask("SM", "MIGRATE", shard, gone)
            several.processes[gone].kill()
            del several.processes[gone]
            time.sleep(LEASE + 1)
        names = {it.split()[0] for it in load.errors}
        known = {"UNKNOWN", "PEERDOWN", "SHARDPAUSED", "SERVERDOWN", "SHARDBUSY", "STOREDOWN", "LOADING"}
        assert names <= known, names
        if lacking := {"UNKNOWN", "PEERDOWN"} - names:
            raise Missed(lacking)
        with several.any() as client:
            total = load.checked(client)
    return f"{total} additions, {', '.join(sorted(names))}"


def without_command(program, name, room):
    """Returns a copy of the program that doesn't know this command, because its table has another name for it."""
    code = pathlib.Path(program).read_bytes()
    own, other = (it.encode().ljust(16, b"\0") for it in (name, f"{name[:-1]}~"))
    assert code.count(own) == 1, f"{code.count(own)} places of {name}"
    copy = pathlib.Path(room) / "without"
    copy.write_bytes(code.replace(own, other))
    copy.chmod(0o700)
    return str(copy)


def one_process_knows_a_command_more(program):
    """Tests an upgrade of processes: commands that the other processes don't know are refused, and nothing else is."""
    with tempfile.TemporaryDirectory() as room, cluster(program) as several:
        older = without_command(program, "strlen", room)
        with served.served(older) as alone, alone.client() as client:
            client.send("STRLEN", "a")
            assert str(client.read()).startswith("ERR unknown command 'STRLEN'")
        several.processes[1].kill(signal.SIGTERM)
        several.program = older
        several.begin(1)
        with several.any() as client:
            eventually(lambda: rows(client)[0][1] == "up")
            for shard in range(SHARDS):
                with contextlib.suppress(Refused):
                    client.ask("SM", "MIGRATE", shard, 1 + shard % 3)
        several.settled()
        with several.client(2) as client:
            owners = [it[1] for it in shards(client)]
            names = [f"k{it}" for it in range(60)]
            there = [it for it in names if owners[client.ask("SM", "KEY", it)] == "1"]
            here = next(it for it in names if owners[client.ask("SM", "KEY", it)] == "2")
            assert len(there) > 3, owners
            with Load(several, 18) as load:
                for turn in range(300):
                    key = there[turn % len(there)]
                    # The first three are of one shard, and go together.
                    asked = [("INCR", f"{{{key}}}n"), ("STRLEN", key), ("GET", f"{{{key}}}n")]
                    answers = client.piped([*asked, ("STRLEN", here), ("INCR", here)])
                    count = turn // len(there) + 1
                    assert [answers[it] for it in (0, 2)] == [count, b"%d" % count], answers
                    assert answers[3:] == [turn and len(str(turn)), turn + 1], answers
                    told = str(answers[1])
                    assert told.startswith("OTHERVERSION nothing has changed: the process of server 1"), told
                key = f"{{{there[0]}}}y"
                client.piped([("MULTI",), ("SET", key, 1), ("STRLEN", key)])
                client.send("EXEC")
                assert str(client.read()).startswith("OTHERVERSION") and client.ask("GET", key) is None
            assert not load.errors, load.errors[:3]
            total = load.checked(client)
        log = "".join(several.processes[1].log)
        assert "a connection of a process ended" not in log, log[-500:]
        return f"{total} additions meanwhile"


@again
def who_takes_the_place_of_a_process_is_asked(program):
    """The process was stopped before this, so connections to it stay. Strangers take the places that they get."""
    with cluster(program, lease=LEASE) as several, contextlib.ExitStack() as stack:
        gone = next(it for it in several.processes if it != several.leader())
        client = stack.enter_context(several.client(next(it for it in several.processes if it != gone)))
        keys = [f"key:{it}" for it in range(60)]
        assert client.piped([("INCR", it) for it in keys]) == [1] * len(keys)
        stopped, port = several.processes[gone], free_ports(1)[0]
        stopped.process.send_signal(signal.SIGSTOP)
        stack.callback(stopped.kill)
        several.begin(gone, "--http-port", port)
        eventually(lambda: rows(client)[gone - 1][1] == "up")
        give_all(client, gone)
        host, _, place = rows(client)[gone - 1][8].rpartition(":")
        for _ in range(100):
            stranger = stack.enter_context(socket.create_connection((host, int(place)), PATIENCE))
            stranger.sendall(b"SMP\0\x01\0\0\x07\xff")
        began = time.monotonic()
        assert client.ask("INCR", keys[0]) == 2
        took = time.monotonic() - began
        within(took, SOON)
        assert client.piped([("INCR", it) for it in keys[1:]]) == [2] * len(keys[1:])
        errors_of_the_control_are_counted(several.processes[gone], port)
        return f"{took:.1f} s"


def give_all(client, server):
    """Makes the server own all shards."""
    for shard, (_, owner) in enumerate(shards(client)):
        if owner != str(server):
            # The shard may come home by itself meanwhile.
            told = refusal(client, "SM", "MIGRATE", shard, server)
            assert told == "answered OK" or told.startswith("REFUSED SameServer"), told


def errors_of_the_control_are_counted(process, port):
    """The client asks this process, which isn't the one that refuses."""
    with process.client() as client, durable.served_refusal("REFUSED"):
        client.ask("SM", "MIGRATE", 0, SERVERS + 1)
    with urllib.request.urlopen(f"http://127.0.0.1:{port}/metrics", timeout=PATIENCE) as told:
        lines = [it for it in told.read().decode().splitlines() if it.startswith("durkenzo_errors_total{")]
    counted = [it for it in lines if not it.endswith(" 0")]
    assert len(lines) > len(counted) == 1 and counted[0].endswith(" 1"), counted


@again
def who_is_not_reached_is_told_in_time(program):
    """A machine that answers no connection doesn't make others wait longer than they allow."""
    with cluster(program, "--wait", 500, has_pages=True) as several, contextlib.ExitStack() as stack:
        silent = next(it for it in several.processes if it != several.leader())
        asking = next(it for it in several.processes if it != silent)
        client = stack.enter_context(several.client(asking))
        client.ask("DBSIZE")
        assert reached_by(several, asking) == {it: 1 for it in several.processes if it != asking}
        several.processes.pop(silent).kill(signal.SIGTERM)
        several.begin(silent, "--advertise", full_place(stack))
        eventually(lambda: rows(client)[silent - 1][1] == "up")
        several.settled()
        give_all(client, silent)
        times = []
        for _ in range(5):
            began = time.monotonic()
            with durable.served_refusal("PEERDOWN"):
                client.ask("INCR", "key")
            times.append(time.monotonic() - began)
        within(min(times), SOON)
        assert reached_by(several, asking)[silent] == 0
        with several.client(silent) as there:
            eventually(lambda: served_answer(there, ("GET", "key")) is None)
        return f"{min(times):.1f} s"


def reached_by(several, server):
    """Returns whether the server's process reaches each other one that it has asked, and checks the times of those."""
    told = numbers(several.pages[server])
    named = ((re.fullmatch(r'peer_(\w+){server="(\d+)"}', name), value) for name, value in told.items())
    peers = {(found[1], int(found[2])): value for found, value in named if found}
    reached = {it: value for (name, it), value in peers.items() if name == "reached"}
    times = {it: value for (name, it), value in peers.items() if name == "round_trip_microseconds"}
    assert set(times) == {it for it, value in reached.items() if value} and all(it > 0 for it in times.values()), peers
    return reached


def full_place(stack):
    """An address at which nobody can connect, because too many wait there."""
    place = stack.enter_context(socket.create_server(("127.0.0.1", 0), backlog=0))
    for _ in range(4):
        waiting = stack.enter_context(socket.socket())
        waiting.setblocking(False)
        waiting.connect_ex(place.getsockname())
    return f"127.0.0.1:{place.getsockname()[1]}"


@again
def kills_of_the_leader_let_migrations_go_on(program):
    with cluster(program, "--pace", 300, lease=LEASE) as several:
        leader = several.leader()
        others = [it for it in several.processes if it != leader]
        with Load(several, 6) as load, several.client(others[0]) as client:
            shard = next(it for it, (_, owner) in enumerate(shards(client)) if int(owner) == others[0])
            with several.client(others[1]) as asking:
                asking.send("SM", "MIGRATE", shard, others[1])
                caught(lambda: shards(client)[shard][0] != "Serving", asking)
                several.processes[leader].kill()
                del several.processes[leader]
                several.settled(without=leader)
            assert shards(client)[shard] == ("Serving", str(others[1])), shards(client)[shard]
            time.sleep(1)
        wrong = [it for it in load.errors if not it.startswith(("UNKNOWN", "PEERDOWN"))]
        assert not wrong, wrong[:3]
        with several.any() as client:
            return f"{load.checked(client)} additions"


@again
def kills_of_the_leader_let_drains_go_on(program):
    with cluster(program, "--pace", 100, lease=LEASE) as several:
        leader = several.leader()
        drained, other = (it for it in several.processes if it != leader)
        with several.client(other) as client, several.client(drained) as asking:
            asking.send("SM", "DRAIN", drained)
            caught(lambda: any(stand != "Serving" for stand, _ in shards(client)), asking)
            left = sum(owner == str(drained) for _, owner in shards(client))
            several.processes[leader].kill()
            del several.processes[leader]
            eventually(lambda: is_settled(client, str(drained)))
        return f"{left} shards were left"


def commands_wait_for_who_leads_next(program):
    """If the leading process ends, it refuses only requests that it had begun to handle itself; those of others go
    on."""
    with cluster(program) as several:
        leader = several.leader()
        one, other = (it for it in several.processes if it != leader)
        told, stop = [], threading.Event()

        def migrate():
            with several.client(one) as client:
                while not stop.is_set():
                    shard = len(told) % SHARDS
                    to = one if shards(client)[shard][1] == str(other) else other
                    told.append(str(served_answer(client, ("SM", "MIGRATE", shard, to))))

        with several.client(other) as client:
            assert "is stopped" in client.ask("SM", "RESTART", leader)
            moving = threading.Thread(target=migrate, daemon=True)
            moving.start()
            eventually(lambda: len(told) > SHARDS)
            assert several.processes.pop(leader).kill(signal.SIGTERM) == 0
            count = len(told)
            eventually(lambda: len(told) > count + SHARDS)
            stop.set()
            moving.join(PATIENCE)
        refused = [it for it in told if it != "OK"]
        goes_on = "REFUSED NotLeader: another process leads from now on, and goes on with the work under way"
        assert len(refused) <= 1 and all(it.startswith(goes_on) for it in refused), refused
        return f"{len(told)} migrations"


def restarts_are_told_when_a_process_may_end(program):
    with cluster(program) as several, Load(several, 6) as load, several.client(1) as client:
        followers = [it for it in several.processes if it != several.leader()]
        server = next(it for it in followers if it != 1) if followers != [1] else followers[0]
        told = client.ask("SM", "RESTART", server)
        assert "is stopped" in told, told
        owned = [owner for _, owner in shards(client)]
        assert str(server) not in owned, owned
        eventually(lambda: rows(client)[server - 1][-4:] == ["ended", "and", "begun", "again"])
        client.send("SM", "RESTART")
        assert str(client.read()).startswith("REFUSED OneByOne"), "nobody ends and begins all"
        assert several.processes[server].kill(signal.SIGTERM) == 0
        several.begin(server)
        eventually(lambda: rows(client)[server - 1][1] == "up")
        eventually(lambda: str(server) in [owner for _, owner in shards(client)])
        several.settled()
        load.__exit__()
        wrong = [it for it in load.errors if not it.startswith(("UNKNOWN", "PEERDOWN"))]
        assert not wrong, wrong[:3]
        return f"{load.checked(client)} additions, {len(load.errors)} of unknown outcome"


def who_is_terminated_gives_its_shards_away(program):
    """SIGTERM is enough to restart each server, under load: its shards go before it ends, and come home."""
    with cluster(program, "--grace", 20_000) as several, Load(several, 6) as load:
        for server in list(several.processes):
            other = next(it for it in several.processes if it != server)
            with several.client(other) as client:
                assert several.processes[server].kill(signal.SIGTERM) == 0
                stands = shards(client)
                assert all(stand in ("Serving", "Taken") and owner != str(server) for stand, owner in stands), stands
                several.begin(server)
                eventually(lambda: rows(client)[server - 1][1] == "up")
                eventually(lambda: str(server) in [owner for _, owner in shards(client)])
        load.__exit__()
        wrong = [it for it in load.errors if not it.startswith(("UNKNOWN", "PEERDOWN"))]
        assert not wrong, wrong[:3]
        with several.client(1) as client:
            return f"{load.checked(client)} additions, {len(load.errors)} of unknown outcome"


def servers_come_and_go(program):
    """Three servers become four, and three again, under load. SM CONFIGURE shows the line, and takes another one."""
    with cluster(program, lease=LEASE) as several, Load(several, 6) as load, several.client(1) as client:
        line, number = (it.decode() for it in client.ask("SM", "CONFIGURE"))
        settings, first = json.loads(line), int(number.split()[1])
        assert refusal(client, "SM", "RESIZE", 2).startswith(("REFUSED InUse", "REFUSED Unkept"))
        wrong = [
            ({**settings, "bounds": settings["bounds"][:-1]}, "BadSettings"),
            ({**settings, "ceiling": settings["ceiling"] - 1}, "OtherSettings"),
            ({**settings, "servers": [{**it, "id": 2 * it["id"]} for it in settings["servers"]]}, "BadSettings"),
            ({**settings, "servers": [{**it, "capacity": 0} for it in settings["servers"]]}, "Unkept"),
        ]
        for other, name in wrong:
            told = refusal(client, "SM", "CONFIGURE", json.dumps(other))
            assert told.startswith(f"REFUSED {name}"), told
        assert client.ask("SM", "RESIZE", 4) == "OK"
        four, number = (it.decode() for it in client.ask("SM", "CONFIGURE"))
        assert len(json.loads(four)["servers"]) == 4 and int(number.split()[1]) > first, number
        # It begins as the others did, and adopts the settings in force.
        several.begin(4)
        eventually(lambda: len(rows(client)) == 4 and rows(client)[3][1] == "up")
        assert client.ask("SM", "MIGRATE", 0, 4) == "OK"
        with several.client(4) as fourth:
            eventually(lambda: shards(fourth)[0] == ("Serving", "4"))
            moved = client.ask("SM", "DRAIN", 4)
            assert moved and not any(owner == "4" for _, owner in shards(client)), moved
            assert refusal(client, "SM", "RESIZE", 3).startswith("REFUSED InUse")
        assert "is stopped" in client.ask("SM", "RESTART", 4)
        # A line feed counts as a space.
        assert client.ask("SM", "CONFIGURE", f"{line}\n") == "OK"
        # Its process ends by itself, because there is no such server any more.
        assert several.processes.pop(4).process.wait(PATIENCE) == 1
        for it in several.processes:
            with several.client(it) as one:
                eventually(lambda: len(rows(one)) == 3)
        gone = next(it for it in several.processes if it not in (1, several.leader()))
        several.processes.pop(gone).kill()
        several.settled(without=gone)
        load.__exit__()
        wrong = [it for it in load.errors if not it.startswith(("UNKNOWN", "PEERDOWN"))]
        assert not wrong, wrong[:3]
        return f"{load.checked(client)} additions, {len(load.errors)} of unknown outcome"


def refusal(client, *words):
    """Returns the refusal of the command."""
    try:
        return f"answered {client.ask(*words)}"
    except Refused as refused:
        return str(refused)


def the_next_leader_knows_which_process_was_stopped(program):
    """A restart may be asked for again. The process that was stopped isn't taken for the next one, whoever leads."""
    with cluster(program) as several:
        leader = several.leader()
        server, other = (it for it in several.processes if it != leader)
        with several.client(other) as client:
            assert "is stopped" in client.ask("SM", "RESTART", server)
            assert several.processes.pop(leader).kill(signal.SIGTERM) == 0
            several.begin(leader)
            for _ in range(2):
                told = str(served_answer(client, ("SM", "RESTART", server)))
                assert "is stopped" in told, told
                told = str(served_answer(client, ("SM", "BACK", server)))
                assert told.startswith("REFUSED StillStopped: "), told
            assert rows(client)[server - 1][1] == "stopped", rows(client)
            assert several.processes[server].kill(signal.SIGTERM) == 0
            several.begin(server)
            eventually(lambda: rows(client)[server - 1][1] == "up")
            several.settled()


@again
def restarts_wait_for_no_process_that_has_failed(program):
    with cluster(program, lease=LEASE) as several:
        killed, server = (it for it in several.processes if it != several.leader())
        with several.client(server) as client:
            told = str(served_answer(client, ("SM", "FAIL", killed)))
            assert told.startswith("REFUSED StillThere: ") and rows(client)[killed - 1][1] == "up", told
        several.processes[killed].kill()
        del several.processes[killed]
        with several.client(server) as client:
            eventually(lambda: rows(client)[killed - 1][1] == "failed")
            several.settled(without=killed)
            began = time.monotonic()
            told = str(served_answer(client, ("SM", "RESTART", server)))
            took = time.monotonic() - began
            assert told.startswith("REFUSED GlobalCap: ") and f"server {killed} has failed" in told, told
            assert rows(client)[server - 1][1] == "up", rows(client)
            within(took, SOON)
            several.begin(killed)
            eventually(lambda: rows(client)[killed - 1][1] == "up")
            told = client.ask("SM", "RESTART", server)
            assert "is stopped" in told, told


TESTS = [
    any_process_answers_any_key,
    a_process_without_etcd_says_so,
    any_process_scans_all_keys,
    any_process_lists_and_flushes_all_keys,
    clusters_share_an_etcd,
    etcd_lasts_longer_than_its_quota,
    a_pipeline_at_another_process_keeps_its_order,
    what_many_write_at_once_fits_etcd,
    reads_by_lease_make_no_transaction,
    a_process_past_its_lease_tells_what_others_wrote,
    a_machine_that_was_suspended_tells_what_others_wrote,
    migrations_lose_no_addition,
    shards_spread_over_servers_again,
    servers_even_out_by_themselves,
    kills_of_a_process_lose_nothing,
    a_cluster_by_grpc_needs_no_gateway,
    who_does_not_wait_is_told,
    one_process_knows_a_command_more,
    who_takes_the_place_of_a_process_is_asked,
    who_is_not_reached_is_told_in_time,
    kills_of_the_leader_let_migrations_go_on,
    kills_of_the_leader_let_drains_go_on,
    commands_wait_for_who_leads_next,
    restarts_are_told_when_a_process_may_end,
    who_is_terminated_gives_its_shards_away,
    servers_come_and_go,
    the_next_leader_knows_which_process_was_stopped,
    restarts_wait_for_no_process_that_has_failed,
    an_etcd_that_isnt_there_is_looked_for_by_name,
]

BY_TLS = [processes_speak_tls_and_know_a_secret, who_ends_within_a_handshake_holds_no_thread]

if __name__ == "__main__":
    if not shutil.which("etcd"):
        sys.exit("etcd isn't installed: tools/setup installs it")
    main([*TESTS, *(BY_TLS if shutil.which("openssl") else [])])
