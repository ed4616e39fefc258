"""A trial of a fleet: processes of a service that counts run over members of etcd, clients call them, and nemeses
disturb them."""
import contextlib
import pathlib
import queue
import random
import re
import shutil
import socket
import subprocess
import sys
import tempfile
import threading
import time

import fleet_nemeses
import local_processes
import other_crates
import planting
import recording
import relay
import runs

PACKAGE, EXAMPLE, FEATURE = "durkenzo-fleet", "trial", "plants"
# How long clients may take to begin and to end, in seconds, and within how many all shards must be answered.
BEGIN, END, BOUND = 180, 60, 60
# How long a call is tried if none may be refused, and beside faults.
PATIENCE, IMPATIENCE = 20, 5
# How many findings in calm are printed.
MOST = 40
# The time between two faults, in seconds.
CALM = (0.5, 2.5)
# How many milliseconds pass between two migrations.
MOVES = 20
# How many bytes a piece of a body has: a few keys.
PIECE = 400
HEAD = (
    "| nemesis | faults | calls | unsure | refused | lost as told | longest until all are answered, ms |\n"
    "|---|---|---|---|---|---|---|"
)
# How long before a lease ends by itself, and how long after that, findings in calm come from it.
BEFORE, AFTER = 2, 20
# How late the news may come that a process has left, in seconds. Leases that a fault leaves behind end by themselves
# afterwards.
LATE = 2
# What a member of etcd says that has lost its leader.
LOST = re.compile(r"raft(\d+/\d+/\d+ \d+:\d+:\d+) INFO: raft\.node: \S+ lost leader")
FAULT = re.compile(
    r"fault: (\S+): (\S+) s, all answered (\d+) ms later; (\d+) calls, \d+ reads, \d+ forwarded, (\d+) unsure, "
    r"(\d+) refused, (\d+) lost as told"
)


class FailPresent(planting.Bug):
    """The control has a server fail whose key is there."""

    def asked(self, path, asked):
        if path != planting.TXN:
            return asked
        kept = [it for it in asked.get("compare", []) if not self.is_absence(it)]
        return {**asked, "compare": kept}

    @staticmethod
    def is_absence(compared):
        is_of_server = local_processes.bytes_of(compared["key"]).startswith(planting.SERVER)
        return is_of_server and not int(compared.get("mod_revision", 0))


class Plant:
    """A wrong rule: the options of a server, or a change between servers and etcd, and the nemesis that shows it."""

    def __init__(self, nemesis, env=None, bug=None):
        self.nemesis, self.env, self.bug = nemesis, env or {}, bug


def rule(name, nemesis):
    return Plant(nemesis, {"DURKENZO_PLANT": name})


PLANTS = {
    **{it: rule(it, "moves") for it in ("next-begins-anew", "owner-executes-on", "early-ack")},
    "no-lease": rule("no-lease", "cut-etcd,stop-continue"),
    "slow-clock": Plant("cut-etcd", {"DURKENZO_SLOW_CLOCK": "700"}),
    "fail-present": Plant("fail", bug=FailPresent),
}


class Service(local_processes.Process):
    """A process of the service that counts."""

    def __init__(self, number, folder, program, port, options):
        self.number, self.port, self.program = number, port, program
        super().__init__(f"server-{number}", [program, "serve", *options], folder / f"server-{number}.log")

    def is_up(self):
        with contextlib.suppress(OSError), socket.create_connection((local_processes.HOST, self.port), 1):
            return True
        return False

    def control(self, *words):
        """Returns the answer of the fleet's control to these words, by way of this server."""
        command = [self.program, "command", f"{local_processes.HOST}:{self.port}", *map(str, words)]
        with contextlib.suppress(subprocess.TimeoutExpired):
            ran = subprocess.run(command, capture_output=True, text=True, timeout=fleet_nemeses.LONG)
            return (ran.stdout or ran.stderr).strip()
        return "nothing in time"


class ServiceFleet(local_processes.Fleet):
    """Members of etcd, and processes of the service over them; between any two there is a relay."""

    def __init__(self, folder, program, disturbed, **how):
        super().__init__(folder, program, **how)
        self.disturbed = disturbed

    def peer_at(self, number):
        """Nothing: a process listens at one port, for clients and others."""

    def begin_servers(self):
        self.servers = [self.server(number, None) for number in range(1, self.count + 1)]
        for it in self.servers:
            self.run(it, it.kill)
        for it in self.servers:
            it.wait(it.is_up)

    def server(self, number, peer_at):
        first = (number - 1) % len(self.members)
        ones = [*self.members[first:], *self.members[:first]]
        members = [self.between(f"to {it.name} from server-{number}", it.port) for it in ones]
        # There is no relay between the servers that start with the fleet and one that joins later.
        early = range(1, self.count + 1)
        others = {it: self.client_ports[it - 1] for it in early if number in early and it != number}
        via = {port: self.between(f"to server-{it} from server-{number}", port) for it, port in others.items()}
        words = {
            "etcd": ",".join(f"http://{local_processes.HOST}:{it}" for it in members), "name": number,
            "servers": max(self.count, number), "listen": f"{local_processes.HOST}:{self.client_ports[number - 1]}",
        }  # fmt: skip
        options = [str(it) for name, value in words.items() for it in (f"--{name}", value)]
        made = Service(number, self.folder, self.program, self.client_ports[number - 1], [*options, *self.options])
        made.env = {**self.disturbed.environment(via), **self.env(number)}
        return made


class Clients:
    """The process of the clients, and its output."""

    def __init__(self, program, words):
        command = [program, "call", *(f"--{name}={value}" for name, value in words.items())]
        how = {"stdin": subprocess.PIPE, "stdout": subprocess.PIPE, "text": True}
        how["preexec_fn"] = local_processes.ended_with_us
        self.run, self.said, self.sums = subprocess.Popen(command, **how), queue.Queue(), ""
        # The findings that are wrong, and those that are wrong if no lease ended by itself then.
        self.wrong, self.in_calm = [], []
        self.has_found = threading.Event()
        self.thread = threading.Thread(target=self.read, daemon=True)
        self.thread.start()

    def read(self):
        for line in self.run.stdout:
            line = line.rstrip()
            if line.startswith("wrong: "):
                self.wrong.append(line)
                print(line, flush=True)
                self.has_found.set()
            elif line.startswith("calm: "):
                _, at, what = line.split(" ", 2)
                self.in_calm.append((float(at), what))
            elif line.startswith("sums: "):
                self.sums = line.removeprefix("sums: ")
            else:
                self.said.put(line)
        self.said.put(None)

    def tell(self, line):
        with contextlib.suppress(OSError):
            print(line, file=self.run.stdin, flush=True)

    def next(self, seconds):
        """Returns the next line that isn't a finding, or none if none comes in this time."""
        with contextlib.suppress(queue.Empty):
            return self.said.get(timeout=seconds)
        return None

    def end(self):
        """Ends the clients, and returns their exit status."""
        with contextlib.suppress(OSError):
            self.run.stdin.close()
        try:
            status = self.run.wait(END)
        except subprocess.TimeoutExpired:
            self.run.kill()
            status = self.run.wait()
        self.thread.join(END)
        return status


class FleetTrial:
    """One run: the nemeses that work, for how long, on how many processes, and the results."""

    def __init__(self, given):
        self.given, self.plant = given, PLANTS[given.plant] if given.plant else None
        words = self.plant.nemesis if self.plant else given.nemesis
        self.kinds, self.chance = self.chosen(words), random.Random(given.seed)
        self.seconds, self.rows, self.began = 60 * given.minutes, {}, time.monotonic()
        # When servers may leave: how many keys of each go then at most, and from when to when.
        self.leaves = []

    @staticmethod
    def chosen(words):
        kinds = [*fleet_nemeses.KINDS, fleet_nemeses.MOVES] if words == "all" else words.split(",")
        known = [*fleet_nemeses.KINDS, fleet_nemeses.MOVES]
        if unknown := [it for it in kinds if it not in known]:
            raise local_processes.NotBegun(f"there is no nemesis {unknown[0]}: there are all, {', '.join(known)}")
        return kinds

    def needs_feature(self):
        return bool(self.plant and self.plant.env) or not fleet_nemeses.OF_FEATURE.isdisjoint(self.kinds)

    def run(self):
        """Runs it, prints the results, and returns the exit status: 1 if anything is wrong."""
        if not shutil.which("etcd") or not shutil.which("cc"):
            raise local_processes.NotBegun("etcd or cc isn't installed: tools/setup installs them")
        at = {"prefix": "sm-fleet-", "dir": self.given.room}
        with tempfile.TemporaryDirectory(**at) as room, contextlib.ExitStack() as stack:
            room = pathlib.Path(room)
            program = self.given.program or built(room, self.needs_feature())
            rewriting = planting.Planted(self.plant.bug) if self.plant and self.plant.bug else lambda name: None
            relays = stack.enter_context(relay.Relays(rewriting))
            running = stack.enter_context(self.fleet(room, program, relays))
            recorder = stack.enter_context(recording.Recorder(running))
            clients = Clients(program, self.words(running))
            stack.callback(clients.end)
            if clients.next(BEGIN) != "begun":
                return self.not_begun(clients, running)
            self.began = time.monotonic()
            self.disturb(running, clients, recorder)
            return self.tell(clients, running, recorder)

    def fleet(self, room, program, relays):
        given, etcd_options = self.given, []
        if "full" in self.kinds:
            etcd_options = ["--quota-backend-bytes", str(fleet_nemeses.QUOTA)]
        env = self.plant.env if self.plant else {}
        sizes = ("--shards", given.shards, "--lease", given.lease, "--piece", PIECE)
        options = [str(it) for it in (*sizes, *given.option)]
        how = {"options": options, "etcd_options": etcd_options, "env": lambda number: dict(env), "relays": relays}
        disturbed = fleet_nemeses.Disturbed(room)
        return ServiceFleet(room, program, disturbed, members=given.members, servers=given.servers, **how)

    def words(self, running):
        is_graceful = {*self.kinds} <= fleet_nemeses.GRACEFUL
        return {
            "etcd": ",".join(running.endpoints()), "seed": self.given.seed, "clients": self.given.clients,
            "servers": ",".join(f"{local_processes.HOST}:{it.port}" for it in running.servers), "bound": BOUND,
            "moves": MOVES if fleet_nemeses.MOVES in self.kinds else 0,
            "patience": PATIENCE if is_graceful else IMPATIENCE,
        }  # fmt: skip

    def disturb(self, running, clients, recorder):
        """Has nemeses work in turn by chance, each fault after everything has recovered, until the time is over."""
        kinds = {it: fleet_nemeses.KINDS[it] for it in self.kinds if it != fleet_nemeses.MOVES}
        made = {name: kind(running, self.chance, self.given.lease) for name, kind in kinds.items()}
        end, left = self.began + self.seconds, []
        while time.monotonic() < end and clients.run.poll() is None and not self.is_done(clients, recorder):
            if not made:
                clients.has_found.wait(min(1, max(0, end - time.monotonic())))
                continue
            time.sleep(self.chance.uniform(*CALM))
            left = left or self.chance.sample([*made], len(made))
            self.fault(left.pop(), made, clients)

    def is_done(self, clients, recorder):
        """Returns whether the planted wrong rule was found. Findings in calm count only once it is known whether a
        lease ended by itself then."""
        if not self.plant or clients.has_found.is_set():
            return bool(self.plant)
        known = time.monotonic() - self.given.lease - BEFORE - LATE
        in_calm = [at for at, _ in [*clients.in_calm] if at <= known]

        def are_excused():
            return all(self.excused(in_calm, self.ended(recorder)))

        return not are_excused() and recorder.caught_up(END) and not are_excused()

    def fault(self, name, made, clients):
        is_fault = name not in fleet_nemeses.GRACEFUL
        if is_fault:
            clients.tell(f"fault {name}")
            # What the fault does is no finding in calm, however busy the machine is.
            if clients.next(BOUND) != f"begun: {name}":
                print(f"trial: the clients don't hear of {name} in {BOUND} s")
        began = time.monotonic()
        done = made[name].turn()
        if not is_fault:
            self.leaves.append((began, time.monotonic(), 1))
            return self.line(name, done, f"in {time.monotonic() - self.began:.0f} s")
        clients.tell("healed")
        said = clients.next(BOUND + END)
        found = FAULT.match(said or "")
        if not found:
            clients.wrong.append(f"after {name} the clients say {said!r}")
            return print(clients.wrong[-1], flush=True)
        self.leaves.append((began, time.monotonic(), 1 << 30))
        took, sums = int(found[3]), [int(it) for it in found.groups()[3:]]
        self.line(name, done, f"all answered {took} ms later; {said.split('; ', 1)[1]}", sums, took)

    def line(self, name, done, came, sums=(0, 0, 0, 0), took=0):
        at = time.monotonic() - self.began
        print(f"{at:7.1f} s  {name}: {done}; {came}", flush=True)
        row = self.rows.setdefault(name, [0, 0, 0, 0, 0, 0])
        self.rows[name] = [row[0] + 1, *(one + other for one, other in zip(row[1:5], sums)), max(row[5], took)]

    def not_begun(self, clients, running):
        print(f"trial: the clients didn't begin in {BEGIN} s")
        for it in running.servers:
            print(f"{it.name}:\n{it.said()}")
        clients.run.kill()
        return 1

    def ended(self, recorder):
        """Returns when leases of servers ended by themselves, and whose they were, without those that faults and
        restarts ended."""
        left, ended = [{} for _ in self.leaves], []
        for told in [it for it in recorder.told if it.key and not it.is_record() and it.value is None]:
            at, server = told.at + recorder.start, told.key.decode()
            for (began, end, most), gone in zip(self.leaves, left):
                if began <= at <= end + (LATE if most == 1 else 0) and gone.get(server, 0) < most:
                    gone[server] = gone.get(server, 0) + 1
                    break
            else:
                ended.append((at, server))
        return ended

    def excused(self, times, ended):
        """Whether a lease ended by itself about each of these times."""
        before = BEFORE + self.given.lease
        return [any(it - before <= at <= it + AFTER for it, _ in ended) for at in times]

    def stalls(self, running):
        """Returns when a member lost its leader without a fault, as on a machine that stands still."""
        ahead, found = time.time() - time.monotonic(), []
        for it in running.members:
            stamps = LOST.findall(it.log.read_text(errors="replace"))
            found += [time.mktime(time.strptime(stamp, "%Y/%m/%d %H:%M:%S")) - ahead for stamp in stamps]
        faults = [(began, end + LATE) for began, end, most in self.leaves if most > 1]
        return [at for at in found if not any(began <= at <= end for began, end in faults)]

    def judge_calm(self, clients, running, recorder):
        """Prints the findings in calm: they are wrong unless a lease ended, or etcd lost its leader, by itself."""
        ended = self.ended(recorder)
        for at, server in ended:
            print(f"{at - self.began:7.1f} s  the lease of {server} ended by itself")
        for at in self.stalls(running):
            print(f"{at - self.began:7.1f} s  etcd lost its leader by itself")
            ended.append((at, "etcd"))
        excused = self.excused([at for at, _ in clients.in_calm], ended)
        for (at, what), is_excused in zip(clients.in_calm, excused):
            told = f"{at - self.began:7.1f} s  in calm: {what}"
            if not is_excused:
                clients.wrong.append(told)
                told = f"wrong: {told}"
            if clients.in_calm.index((at, what)) < MOST:
                print(told)

    def tell(self, clients, running, recorder):
        """Prints the table, the sums and the verdict; returns the exit status."""
        found = time.monotonic() - self.began
        status = clients.end()
        recorder.caught_up(END)
        self.judge_calm(clients, running, recorder)
        if self.given.logs:
            keep_logs(running, self.given.logs)
        while line := clients.next(1):
            print(line)
        for it in [*running.members, *running.servers]:
            if not it.is_alive():
                clients.wrong.append(f"{it.name} ended with {it.run.returncode}:\n{it.said()}")
                print(clients.wrong[-1])
        print(HEAD)
        for name, row in sorted(self.rows.items()):
            print(f"| {name} | {' | '.join(map(str, row))} |")
        print(f"{found:.0f} s: {clients.sums}")
        if not clients.sums or status not in (0, 1):
            clients.wrong.append(f"the clients ended with {status}")
            print(clients.wrong[-1])
        if self.plant:
            print(f"the planted rule is {'found' if clients.wrong else 'NOT found'} in {found:.1f} s")
        print("verdict: " + ("wrong" if clients.wrong else "nothing is wrong"), flush=True)
        return 1 if clients.wrong else 0


def keep_logs(running, folder):
    """Copies the logs of the processes."""
    pathlib.Path(folder).mkdir(parents=True, exist_ok=True)
    for it in [*running.members, *running.servers, *running.joined]:
        shutil.copy2(it.log, folder)


def built(room, has_plants):
    """A copy of the program of the service and its clients, since another run may build it otherwise."""
    words = ["build", "--release", "-p", PACKAGE, "--example", EXAMPLE]
    words += ["--features", FEATURE] if has_plants else []
    ran = other_crates.cargo(*words, library=runs.loaded("serve").any_library())
    if ran.returncode:
        sys.exit(f"trial: cargo build ended with {ran.returncode}\n{ran.stderr[-4000:]}")
    return shutil.copy2(other_crates.target() / "release/examples" / EXAMPLE, room / "service")
