"""The part of ./test for a cluster of several processes over etcd, if etcd is installed. The cluster starts and ends as
a demo; short trials by faults, of fleets too, find nothing wrong, and find planted bugs; and the commands of its page
give the results that the page shows."""
import contextlib
import json
import os
import re
import shutil
import signal
import subprocess
import threading
import urllib.request

import fleet_trial
import local_processes
import other_crates
import runs
import sources
from testing import library
from testing.part import Verdict, verdict
from testing.program import tool

SECONDS = 600
# How long a page may take to answer.
ANSWER = 20
# Each is found within this many minutes, or on a crowded machine in twice as many at each further try.
PLANTED = {"lost-is-made": 0.2, "early-drop": 0.1}
TRIES = 5
# The nemeses that disturb a fleet meanwhile, and its clocks, in a program in which these can be turned.
FLEET_NEMESES, FLEET_CLOCKS = "kill-server,cut-etcd,cut-servers,restart,moves", "clock,boot-clock,drift,suspend"


def skipped(say):
    """Prints which part isn't tried, because which program is missing."""
    if not shutil.which("etcd"):
        say("etcd isn't installed: no cluster of several processes is tried; tools/setup installs it")


@contextlib.contextmanager
def watched(command):
    """A demo that runs, and its output. It is killed if it isn't over in time, or by the end of the block, so nobody
    waits longer for its output."""
    with subprocess.Popen(command, stdout=subprocess.PIPE, stderr=subprocess.STDOUT, text=True) as run:
        deadline = threading.Timer(SECONDS, run.kill)
        deadline.start()
        try:
            yield run
        finally:
            deadline.cancel()
            run.kill()


def demo(room, program):
    """The demo begins, answers, and leaves nothing but logs."""
    folder = f"{room}/demo"
    command = [sources.TOP / "sm", "cluster", "demo", "--program", program, "--port", "0", "--folder", folder]
    with watched(command) as run:
        said = []
        for line in run.stdout:
            said.append(line)
            if line.startswith("Ctrl-C"):
                break
        text = "".join(said)
        ports, processes = re.findall(r"port (\d+)", text), re.findall(r"process (\d+)", text)
        killed = re.search(r"kill -9 (\d+)", text)
        if not killed:
            yield verdict("the demo of a cluster begins", False, text)
            return
        try:
            answers = [asked(int(it)) for it in ports]
            shards = came_home(int(ports[0]), int(killed[1]))
        finally:
            run.send_signal(signal.SIGINT)
        rest = run.communicate(timeout=SECONDS)[0]
    yield verdict("the demo of a cluster answers", len(ports) == 3 and set(answers) == {b"hello"}, f"{text}{answers}")
    yield verdict("a killed server's shards come home, as the demo says", shards > 0 and "come home" in text, text)
    yield verdict("the demo ends", run.returncode == 0 and "stopped" in rest, f"{run.returncode}: {rest}")
    left = [it for it in processes if runs.pathlib.Path(f"/proc/{it}").exists()]
    yield verdict("the demo leaves no process", len(processes) == 6 and not left, str(left))
    again = subprocess.run(command, capture_output=True, text=True)
    is_refused = again.returncode == 1 and "isn't empty" in again.stderr
    yield verdict("the demo wants an empty folder", is_refused, again.stderr)


def service(room):
    """The demo of a user's service answers, moves a shard that its page asks for, and leaves nothing but logs."""
    command = [sources.TOP / "sm", "fleet", "demo", "--port", "0", "--folder", f"{room}/service"]
    with watched(command) as run:
        said = []
        for line in run.stdout:
            said.append(line)
            if "Ctrl-C" in line:
                break
        text = "".join(said)
        url = re.search(r"http://\S+/", text)
        try:
            seen = moved(url[0]) if url else "there is no page"
        except (AssertionError, OSError) as why:
            seen = str(why)
        finally:
            run.send_signal(signal.SIGINT)
        rest = run.communicate(timeout=SECONDS)[0]
    yield verdict("the demo of a service moves a shard, with no call refused or unsure", seen is None, f"{text}{seen}")
    yield verdict("the demo of a service ends", run.returncode == 0 and "stopped" in rest, f"{run.returncode}: {rest}")
    left = [it for it in re.findall(r"process (\d+)", text) if runs.pathlib.Path(f"/proc/{it}").exists()]
    yield verdict("the demo of a service leaves no process", not left, str(left))


def page(asked):
    """Returns the demo's answer to this URL or request, in time."""
    with urllib.request.urlopen(asked, timeout=ANSWER) as answer:
        return answer.read()


def moved(url):
    """Moves a shard by the page, and returns the fault that it finds, or nothing."""

    def state(holds):
        def look():
            found = json.loads(page(f"{url}state.json"))
            return found if found.get("shards") and holds(found) else None

        return local_processes.served.eventually(look)

    if b"<script>" not in page(url):
        return "it is another page"
    begun = state(lambda it: it["calls"]["answered"] and all(row[1] == "Serving" for row in it["shards"]))
    target = str(int(begun["shards"][0][2]) % 3 + 1)
    how = {"method": "POST", "headers": {"X-Demo": "1"}}
    page(urllib.request.Request(f"{url}ask", f"MIGRATE 0 {target}".encode(), **how))
    after = state(lambda it: it["shards"][0][1:3] == ["Serving", target])
    later = state(lambda it: it["calls"]["answered"] > after["calls"]["answered"])
    is_well = not later["calls"]["refused"] and not later["calls"]["unsure"]
    return None if is_well else f"{after} {later}"


def asked(port):
    """Returns the answer of a server of the demo to a text that each is given, once it isn't refused, because a lease
    may end."""

    def answer():
        served = local_processes.served
        with contextlib.suppress(served.Refused, OSError), served.Client(port) as client:
            client.ask("SET", "greeting", "hello")
            return client.ask("GET", "greeting")

    return local_processes.served.eventually(answer)


def came_home(port, killed):
    """How many shards the demo's last server has, once the process that is killed was begun again."""

    def last():
        served = local_processes.served
        with contextlib.suppress(served.Refused, OSError), served.Client(port) as client:
            return client.ask("SM", "SERVERS")[-1].split()

    before = local_processes.served.eventually(last)
    os.kill(killed, signal.SIGKILL)

    def back():
        row = last()
        is_another = row and row[1] == b"up" and row[5] != before[5]
        return int(row[3]) if is_another else 0

    return local_processes.served.eventually(back)


def found(bug, minutes, program):
    """The trial must find a planted bug, by chance, in one of some tries."""
    words = ["--cluster", "--plant", bug, "--no-replay", program]
    for seed in range(TRIES):
        ran = tool("trial", "--seed", seed + 1, "--minutes", minutes * 2**seed, *words)
        if ran.reason and "exit status 1" in ran.reason and "the planted bug changed" in ran.reason:
            return verdict(f"a trial finds {bug}", True)
    return verdict(f"a trial finds {bug}", False, f"{TRIES} trials found nothing")


def found_in_fleet(rule):
    """The trial must find a wrong rule of a fleet's processes."""
    for seed in range(TRIES):
        ran = tool("trial", "--fleet", "--plant", rule, "--seed", seed + 1, "--minutes", 1)
        if ran.reason and "exit status 1" in ran.reason and "the planted rule is found" in ran.reason:
            return verdict(f"a trial of a fleet finds {rule}", True)
    return verdict(f"a trial of a fleet finds {rule}", False, f"{TRIES} trials found nothing: {ran.reason}")


def passed(room):
    """Yields all parts, or nothing if the server isn't tried either, or etcd isn't installed."""
    serve = runs.loaded("serve")
    if not library.is_there() or not all(map(shutil.which, ("cargo", "etcd"))):
        return
    if not other_crates.has_crates():
        return
    try:
        program = serve.built()
    except serve.Missing as missing:
        yield Verdict("the server is built", str(missing))
        return
    yield from demo(room, program)
    yield from service(room)
    yield tool("trial", "--cluster", "--nemesis", "kill-server,moves", "--minutes", 0.25, program)
    for bug, minutes in PLANTED.items():
        yield found(bug, minutes, program)
    yield tool("trial", "--fleet", "--nemesis", FLEET_NEMESES, "--minutes", 0.4)
    # Wrong rules of a fleet's processes: each is found within a minute, and mostly in seconds. First come those for
    # which the program is built as it ships.
    rules = sorted(fleet_trial.PLANTS, key=lambda it: bool(fleet_trial.PLANTS[it].env))
    yield from map(found_in_fleet, rules)
    yield tool("trial", "--fleet", "--nemesis", FLEET_CLOCKS, "--minutes", 0.4)
    yield tool("operations", program)
