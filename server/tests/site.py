#!/usr/bin/env python3
"""The page, /metrics and /healthz, and other ways to begin: site.py PROGRAM."""
import contextlib
import importlib.machinery
import importlib.util
import json
import os
import pathlib
import re
import shutil
import socket
import subprocess
import sys
import tempfile
import time
import urllib.error
import urllib.request

from served import SECONDS, Client, Refused, again, eventually, free_port, main, port_of, read_all, served, within

TOOL = pathlib.Path(__file__).resolve().parents[2] / "tools/serve"
FAKETIME = pathlib.Path("/usr/lib/x86_64-linux-gnu/faketime/libfaketime.so.1")
SAMPLE = re.compile(r'^durkenzo_\w+(\{\w+="[\w.+]+"(,\w+="\w+")*\})? \d+(\.\d+)?$')


def got(port, path):
    """Returns the body at this path. It is tried again while nobody listens there yet."""

    def body():
        with contextlib.suppress(ConnectionError, urllib.error.URLError):
            with urllib.request.urlopen(f"http://127.0.0.1:{port}{path}", timeout=SECONDS) as answer:
                return answer.read().decode()

    return eventually(body)


def the_page_shows_how_all_stands(program):
    port = free_port()
    with served(program, "--http-port", port, "--servers", 3, "--shards", 6) as server, server.client() as client:
        assert "<title>Durkenzo</title>" in got(port, "/") and got(port, "/healthz") == "ok\n"
        assert got(port, "/live") == got(port, "/ready") == "ok\n"
        client.ask("SET", "a", 1)
        assert client.ask("SM", "PREPARE_ADD", 0, 2) == "OK"
        state = json.loads(got(port, "/state.json"))
        assert [it["shards"] for it in state["servers"]] == [2, 2, 2]
        row = state["shards"][0]
        assert (row["stand"], row["owner"], row["other"]) == ("Prepared", 1, 2), row
        assert sum(it["keys"] for it in state["shards"]) == 1 and state["data"].startswith("in memory alone")


def metrics_are_in_the_format_of_prometheus(program):
    port = free_port()
    with served(program, "--http-port", port, "--threads", 2) as server, server.client() as client:
        none = re.findall(r'durkenzo_errors_total{name="(\w+)"} 0\n', got(port, "/metrics"))
        assert {"ERR", "NOAUTH", "PEERDOWN", "WrongPhase", "StoreFull", "Paused"} <= set(none), none
        client.piped([("SET", "a", 1)] * 100 + [("INCRBY", "a", "x"), ("SM", "ADD", 0)])
        lines = got(port, "/metrics").splitlines()
        samples = [it for it in lines if not it.startswith("#")]
        assert all(SAMPLE.match(it) for it in samples), [it for it in samples if not SAMPLE.match(it)]
        done = [int(it.split()[1]) for it in samples if it.startswith("durkenzo_commands_total")]
        assert len(done) == 2 and sum(done) == 102, done
        values = dict(it.rsplit(" ", 1) for it in samples)
        assert values['durkenzo_errors_total{name="ERR"}'] == values['durkenzo_errors_total{name="WrongPhase"}'] == "1"
        requests = [it.split()[1] for it in samples if it.startswith("durkenzo_requests_total") and it[-2:] != " 0"]
        assert sorted(requests) == ["1", "100"], requests
        assert values["durkenzo_command_seconds_count"] == values['durkenzo_command_seconds_bucket{le="+Inf"}'] == "102"
        assert values['durkenzo_changes_total{change="assign"}'] == "64", values
        assert "# TYPE durkenzo_commands_total counter" in lines and "# TYPE durkenzo_keys gauge" in lines


def numbers_of(port):
    """Returns the samples of /metrics, and the names of its counters."""
    lines = got(port, "/metrics").splitlines()
    counters = {it.split()[2] for it in lines if it.startswith("# TYPE ") and it.endswith(" counter")}
    return dict(it.rsplit(" ", 1) for it in lines if not it.startswith("#")), counters


def metrics_and_info_tell_the_same_by_one_name(program):
    """The counts of quiet threads are the same in both, and a counter never falls."""
    port = free_port()
    with served(program, "--http-port", port, "--threads", 2) as server, server.client() as client:
        before, counters = numbers_of(port)
        client.piped([("SET", it, 1) for it in range(50)])
        info = dict(it.split(":", 1) for it in client.ask("INFO").decode().split("\r\n") if ":" in it)
        after, again = numbers_of(port)
        assert counters == again and {"durkenzo_commands_total", "durkenzo_raced_tries_total"} <= counters, counters
        fallen = [it for it, value in before.items() if it.split("{")[0] in counters and int(after[it]) < int(value)]
        assert not fallen, fallen
        for name in ("forwarded_requests", "raced_tries", "waited_requests", "refused_requests", "log_lines_dropped"):
            told = [int(value) for it, value in after.items() if it.split("{")[0] == f"durkenzo_{name}_total"]
            assert sum(told) == int(info[name]), (name, told, info[name])
        assert info["connected_clients"] == "1" and int(info["used_memory"]) > 0 == int(info["maxmemory"]), info


@again
def slow_clients_keep_nobody_out(program):
    """Many connections send nothing, or a part of a request."""
    port = free_port()
    with served(program, "--http-port", port) as server, contextlib.ExitStack() as stack:
        assert got(port, "/healthz") == "ok\n"
        before = server.descriptors()
        for number in range(600):
            one = stack.enter_context(socket.create_connection(("127.0.0.1", port), SECONDS))
            one.sendall(b"GET / HTTP/1.1\r\nHost: a\r\n"[: number % 20])
        began = time.monotonic()
        assert got(port, "/healthz") == "ok\n"
        # A client that sends nothing stays for a minute.
        within(time.monotonic() - began, 3, "an answer")
        assert server.descriptors() - before < 300, server.descriptors()


def what_is_not_counted_is_not_told(program):
    """For data in a folder there are no counts of keys, nor of the work of each server."""
    port = free_port()
    with tempfile.TemporaryDirectory() as folder:
        options = ["--http-port", port, "--data", f"{folder}/data", "--shards", 4]
        with served(program, *options) as server, server.client() as client:
            assert client.piped([("SET", it, 1) for it in range(20)]) == ["OK"] * 20 and client.ask("DBSIZE") == 20
            samples = [it for it in got(port, "/metrics").splitlines() if not it.startswith("#")]
            names = {re.split("[{ ]", it)[0].removeprefix("durkenzo_") for it in samples}
            assert not names & {"keys", "requests_total", "admissions_total"}, names
            assert names >= {"generation", "up", "owned_shards", "commands_total"}, names
            state = json.loads(got(port, "/state.json"))
            assert {it["keys"] for it in state["shards"]} == {it["admissions"] for it in state["servers"]} == {None}
            assert state["data"].startswith("in a folder") and b"# Keyspace" not in client.ask("INFO")
            assert {it[-1] for it in client.rows("SHARDS")} == {"-"}
            assert {it[4] for it in client.rows("SERVERS")} == {"-"}


def settings_of(count, **members):
    """Returns settings of two shards and so many servers with room for one each. Two of the servers are in one
    domain."""
    rows = {
        "version": 2, "bounds": ["", "m"], "groups": [{"limit": 2, "down": 2}], "ops": 2, "kept": 9, "ceiling": 1000,
        "servers": [{"id": it + 1, "domain": it // 2, "capacity": 1} for it in range(count)], "workers": 1,
        "shards": [{"group": 0, "load": 1, "cap": 1}] * 2,
        "domains": [{"domain": it, "down": 1} for it in range((count + 1) // 2)],
    }  # fmt: skip
    return {**rows, **members}


@contextlib.contextmanager
def by_settings(program, rows):
    """Yields a client of a server with these settings, which are spread over several lines."""
    with tempfile.TemporaryDirectory() as folder:
        file = pathlib.Path(folder) / "settings.json"
        file.write_text(json.dumps(rows, indent=1))
        with served(program, "--settings", file, "--folder", folder) as server, server.client() as client:
            yield client


def refused(client, *words):
    """Returns the name of the command's refusal."""
    client.send(*words)
    found = client.read()
    assert isinstance(found, Refused) and str(found).startswith("REFUSED "), (words, found)
    return str(found).split(" ")[1].rstrip(":")


def settings_of_scripts_are_taken(program):
    """Servers, bounds, ops and domains apply."""
    with by_settings(program, settings_of(4)) as client:
        settings = b"\n".join(client.ask("SM", "SETTINGS")).decode()
        assert "servers 4\nshards 2\nkeys by ranges\nrestarts at once 2\nceiling 1000" in settings, settings
        for server_number in (1, 2, 3):
            assert client.ask("SM", "ASK", server_number) == "OK"
        assert client.ask("SM", "APPROVE", 1) == "OK"
        assert refused(client, "SM", "APPROVE", 2) == "DomainCap"
        assert client.ask("SM", "APPROVE", 3) == "OK"


def domains_of_options_bind(program):
    """One server of each domain may be away, in memory and in a folder, even if more restarts are allowed at once."""
    with tempfile.TemporaryDirectory() as folder:
        for data in ([], ["--data", f"{folder}/data"]):
            options = ["--servers", 4, "--domains", 2, "--restarts", 5_000, "--shards", 4, *data]
            with served(program, *options) as server, server.client() as client:
                assert b"restarts at once 5000" in client.ask("SM", "SETTINGS")
                for server_number in (1, 2, 3, 4):
                    assert client.ask("SM", "ASK", server_number) == "OK"
                assert client.ask("SM", "APPROVE", 1) == "OK"
                assert refused(client, "SM", "APPROVE", 3) == "DomainCap"
                assert client.ask("SM", "APPROVE", 2) == "OK"
                assert client.ask("SM", "BACK", 1) == client.ask("SM", "APPROVE", 3) == "OK"


def limits_of_settings_bind(program):
    """Capacities, limits of groups, and caps of shards and groups apply, each by its name."""
    with by_settings(program, settings_of(2)) as client:
        assert client.ask("SM", "PLAN", 1) == "plan left 0"
        for words in (("MIGRATE", 0, 2), ("DRAIN", 1), ("RESTART", 1)):
            assert refused(client, "SM", *words) == "NoCapacity", words
        assert client.ask("SM", "LOOK", 0).startswith("Serving 1 0 "), "it stays where it was"
    apart = [{"id": it + 1, "domain": it, "capacity": 2} for it in range(2)]
    domains = [{"domain": it, "down": 1} for it in range(2)]
    limited = settings_of(2, servers=apart, domains=domains, groups=[{"limit": 1, "down": 2}])
    with by_settings(program, limited) as client:
        assert refused(client, "SM", "MIGRATE", 0, 2) == "DomainLimit"
    for members, name in [
        ({"shards": [{"group": 0, "load": 1, "cap": 0}] * 2}, "ShardCap"),
        ({"groups": [{"limit": 2, "down": 0}]}, "GroupCap"),
        ({"ops": 0}, "GlobalCap"),
    ]:
        with by_settings(program, settings_of(4, **members)) as client:
            assert refused(client, "SM", "RESTART", 1) == name
            assert client.ask("SM", "ASK", 2) == "OK"
            assert refused(client, "SM", "APPROVE", 2) == name
    with by_settings(program, settings_of(1)) as client:
        told = client.rows("SHARDS")
        assert told[1][:2] == ["1", "Vacant"], ("the second shard fits nowhere", told)


def loads_stay_within_settings(program):
    """A board with the stands of a dump has its limits, also if a migration was under way."""
    with by_settings(program, settings_of(4)) as client:
        assert client.ask("SM", "MIGRATE", 0, 3) == client.ask("SM", "PREPARE_ADD", 1, 4) == "OK"
        client.ask("SM", "DUMP", "file")
        for words in (("PREPARE_DROP", 1), ("ADD", 1), ("DROP", 1), ("MIGRATE", 0, 1)):
            assert client.ask("SM", *words) == "OK"
        client.ask("SM", "LOAD", "file")
        assert [client.ask("SM", "LOOK", it)[:12] for it in (0, 1)] == ["Serving 3 0 ", "Prepared 2 4"]
        assert refused(client, "SM", "MIGRATE", 0, 4) == "NoCapacity"
        assert refused(client, "SM", "MIGRATE", 0, 2) == "NoCapacity"
        assert client.ask("SM", "MIGRATE", 0, 1) == "OK"


def the_page_has_no_dates_before_1970(program):
    """Its library has no such dates: /healthz is answered, everything else is refused, and clients are served."""
    if not FAKETIME.is_file():
        return "faketime isn't installed"
    port = free_port()
    # Times aren't measured with this clock.
    turned = {"LD_PRELOAD": str(FAKETIME), "FAKETIME": "@1960-01-01 00:00:00"}
    env = {**os.environ, **turned, "DONT_FAKE_MONOTONIC": "1", "FAKETIME_DONT_FAKE_MONOTONIC": "1"}
    with served(program, "--http-port", port, env=env) as server, server.client() as client:
        for _ in range(3):
            assert got(port, "/healthz") == "ok\n"
            try:
                urllib.request.urlopen(f"http://127.0.0.1:{port}/metrics", timeout=SECONDS).close()
                raise AssertionError("metrics were told")
            except urllib.error.HTTPError as refused:
                assert refused.code == 503 and b"before 1970" in refused.read()
            assert client.ask("INCR", "a")
        server.says("clock is before 1970")
        assert not any("panicked" in it for it in server.said), list(server.said)


def who_asks_the_control_is_in_the_log(program):
    with served(program, "--servers", 2, "--shards", 4) as server, server.client() as client:
        address = "{}:{}".format(*client.socket.getsockname())
        assert client.ask("SM", "MIGRATE", 0, 2) == "OK" and client.ask("SM", "PAUSE", 1) == "OK"
        client.send("SM", "PAUSE", b"9\n\xff" + b"9" * 200)
        assert isinstance(client.read(), Refused)
        server.says('"SM MIGRATE 0 2"', address, "asks")
        server.says('"SM MIGRATE 0 2"', "+OK", "answered")
        server.says('"SM PAUSE 1"', "+OK", "answered")
        server.says("SM PAUSE 9", "99", "-REFUSED BadLine")
        client.ask("SM", "SHARDS")
        assert not any("SHARDS" in it for it in server.said)


@contextlib.contextmanager
def unread(program, count):
    """Runs a server whose log nobody reads until it has answered so many commands that are logged. Returns its process,
    and how many lines it says it has dropped."""
    port = free_port()
    command = [program, "--port", "0", "--http-port", str(port), "--log-format", "json"]
    with subprocess.Popen(command, stderr=subprocess.PIPE, stdin=subprocess.DEVNULL, text=True) as process:
        try:
            with Client(port_of(process)) as client:
                for it in range(count):
                    assert client.ask("SM", "RESUME" if it % 2 else "PAUSE", 0) == "OK"
            dropped = re.search(r"(?m)^durkenzo_log_lines_dropped_total (\d+)$", got(port, "/metrics"))
            yield process, int(dropped[1])
        finally:
            process.kill()


def a_log_that_nobody_reads_keeps_nobody_waiting(program):
    count = 2500
    with unread(program, count) as (process, dropped):
        assert dropped > 0
        process.terminate()
        assert process.wait(SECONDS) == 0
    with unread(program, count) as (process, dropped):
        reading = read_all(process, said := [])
        eventually(lambda: any("were dropped" in it for it in said))
        process.terminate()
        assert process.wait(SECONDS) == 0
        reading.join(SECONDS)
    # Each line is whole, each command has three, and all missing lines are counted.
    fields = [json.loads(it)["fields"] for it in said]
    told = [it["lines"] for it in fields if "were dropped" in it["message"]]
    changes = ("the shard is paused", "the shard is resumed")
    logged = sum("SM " in it.get("asked", "") or it["message"] in changes for it in fields)
    assert sum(told) == dropped and logged + dropped == 3 * count, (told, dropped, logged)
    assert fields[-1]["message"] == "stopped", fields[-1]
    return f"{dropped} of {3 * count} lines dropped"


def wrong_options_are_told_before_a_build(program):
    """The test uses ./sm serve, which knows all options of the program from its sources."""
    # Without these programs a build would fail.
    with tempfile.TemporaryDirectory() as empty:
        (pathlib.Path(empty) / "python3").symlink_to(sys.executable)
        env = {**os.environ, "PATH": empty}
        for words, wanted in [(["--http", "1"], "--http-port"), (["--prot=1"], "--port"), (["--nosuch"], "--help")]:
            command = [TOOL, *words]
            ran = subprocess.run(command, env=env, capture_output=True, text=True, timeout=SECONDS)
            assert ran.returncode == 2 and words[0].partition("=")[0] in ran.stderr and wanted in ran.stderr, ran
    told = subprocess.run([program, "--help"], capture_output=True, text=True, check=True).stdout
    named = set(re.findall(r"(?m)^ +(?:-\w, )?(--[\w-]+)", told))
    known = loaded_tool().known_options()
    assert named == known - {"--proved"}, named ^ known


def loaded_tool():
    """Returns ./sm serve as a module of its own."""
    loader = importlib.machinery.SourceFileLoader("serve", str(TOOL))
    sys.path.insert(0, str(TOOL.parent))
    serve = importlib.util.module_from_spec(importlib.util.spec_from_loader("serve", loader))
    loader.exec_module(serve)
    return serve


def the_last_two_built_servers_are_kept(_program):
    """The test builds nothing: each library stands for its own checksum."""
    serve = loaded_tool()
    with tempfile.TemporaryDirectory() as folder:
        serve.KEPT = pathlib.Path(folder)
        serve.checksum = lambda library: library

        def build(program, _library):
            program.parent.mkdir(parents=True)
            program.touch()

        serve.build = build
        for library, kept in [("a", "a"), ("b", "ab"), ("a", "ab"), ("c", "ac"), ("c", "ac"), ("d", "cd"), ("a", "ad")]:
            assert serve.built(lambda: library).exists()
            assert {it.name for it in (serve.KEPT / "kept").iterdir()} == set(kept), (library, kept)


def what_is_not_accepted_is_told(program):
    taken = socket.socket()
    taken.bind(("127.0.0.1", 0))
    taken.listen()
    port = taken.getsockname()[1]
    settings_file = pathlib.Path(tempfile.mkdtemp()) / "settings"
    settings_file.write_text(json.dumps(settings_of(2, groups=[])))
    for words, wanted in [
        (["--port", port], "--port takes another port"),
        (["--port", 0, "--http-port", port], "--http-port takes another port"),
        (["--servers", 0], "0 is not in 1..=4095"),
        (["--max-clients", 0], "0 is not in 1.."),
        (["--shards", 3, "--ranges", 2], "cannot be used with"),
        (["--bounds", "m", "--shards", 3], "cannot be used with"),
        (["--settings", "/nowhere"], "/nowhere: No such file"),
        (["--settings", settings_file], "the settings: BadGroups"),
        (["--bounds", "m,a"], "a bound is not above the one before it"),
        (["--servers", 2, "--domains", 3], "3 domains need a server each"),
        (["--password-file", "/dev/null"], "its first line is empty"),
    ]:
        command = [program, *map(str, words)]
        ran = subprocess.run(command, capture_output=True, text=True, timeout=SECONDS, stdin=subprocess.DEVNULL)
        assert ran.returncode in (1, 2) and wanted in ran.stderr, (words, ran.returncode, ran.stderr[-300:])
    taken.close()
    shutil.rmtree(settings_file.parent)


TESTS = [
    the_page_shows_how_all_stands,
    metrics_are_in_the_format_of_prometheus,
    metrics_and_info_tell_the_same_by_one_name,
    slow_clients_keep_nobody_out,
    what_is_not_counted_is_not_told,
    settings_of_scripts_are_taken,
    domains_of_options_bind,
    limits_of_settings_bind,
    loads_stay_within_settings,
    the_page_has_no_dates_before_1970,
    who_asks_the_control_is_in_the_log,
    a_log_that_nobody_reads_keeps_nobody_waiting,
    wrong_options_are_told_before_a_build,
    the_last_two_built_servers_are_kept,
    what_is_not_accepted_is_told,
]

if __name__ == "__main__":
    main(TESTS)
