#!/usr/bin/env python3
"""Migrations, restarts and pauses while clients call: moves.py PROGRAM."""
import contextlib
import multiprocessing
import signal
import subprocess
import time

from served import SECONDS, Client, Missed, Refused, again, caught, main, packed, served, within

SERVERS, SHARDS, CLIENTS = 4, 64, 6
KEYS = [f"count:{it}" for it in range(200)]


def add(port, number, stop, told):
    """Adds 1 to keys until it is told to stop. Reports how many additions were acknowledged, how many were refused, an
    example of a refusal, and the longest time of a pipeline in milliseconds."""
    done, refused, example, longest, turn = 0, 0, "", 0, number
    with Client(port) as client:
        while not stop.is_set():
            keys = [KEYS[(turn + it * 7) % len(KEYS)] for it in range(1 + number % 3 * 8)]
            turn += 13
            began = time.monotonic()
            answers = client.piped([("INCR", it) for it in keys])
            longest = max(longest, time.monotonic() - began)
            errors = [it for it in answers if isinstance(it, Refused)]
            done, refused = done + len(answers) - len(errors), refused + len(errors)
            example = str(errors[0]) if errors else example
    told.put((done, refused, example, longest * 1000))


def loaded(server, work):
    """Does the work while clients add. Returns a sentence about their results."""
    stop, told = multiprocessing.Event(), multiprocessing.Queue()
    clients = [multiprocessing.Process(target=add, args=(server.port, it, stop, told)) for it in range(CLIENTS)]
    for client in clients:
        client.start()
    try:
        time.sleep(0.3)
        said = work()
        time.sleep(0.3)
    finally:
        stop.set()
        found = [told.get(timeout=SECONDS) for _ in clients]
        for client in clients:
            client.join()
    done, refused = sum(it[0] for it in found), sum(it[1] for it in found)
    with server.client() as client:
        counted = sum(int(client.ask("GET", it) or 0) for it in KEYS)
    assert refused == 0, f"{refused} refused, as {[it[2] for it in found if it[2]][0]}"
    assert counted == done, f"{done} acknowledged, and {counted} counted"
    return f"{said}, {done} additions, 0 refused, all counted, longest {max(it[3] for it in found):.0f} ms"


def migrations_are_not_noticed(program):
    """Each shard migrates to each server in turn, and more."""

    def migrate(server):
        with server.client() as control:
            rounds = 12
            for turn in range(rounds):
                for shard in range(SHARDS):
                    owner = int(control.ask("SM", "LOOK", shard).split(" ")[1])
                    assert control.ask("SM", "MIGRATE", shard, owner % SERVERS + 1) == "OK"
            return f"{rounds * SHARDS} migrations"

    with served(program, "--servers", SERVERS, "--shards", SHARDS) as server:
        return loaded(server, lambda: migrate(server))


def slow_migrations_are_forwarded(program):
    """There is a pause between their steps, so that requests come in each phase."""

    def migrate(server):
        with server.client() as control:
            for shard in range(0, SHARDS, 8):
                owner = int(control.ask("SM", "LOOK", shard).split(" ")[1])
                assert control.ask("SM", "MIGRATE", shard, owner % SERVERS + 1) == "OK"
            text = control.ask("INFO", "stats").decode()
            forwarded = int(text.partition("forwarded_requests:")[2].partition("\r")[0])
            assert forwarded > 0, "nothing was forwarded"
            return f"{forwarded} forwarded"

    with served(program, "--servers", SERVERS, "--shards", SHARDS, "--pace", 20) as server:
        return loaded(server, lambda: migrate(server))


def restarts_are_not_noticed(program):
    """All servers restart in turn, three times."""

    def restart(server):
        with server.client() as control:
            for _ in range(3):
                assert len(control.ask("SM", "RESTART")) == SERVERS
            rows = control.rows("SERVERS")
            assert all(it[1] == "up" and it[3] == str(SHARDS // SERVERS) for it in rows), rows
            return f"{3 * SERVERS} restarts"

    with served(program, "--servers", SERVERS, "--shards", SHARDS) as server:
        return loaded(server, lambda: restart(server))


def restarts_at_once_are_not_noticed(program):
    """Two servers restart at a time, as the caps allow, and every shard comes home."""

    def restart(server):
        with server.client() as one, server.client() as other:
            for turn in range(3):
                for client, number in ((one, 1), (other, 2 + turn)):
                    client.send("SM", "RESTART", number)
                answers = [client.read() for client in (one, other)]
                assert all(it[0].endswith(b"with its 16 shards") for it in answers), answers
            rows = servers_of(one)
            assert all(it[1] == "up" and it[3] == str(SHARDS // SERVERS) for it in rows), rows
            return "6 restarts"

    options = ["--servers", SERVERS, "--shards", SHARDS, "--restarts", 2]
    with served(program, *options) as server:
        return loaded(server, lambda: restart(server))


def servers_of(client):
    return client.rows("SERVERS", 5)


def timed(client):
    """Returns the state of each server, and how long the query took."""
    began = time.monotonic()
    return servers_of(client), time.monotonic() - began


@again
def others_are_answered_while_a_server_restarts(program):
    """SM SERVERS tells how far a restart has come. A second restart waits for its turn, and another one of the same
    server is refused."""
    options = ["--servers", 3, "--shards", 12, "--pace", 40]
    with served(program, *options) as server, server.client() as control:
        alone = max(timed(control)[1] for _ in range(20))
        with server.client() as first, server.client() as second:
            first.send("SM", "RESTART", 1)
            caught(lambda: servers_of(control)[0][1] == "approved", first)
            second.send("SM", "RESTART", 2)
            control.send("SM", "RESTART", 1)
            found = control.read()
            if first.is_answered():
                raise Missed("the restart was over")
            assert str(found).startswith("REFUSED NotUp"), found
            longest, seen = 0, {1: set(), 2: set()}
            end = time.monotonic() + 20 * SECONDS
            while not second.is_answered():
                assert time.monotonic() < end, "the second restart doesn't end"
                rows, took = timed(control)
                longest = max(longest, took)
                for number in seen:
                    seen[number].add(rows[number - 1][5].split(" ")[0])
            within(longest, max(0.3, 5 * alone), "another command")
            if not ({"draining", "returning"} <= seen[1] and {"waiting", "draining", "returning"} <= seen[2]):
                raise Missed(seen)
            assert first.read() == [b"server 1 is back, with its 4 shards"]
            assert second.read() == [b"server 2 is back, with its 4 shards"]
        assert all(it[1] == "up" and it[3] == "4" and it[5] == "-" for it in servers_of(control))


def a_restart_that_nobody_lets_go_is_refused(program):
    """The cap's server isn't away for a restart that goes on, so waiting wouldn't help."""
    with served(program, "--servers", 3) as server, server.client() as control:
        assert control.ask("SM", "ASK", 1) == "OK" and control.ask("SM", "APPROVE", 1) == "OK"
        control.send("SM", "RESTART", 2)
        assert str(found := control.read()).startswith("REFUSED GlobalCap"), found
        assert servers_of(control)[1][1] == "up"


def domains_hold_back_restarts(program):
    """One server of each domain may be away at once, without settings too."""
    options = ["--servers", 4, "--domains", 2, "--restarts", 2]
    with served(program, *options) as server, server.client() as control:
        for number in (1, 2, 3):
            assert control.ask("SM", "ASK", number) == "OK"
        assert control.ask("SM", "APPROVE", 1) == "OK"
        control.send("SM", "APPROVE", 3)
        assert str(found := control.read()).startswith("REFUSED DomainCap"), found
        assert control.ask("SM", "APPROVE", 2) == "OK"


def shards_spread(program):
    """The spread goes on until no server has two shards more than another one."""
    with served(program, "--servers", 4, "--shards", 16) as server, server.client() as control:
        assert len(control.ask("SM", "DRAIN", 3)) == 4
        assert len(control.ask("SM", "SPREAD")) == 4 and control.ask("SM", "SPREAD") == []
        assert [it[3] for it in servers_of(control)] == ["4"] * 4


@again
def a_migration_that_somebody_gives_up_is_told(program):
    with served(program, "--servers", 3, "--shards", 3, "--pace", 300) as server, server.client() as control:
        with server.client() as client:
            client.send("SM", "MIGRATE", 0, 3)
            caught(lambda: control.ask("SM", "LOOK", 0).startswith("Prepared"), client)
            control.send("SM", "CANCEL", 0)
            if str(told := control.read()) != "OK":
                assert not control.ask("SM", "LOOK", 0).startswith("Prepared"), told
                raise Missed(told)
            assert str(found := client.read()).startswith("REFUSED NotMoved"), found
        assert control.ask("SM", "LOOK", 0).startswith("Serving 1 0")


@again
def a_shard_whose_new_owner_fails_is_served_again(program):
    """It is resumed at another server, or at that one if it is back before. A shard that somebody paused by hand stays
    paused."""
    options = ["--servers", 3, "--shards", 3, "--pace", 150]
    with served(program, *options) as server, server.client() as control, server.client() as client:
        assert control.ask("SM", "PAUSE", 1) == "OK"
        for is_back in (False, True):
            client.send("SM", "MIGRATE", 0, 2)
            caught(lambda: control.ask("SM", "LOOK", 0).startswith("Taken 2"), client)
            assert control.ask("SM", "FAIL", 2) == "OK"
            caught(lambda: control.ask("SM", "LOOK", 0).startswith("Paused 2"), client, "REFUSED NotMoved")
            if is_back:
                assert control.ask("SM", "BACK", 2) == "OK"
                if str(told := client.read()).startswith("REFUSED NotMoved"):
                    raise Missed(told)
                assert told == "OK" and control.ask("SM", "LOOK", 0).startswith("Serving 2"), told
            else:
                assert str(client.read()).startswith("REFUSED NotMoved")
                found = control.ask("SM", "LOOK", 0)
                assert found.startswith(("Serving 1", "Serving 3")), found
                assert control.ask("SM", "BACK", 2) == "OK"
        assert control.ask("SM", "LOOK", 1).startswith("Paused 2")


def restarts_wait_for_no_migration_that_nobody_ends(program):
    with served(program, "--servers", 3, "--shards", 3) as server, server.client() as control:
        assert control.ask("SM", "PREPARE_ADD", 0, 2) == "OK"
        control.send("SM", "RESTART", 1)
        assert str(found := control.read()).startswith("REFUSED StillServing"), found
        assert servers_of(control)[0][1] == "up"
        assert control.ask("SM", "CANCEL", 0) == "OK" and "its 1 shards" in str(control.ask("SM", "RESTART", 1))


def plans_move_nothing(program):
    with served(program, "--servers", 2, "--shards", 2, "--vacant") as server, server.client() as control:
        assert control.ask("SM", "PLAN") == "plan 0>1 1>1 left"
        assert control.ask("SM", "LOOK", 0).startswith("Vacant")
        assert len(control.ask("SM", "PLACE")) == 2
        assert control.ask("SM", "PLAN", 1) == "plan 0>2 1>2 left"
        assert control.ask("SM", "LOOK", 0).startswith("Serving 1")


@again
def paused_shards_hold_back_who_asks_for_them(program):
    """Other shards go on. A command that waited is done at the resume, or refused after --wait."""
    with served(program) as server, server.client() as control, server.client() as client:
        assert control.ask("SET", "held", 1) == "OK"
        shard = control.ask("SM", "KEY", "held")
        free = next(it for it in KEYS if control.ask("SM", "KEY", it) != shard)
        assert control.ask("SM", "PAUSE", shard) == "OK"
        client.socket.sendall(packed("INCR", "held") + packed("GET", "held"))
        assert control.ask("INCR", free) == 1 and not client.is_answered()
        assert control.ask("SM", "RESUME", shard) == "OK"
        assert (client.read(), client.read()) == (2, b"2")
    with served(program, "--wait", 400) as server, server.client() as control, server.client() as client:
        shard = control.ask("SM", "KEY", "held")
        assert control.ask("SM", "PAUSE", shard) == "OK"
        began = time.monotonic()
        refused = client.piped([("INCR", "held"), ("PING",)])
        assert str(refused[0]).startswith("SHARDPAUSED") and refused[1] == "PONG", refused
        took = time.monotonic() - began
        assert took > 0.35 and control.ask("SM", "RESUME", shard) == "OK" and client.ask("GET", "held") is None
        within(took, 5, "a refusal")


def failed_servers_are_told(program):
    """A client of a failed server's shard waits until that server is drained or back."""
    keys = KEYS[:40]
    with served(program, "--wait", 300) as server, server.client() as control:
        assert control.ask("SM", "FAIL", 1) == "OK"
        answers = control.piped([("GET", it) for it in keys])
        down = [str(it) for it in answers if isinstance(it, Refused)]
        assert down and all(it.startswith("SERVERDOWN server 1") for it in down), answers
    with served(program) as server, server.client() as control, server.client() as client:
        assert control.piped([("SET", it, 1) for it in keys]) == ["OK"] * len(keys)
        assert control.ask("SM", "FAIL", 1) == "OK"
        key = next(it for it in keys if control.ask("SM", "LOOK", control.ask("SM", "KEY", it)).split(" ")[1] == "1")
        client.send("INCR", key)
        assert len(control.ask("SM", "DRAIN", 1)) == 16
        assert client.read() == 2, "who waited for a drained shard was refused"
        assert not any(isinstance(it, Refused) for it in control.piped([("GET", it) for it in keys]))
        assert control.ask("SM", "BACK", 1) == "OK"


def vacant_shards_are_placed(program):
    """A client of a shard without an owner waits until it has one."""
    options = ["--vacant", "--shards", 4]
    with served(program, *options, "--wait", 300) as server, server.client() as client:
        client.send("INCR", "a")
        assert str(client.read()).startswith("SHARDVACANT")
    with served(program, *options) as server, server.client() as control, server.client() as client:
        client.send("INCR", "a")
        assert control.ask("SM", "ASSIGN", 3, 2) == "OK"
        assert [it.decode() for it in control.ask("SM", "PLACE")] == ["0>1", "1>1", "2>1"]
        assert client.read() == 1


def requests_at_a_server_go_as_in_scripts(program):
    """A migration step by step, as clients with old maps see it."""
    with served(program, "--servers", 3, "--bounds", "m") as server, server.client() as client:

        def at(number):
            client.send("SM", "AT", number, "INCR", "a")
            answer = client.read()
            return answer if isinstance(answer, int) else str(answer).split(":")[0].removeprefix("REFUSED ")

        found = [at(1), at(2)]
        for step in (("PREPARE_ADD", 0, 2), ("PREPARE_DROP", 0), ("ADD", 0), ("DROP", 0)):
            assert client.ask("SM", *step) == "OK"
            found += [at(1), at(2)]
        wanted = [1, "NotExecutor", 2, "NotExecutor", 3, "NotYet", 4, 5, "NotExecutor", 6]
        assert found == wanted, found


def each_word_tells_how_it_is_written(program):
    """SM HELP has each word once or twice. If a word lacks arguments, it is refused with its form."""
    with served(program) as server, server.client() as client:
        forms = [it.decode().removeprefix("SM ")[:16].strip() for it in client.ask("SM", "HELP")]
        assert len(forms) == len(set(forms)) > 25, forms
        bare = {it for it in forms if " " not in it}
        needing = [it for it in forms if it.split(" ")[0] not in bare]
        assert {it.split(" ")[0] for it in needing} >= {"ASSIGN", "REASSIGN", "MIGRATE", "DRAIN", "STOPPED", "DUMP"}
        for form in needing:
            client.send("SM", form.split(" ")[0])
            found = client.read()
            assert isinstance(found, Refused), (form, found)
            if not form.startswith(("AT ", "CALL ")):  # these ask for more than a form
                assert f"BadLine: it is written SM {form}" in str(found), (form, found)


@again
def a_server_ends_within_a_restart(program):
    """It would take minutes, because of the pause between the steps of its migrations."""
    with served(program, "--pace", 1_000) as server, server.client() as control:
        control.send("SM", "RESTART")
        time.sleep(0.3)
        began = time.monotonic()
        server.process.terminate()
        status = server.process.wait(timeout=SECONDS)
        server.process.poll = lambda: None  # it was to end here
        assert status == 0, status
        within(time.monotonic() - began, 10, "a stop")


@again
def a_server_ends_after_what_it_was_sent(program):
    """A signal in the middle of a load ends it with status 0, and no answer is cut."""
    with served(program) as server:
        load = ["redis-benchmark", "-p", str(server.port), "-t", "set", "-n", "10000000", "-q"]
        with subprocess.Popen(load, stdout=subprocess.DEVNULL, stderr=subprocess.DEVNULL) as process:
            time.sleep(0.5)
            began = time.monotonic()
            server.process.terminate()
            status = server.process.wait(timeout=SECONDS)
            process.kill()
        server.process.poll = lambda: None  # it was to end here
        assert status == 0, status
        within(time.monotonic() - began, 8, "a stop")


def a_stop_answers_all_that_came(program):
    """Commands that came before the signal are answered, on more connections than a thread looks at at once."""
    options = ["--threads", 1, "--grace", SECONDS * 1_000]
    with served(program, *options) as server, contextlib.ExitStack() as stack:
        clients = [stack.enter_context(server.client()) for _ in range(400)]
        assert all(it.ask("PING") == "PONG" for it in clients)
        server.process.send_signal(signal.SIGSTOP)
        for client in clients:
            client.send("INFO")
        server.process.terminate()
        server.process.send_signal(signal.SIGCONT)
        assert all(b"redis_version" in it.read() for it in clients)
        stack.close()
        assert server.process.wait(timeout=SECONDS) == 0
        server.process.poll = lambda: None  # it was to end here


TESTS = [
    migrations_are_not_noticed,
    slow_migrations_are_forwarded,
    restarts_are_not_noticed,
    restarts_at_once_are_not_noticed,
    others_are_answered_while_a_server_restarts,
    a_restart_that_nobody_lets_go_is_refused,
    domains_hold_back_restarts,
    shards_spread,
    a_migration_that_somebody_gives_up_is_told,
    a_shard_whose_new_owner_fails_is_served_again,
    restarts_wait_for_no_migration_that_nobody_ends,
    plans_move_nothing,
    paused_shards_hold_back_who_asks_for_them,
    failed_servers_are_told,
    vacant_shards_are_placed,
    requests_at_a_server_go_as_in_scripts,
    each_word_tells_how_it_is_written,
    a_server_ends_within_a_restart,
    a_server_ends_after_what_it_was_sent,
    a_stop_answers_all_that_came,
]

if __name__ == "__main__":
    main(TESTS)
