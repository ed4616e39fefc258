#!/usr/bin/env python3
"""Files with all shards: dumps.py PROGRAM."""
import os
import pathlib
import tempfile
import threading

from served import Refused, main, served

SERVERS, SHARDS, KEYS = 3, 12, 3_000


def refused(client, *words):
    client.send(*words)
    found = client.read()
    assert isinstance(found, Refused), f"{words}: {found}"
    return str(found).removeprefix("REFUSED ").partition(":")[0]


def stands(client):
    """Returns the stand of each shard and how many keys it has, without its generation; and the generations."""
    rows = client.rows("SHARDS")
    return [it[:5] + it[6:] for it in rows], [int(it[5]) for it in rows]


def filled(client):
    """Writes texts and counts, and brings shards into each stand that a dump knows."""
    client.piped([("SET", f"count:{it}", it) for it in range(KEYS)])
    client.piped([("SET", f"text:{it}", b"\x00line\n\r" * (it % 50)) for it in range(KEYS)])
    for step in [
        ("PREPARE_ADD", 1, 3),
        ("PREPARE_ADD", 2, 1),
        ("PREPARE_DROP", 2),
        ("MIGRATE", 3, 2),
        ("PREPARE_ADD", 4, 3),
    ]:
        assert client.ask("SM", *step) == "OK", step
    for step in ("PREPARE_DROP", "ADD"):
        assert client.ask("SM", step, 4) == "OK"


def is_held(client):
    counts = client.piped([("GET", f"count:{it}") for it in range(KEYS)])
    texts = client.piped([("GET", f"text:{it}") for it in range(KEYS)])
    return counts == [b"%d" % it for it in range(KEYS)] and texts == [b"\x00line\n\r" * (it % 50) for it in range(KEYS)]


def dumps_are_loaded(program):
    """The server that wrote a dump loads it after other changes, and another server loads it, too. Generations go
    on."""
    options = ["--servers", SERVERS, "--shards", SHARDS]
    with tempfile.TemporaryDirectory() as room:
        options += ["--folder", room]
        with served(program, *options) as server, server.client() as client:
            filled(client)
            assert client.ask("SM", "DUMP", "one") == f"{SHARDS} shards with {2 * KEYS} keys are in one"
            before, generations = stands(client)
            client.piped([("DEL", f"count:{it}") for it in range(KEYS)])
            assert client.ask("SM", "CANCEL", 1) == "OK" and client.ask("SET", "other", 1) == "OK"
            assert client.ask("SM", "LOAD", "one") == f"{SHARDS} shards with {2 * KEYS} keys are as in one"
            found, since = stands(client)
            assert found == before and all(map(int.__le__, generations, since)), (found, before, generations, since)
            assert is_held(client) and client.ask("GET", "other") is None and client.ask("DBSIZE") == 2 * KEYS
            assert client.ask("SM", "ADD", 2) == "OK" and client.ask("SM", "MIGRATE", 0, 2) == "OK"
        with served(program, *options) as server, server.client() as client:
            assert client.ask("SM", "LOAD", "one") and is_held(client)
            assert stands(client)[0] == before and all(map(int.__le__, generations, stands(client)[1]))
        assert [it.name for it in pathlib.Path(room).iterdir()] == ["one"], "a part of a dump is left"


def other_files_are_refused(program):
    """Each refusal has its name, and nothing is lost."""
    with tempfile.TemporaryDirectory() as room, served(program, "--folder", room, "--shards", 4) as server:
        with server.client() as client:
            client.ask("SET", "kept", 1)
            assert client.ask("SM", "DUMP", "one")
            whole = pathlib.Path(room, "one").read_bytes()
            files = {
                "torn": (whole[:-30], "TornFile"),
                "changed": (whole.replace(b"kept", b"left"), "TornFile"),
                "foreign": (b"REDIS0009", "ForeignFile"),
                "newer": (whole.replace(b"dump 1", b"dump 2", 1), "BadVersion"),
                "wider": (whole.replace(b'"shards":4', b'"shards":5', 1), "OtherShards"),
            }
            before = stands(client)
            for name, (data, wanted) in files.items():
                pathlib.Path(room, name).write_bytes(data)
                assert (found := refused(client, "SM", "LOAD", name)) == wanted, (name, found)
            assert refused(client, "SM", "LOAD", "nothing") == "BadFile"
            assert refused(client, "SM", "LOAD", "../one") == refused(client, "SM", "DUMP", "/tmp/x") == "BadName"
            assert stands(client) == before and client.ask("GET", "kept") == b"1"
            assert client.ask("SM", "PAUSE", 0) == "OK" and refused(client, "SM", "DUMP", "one") == "Paused"
            assert pathlib.Path(room, "one").read_bytes() == whole, "a dump that wasn't written changed the one before"


def dumps_replace_nothing_but_dumps(program):
    """The folder is made for dumps, and a file that isn't a dump stays as it is."""
    with tempfile.TemporaryDirectory() as room:
        folder = pathlib.Path(room, "made", "dumps")
        with served(program, "--folder", folder, "--shards", 4) as server, server.client() as client:
            assert refused(client, "SM", "LOAD", "one") == "BadFile" and not folder.exists()
            assert client.ask("SM", "DUMP", "one") and folder.stat().st_mode & 0o777 == 0o700
            other = pathlib.Path(room, "other")
            other.write_text("durkenzo-dump 1\n")
            for name, text in {"main.rs": "fn main() {}\n", "tool": "#!/bin/sh\n", "empty": ""}.items():
                (folder / name).write_text(text)
                assert refused(client, "SM", "DUMP", name) == "NameTaken", name
                assert (folder / name).read_text() == text
            (folder / "link").symlink_to(other)
            (folder / "folder").mkdir()
            os.mkfifo(folder / "fifo")
            for name in ("link", "folder", "fifo"):
                assert refused(client, "SM", "DUMP", name) == "NameTaken", name
            assert refused(client, "SM", "LOAD", "fifo") == refused(client, "SM", "LOAD", "folder") == "ForeignFile"
            # A file that an earlier process left isn't overwritten.
            left = [folder / f"one.{it}.part" for it in range(9)]
            for it in left:
                it.write_text("left")
            (folder / "one").write_text("durkenzo-dump 0\n")
            client.ask("SET", "kept", 1)
            assert client.ask("SM", "DUMP", "one") and b"kept" in (folder / "one").read_bytes()
            assert all(it.read_text() == "left" for it in left) and other.read_text() == "durkenzo-dump 1\n"
        with served(program, "--shards", 4, cwd=room) as server, server.client() as client:
            assert client.ask("SM", "DUMP", "one") and pathlib.Path(room, "durkenzo-dumps", "one").is_file()


def loads_under_load_answer_all(program):
    """Commands that come while a dump is loaded wait for it."""
    with tempfile.TemporaryDirectory() as room, served(program, "--folder", room) as server:
        with server.client() as control, server.client() as client:
            control.piped([("SET", f"k{it}", it) for it in range(KEYS)])
            assert control.ask("SM", "DUMP", "one")
            is_over, answers = threading.Event(), []

            def call():
                while not is_over.is_set():
                    answers.extend(client.piped([("INCR", "calls"), ("GET", "k7")]))

            thread = threading.Thread(target=call)
            thread.start()
            for _ in range(20):
                assert control.ask("SM", "LOAD", "one")
            is_over.set()
            thread.join()
            refusals = [str(it) for it in answers if isinstance(it, Refused)]
            assert not refusals and set(answers[1::2]) == {b"7"}, refusals[:3]
            return f"20 loads, {len(answers)} answers"


TESTS = [dumps_are_loaded, other_files_are_refused, dumps_replace_nothing_but_dumps, loads_under_load_answer_all]

if __name__ == "__main__":
    main(TESTS)
