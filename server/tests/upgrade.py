#!/usr/bin/env python3
"""Checks that the files of earlier versions are read, with all values and stands: upgrade.py PROGRAM.

fixtures/ has a folder for each of them, written by fixtures/write.py."""
import pathlib
import shutil
import sys
import tempfile
import time

sys.dont_write_bytecode = True
from served import SECONDS, main, served

FIXTURES = pathlib.Path(__file__).resolve().parent / "fixtures"
OPTIONS = ["--servers", 4, "--bounds", "b,c,d,e,f,g", "--restarts", 2, "--vacant"]
MOVING = ("Prepared", "Forwarding", "Taken")


def versions():
    return sorted(it for it in FIXTURES.iterdir() if it.is_dir() and (it / "etcd.keys").exists())


def told(file):
    """Returns the answers of that time: shards by number, servers, and values, by the first words of their lines."""
    rows = [it.split(" ") for it in file.read_text(encoding="utf-8").splitlines()]
    shards = {int(it[1]): (it[2], int(it[3]), int(it[4]), int(it[5])) for it in rows if it[0] == "shard"}
    servers = {int(it[1]): it[2] for it in rows if it[0] == "server"}
    values = {it[2]: None if it[3] == "-" else bytes.fromhex(it[3][1:]) for it in rows if it[0] == "get"}
    return shards, servers, values


def shards_of(client):
    rows = client.rows("SHARDS")
    return {int(it[0]): (it[1], int(it[2]), int(it[3]), int(it[5])) for it in rows}


def settled(client):
    """Returns the stands of the shards once none is moving any more."""
    end = time.monotonic() + SECONDS
    while any(it[0] in MOVING for it in shards_of(client).values()) and time.monotonic() < end:
        time.sleep(0.02)
    return shards_of(client)


def after(stood):
    """Returns a shard's stand once its migration has gone on to its end."""
    stand, owner, other, _ = stood
    if stand in ("Prepared", "Forwarding"):
        return "Serving", other, 0
    return ("Serving", owner, 0) if stand == "Taken" else (stand, owner, other)


def are_held(client, values, shards):
    """Compares all values, once paused shards are resumed."""
    for shard in [it for it, stood in shards.items() if stood[0] == "Paused"]:
        assert client.ask("SM", "RESUME", shard) == "OK", shard
    wrong = [it for it, value in values.items() if client.ask("GET", it) != value]
    assert not wrong, f"{wrong} hold other values"


def data_in_a_folder_is_read(program):
    for version in versions():
        stood, servers, values = told(version / "folder.told")
        with tempfile.TemporaryDirectory() as room:
            shutil.copytree(version / "folder", f"{room}/data")
            with served(program, *OPTIONS, "--data", f"{room}/data") as server, server.client() as client:
                now = settled(client)
                wanted = {it: after(row) for it, row in stood.items()}
                assert {it: row[:3] for it, row in now.items()} == wanted, f"{now} and not {wanted}"
                fallen = [it for it, row in now.items() if row[3] < stood[it][3]]
                assert not fallen, f"generations of {fallen} fell"
                up = {it: "asked" if name == "asked" else "up" for it, name in servers.items()}
                found = {int(it[0]): it[1] for it in client.rows("SERVERS")}
                assert found == up, f"servers {found} and not {up}"
                are_held(client, values, now)
    return f"{len(versions())} versions"


def dumps_are_loaded(program):
    for version in versions():
        stood, _, values = told(version / "shards.told")
        with served(program, *OPTIONS, "--folder", version) as server, server.client() as client:
            assert client.ask("SM", "LOAD", "shards.dump")
            now = shards_of(client)
            assert {it: row[:3] for it, row in now.items()} == {it: row[:3] for it, row in stood.items()}, now
            fallen = [it for it, row in now.items() if row[3] < stood[it][3]]
            assert not fallen, f"generations of {fallen} fell"
            are_held(client, values, now)


if __name__ == "__main__":
    main([data_in_a_folder_is_read, dumps_are_loaded])
