"""Adds 1 to accounts of a database, so that no write of an earlier admission or process lands after a later one.

    fenced.py FILE WRITES [AFTER]

Prints the sum of all accounts at the end. With AFTER, the tokens may begin too low: then the first write that the
database refuses raises LateWrite.
"""
import sqlite3
import sys

from durkenzo import MAX_GENERATION, Board

ACCOUNTS = 4


class LateWrite(Exception):
    """A later admission has written the account: this write changed nothing."""


def opened(file):
    store = sqlite3.connect(file)
    with store:
        store.execute("CREATE TABLE IF NOT EXISTS fence (id INTEGER PRIMARY KEY, after INTEGER NOT NULL)")
        store.execute(
            "CREATE TABLE IF NOT EXISTS accounts"
            " (shard INTEGER PRIMARY KEY, balance INTEGER NOT NULL, token INTEGER NOT NULL)"
        )
        store.execute("INSERT OR IGNORE INTO fence VALUES (0, 0)")
        store.executemany("INSERT OR IGNORE INTO accounts VALUES (?, 0, 0)", ((it,) for it in range(ACCOUNTS)))
    return store


def claimed(store):
    """Returns the number after which the tokens of this process begin, and makes the tokens of the next process begin
    above them. It does so in one transaction, because a process that was cut off and still writes must have lower
    tokens."""
    with store:
        store.execute("UPDATE fence SET after = after + ?", (MAX_GENERATION,))
        (after,) = store.execute("SELECT after FROM fence").fetchone()
    return after - MAX_GENERATION


def add(store, shard, token):
    change = "UPDATE accounts SET balance = balance + 1, token = ?1 WHERE shard = ?2 AND token <= ?1"
    with store:
        if store.execute(change, (token, shard)).rowcount != 1:
            raise LateWrite(f"account {shard} has a later token than {token}")


def main(file, writes, after=None):
    store = opened(file)
    after = claimed(store) if after is None else int(after)
    board = Board([None] * ACCOUNTS, servers=1, after=after)
    for shard in range(ACCOUNTS):
        board.control.assign(shard, 1)
    with board.new_pass(1) as mine:
        for turn in range(int(writes)):
            with mine.admit(turn % ACCOUNTS) as permit:
                add(store, permit.shard, permit.token)
    print("the accounts have", *store.execute("SELECT sum(balance) FROM accounts").fetchone())


if __name__ == "__main__":
    main(*sys.argv[1:])
