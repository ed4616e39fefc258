"""Bugs between servers and etcd, which a trial must find: a relay that changes requests or answers. Besides, it tells
one server of changes late, as a network may, so that a server that compares nothing acts on values that are gone.

    no-compare     transactions that make requests of clients compare nothing
    lost-is-made   a transaction whose compares did not hold is reported as made
    no-read-back   an unknown outcome of a transaction is reported as made or not made, and nothing is read
    stale-read     a server answers reads by the values that it has, and nothing compares that they are the present
    early-drop     the control assumes that all servers have read as far as it has
"""
import asyncio
import json
import random

import local_processes

TXN, WATCH, RANGE = "/v3/kv/txn", "/v3/watch", "/v3/kv/range"
# The server that is told of changes late, and how late.
SLOW, LATE = 1, 1.5
# One transaction in this many has an unknown outcome.
UNKNOWN_IN = 100
SERVER = b"server/"
# The place in a server's key that says up to which revision the server has read.
FOLLOWED = slice(9, 17)
# A revision that etcd never reaches.
LATEST = 1 << 40
# How etcd says that it made nothing.
FULL = "etcdserver: mvcc: database space exceeded"
NOT_MADE = {"error": FULL, "code": 8, "message": FULL}


class Bug:
    """How a bug changes calls and their answers; this one changes nothing. `options` are the options of a trial that
    shows it: if shards get other owners at once, the owner before goes on until it is told."""

    options = {"nemesis": "reassign", "shards": 4, "keys": 8}

    def asked(self, path, asked):
        """Returns the call that etcd gets in place of this one, or none if it gets nothing."""
        return asked

    def answered(self, path, asked, answer):
        """Returns the answer in place of this one; there is none to a call that etcd didn't get."""
        return answer

    def read(self, pair):
        """Returns the pair of key and value that a watch tells in place of this one."""
        return pair


class NoCompare(Bug):
    def asked(self, path, asked):
        compared = (local_processes.bytes_of(it["key"]) for it in asked.get("compare", []))
        is_of_requests = path == TXN and any(it.startswith(b"head/") for it in compared)
        return {**asked, "compare": []} if is_of_requests else asked


class LostIsMade(Bug):
    options = {"nemesis": "moves"}

    def answered(self, path, asked, answer):
        is_lost = path == TXN and writes_requests(asked) and not answer.get("succeeded")
        return made(answer.get("header", {})) if is_lost else answer


class NoReadBack(Bug):
    """Its outcomes are unknown by chance: half of them because the transaction is lost on its way, and half because the
    answer is."""

    options = {"nemesis": "moves"}

    def __init__(self):
        self.chance, self.header = random.Random(0), {}

    def asked(self, path, asked):
        is_lost = path == TXN and writes_requests(asked) and self.header and self.chance.randrange(2 * UNKNOWN_IN) == 0
        return None if is_lost else asked

    def answered(self, path, asked, answer):
        if path != TXN or not writes_requests(asked):
            return answer
        if answer is None:
            return made(self.header)
        self.header = answer.get("header", self.header)
        return NOT_MADE if self.chance.randrange(2 * UNKNOWN_IN) == 0 else answer


class StaleRead(Bug):
    # A write at the server that is late would tell it so: so those who call it only read.
    options = {**Bug.options, "shards": 2, "keys": 4, "followers": 0, "numbered": 0, "readers": 4}

    def answered(self, path, asked, answer):
        is_question = path == TXN and asked.get("compare") and not asked.get("success")
        is_lost = is_question and not answer.get("succeeded")
        return {**made(answer.get("header", {})), "responses": []} if is_lost else answer


class EarlyDrop(Bug):
    options = {"nemesis": "moves"}

    def answered(self, path, asked, answer):
        return {**answer, "kvs": [*map(self.read, answer["kvs"])]} if path == RANGE and answer.get("kvs") else answer

    def read(self, pair):
        is_there = local_processes.bytes_of(pair["key"]).startswith(SERVER) and "value" in pair
        return {**pair, "value": read_up_to(pair["value"], LATEST)} if is_there else pair


def writes_requests(asked):
    """Whether this transaction writes requests of clients."""
    puts = (it["request_put"] for it in asked.get("success", []) if "request_put" in it)
    keys = (local_processes.bytes_of(it["key"]) for it in puts)
    return any(it.startswith(b"head/") for it in keys)


def made(header):
    """Returns etcd's answer that it made the writes."""
    return {"header": header, "succeeded": True, "responses": [{"response_put": {"header": header}}]}


def read_up_to(value, revision):
    """Returns the value at a server's key, as if it had read up to this revision."""
    held = local_processes.bytes_of(value)
    return local_processes.text(held[: FOLLOWED.start] + revision.to_bytes(8, "big") + held[FOLLOWED.stop :])


BUGS = {
    "no-compare": NoCompare,
    "lost-is-made": LostIsMade,
    "no-read-back": NoReadBack,
    "stale-read": StaleRead,
    "early-drop": EarlyDrop,
}


class Planted:
    """A bug between servers and etcd; how often it changed something."""

    def __init__(self, bug):
        self.rewrites = [Rewrite(bug(), late) for late in (LATE, 0)]

    def __call__(self, name):
        """The rewrite of a link of this name, if it has the bug."""
        if not name.startswith("to etcd") or "from server-" not in name:
            return None
        return self.rewrites[not name.endswith(f"-{SLOW}")]

    def acts(self):
        return sum(it.acts for it in self.rewrites)


class Rewrite:
    """Carries calls of etcd's gateway one after another, and changes transactions and readings. It tells of changes
    this late."""

    def __init__(self, bug, late):
        self.bug, self.late, self.acts = bug, late, 0

    async def __call__(self, reader, writer, far_reader, far_writer):
        while True:
            path, head, body = await whole(reader)
            if path in (TXN, RANGE):
                await self.change(path, (head, json.loads(body)), writer, (far_reader, far_writer))
            else:
                await send(far_writer, head, body)
                how = (self.late, self.watched) if path == WATCH else (0, lambda line: line + b"\n")
                await carried(far_reader, writer, *how)

    async def change(self, path, call, writer, far):
        """Passes the call on to etcd as the bug changes it, and returns the answer as the bug changes it."""
        (head, asked), (far_reader, far_writer) = call, far
        given = self.bug.asked(path, asked)
        answer = None
        if given is None:
            head = ANSWERED
        else:
            await send(far_writer, head, json.dumps(given).encode())
            _, head, body = await whole(far_reader)
            answer = json.loads(body)
        told = self.bug.answered(path, asked, answer)
        self.acts += given != asked or told != answer
        await send(writer, REFUSED if told is NOT_MADE else head, json.dumps(told).encode())

    def watched(self, line):
        """Returns this line of a watch as the bug changes it."""
        told = json.loads(line)
        before = json.dumps(told)
        for event in told.get("result", {}).get("events", []):
            event["kv"] = self.bug.read(event["kv"])
        after = json.dumps(told)
        self.acts += after != before
        return after.encode() + b"\n"


# The heads of answers that etcd didn't give.
ANSWERED = [b"HTTP/1.1 200 OK", b"Content-Type: application/json"]
REFUSED = [b"HTTP/1.1 429 Too Many Requests", b"Content-Type: application/json"]


async def head_of(reader):
    """Returns the lines of a head, and the length of the body that they state, or none if the body comes in chunks."""
    lines = (await reader.readuntil(b"\r\n\r\n")).split(b"\r\n")[:-2]
    fields = {name.strip().lower(): value.strip() for name, _, value in (it.partition(b":") for it in lines[1:])}
    length = None if fields.get(b"transfer-encoding") == b"chunked" else int(fields.get(b"content-length", 0))
    return lines, length


async def chunk(reader):
    """Returns one chunk, or none at the end."""
    length = int((await reader.readline()).split(b";")[0], 16)
    data = await reader.readexactly(length)
    await reader.readexactly(2)
    return data


async def whole(reader):
    """Returns a message: its path, if it is a request, its head, and its body."""
    lines, length = await head_of(reader)
    if length is None:
        body = b""
        while piece := await chunk(reader):
            body += piece
    else:
        body = await reader.readexactly(length)
    return lines[0].split()[1].decode(errors="replace"), lines, body


async def send(writer, lines, body):
    """Sends a message. Its body may have another length than its head says."""
    kept = [it for it in lines if not it.lower().startswith((b"content-length", b"transfer-encoding"))]
    writer.write(b"\r\n".join([*kept, b"Content-Length: %d" % len(body), b"", b""]) + body)
    await writer.drain()


async def carried(reader, writer, late, change):
    """Carries an answer, which may be a stream of lines that doesn't end: each of its lines so late, and changed."""
    lines, length = await head_of(reader)
    writer.write(b"\r\n".join([*lines, b"", b""]))
    if length is not None:
        writer.write(await reader.readexactly(length))
        return await writer.drain()
    pieces, loop, begun = asyncio.Queue(1_024), asyncio.get_running_loop(), b""

    async def give():
        while True:
            due, piece = await pieces.get()
            await asyncio.sleep(max(0, due - loop.time()))
            writer.write(b"%x\r\n%s\r\n" % (len(piece), piece))
            await writer.drain()
            if not piece:
                return

    giving = asyncio.ensure_future(give())
    try:
        while piece := await chunk(reader):
            *lines, begun = (begun + piece).split(b"\n")
            for line in lines:
                await pieces.put((loop.time() + late, change(line)))
        await pieces.put((0, b""))
        await giving
    finally:
        giving.cancel()
