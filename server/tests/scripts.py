#!/usr/bin/env python3
"""Lines of random scripts as commands: scripts.py PROGRAM. Each answer must be the one that scripts have from sm_cli
model, if that was built, and otherwise from the plain model of tools/random-scripts."""
import collections
import json
import pathlib
import re
import subprocess
import sys
import tempfile

from served import Refused, main, served

TOP = pathlib.Path(__file__).resolve().parents[2]
sys.path.insert(0, str(TOP / "tools"))
import runs

SCRIPTS = runs.loaded("random-scripts")
SM_CLI = TOP / "crates/sm_cli/out/sm_cli"
COUNT, LINES = 24, 500
EXECUTED = re.compile(rb" @(\d+)#\d+\Z")
# The refusal that a client gets, by the answer to the script.
WAITED = {"SHARDPAUSED": b"Paused", "SHARDVACANT": b"Vacant", "SERVERDOWN": b"Unreachable"}
REPLIES = {
    "ERR value is not an integer or out of range": b"WrongKind",
    "ERR increment or decrement would overflow": b"Overflow",
    "TOOLONG a value has at most 65535 bytes": b"TooLong",
}
WORDS = {b"get": "GET", b"put": "SET", b"append": "APPEND", b"inc": "INCRBY", b"del": "DEL", b"scan": "SCANRANGE"}


def command_of(line, bounds):
    """Returns the line as a command. A script's scan stays within the shard of its lower bound."""
    word, at, values = SCRIPTS.call_of(line)
    if word not in WORDS:
        # A script's plans move nothing.
        return ["SM", "PLAN" if word in (b"place", b"drain") else word.decode().upper(), *values]
    if word == b"scan":
        values[1] = min([values[1], *(it for it in bounds if it > values[0])])
    return [*(["SM", "AT", at] if at else []), WORDS[word], *values]


def held(value):
    """Returns a value as scripts show it in a scan. Values of these scripts are counts if they are numbers."""
    return b"c" + value if SCRIPTS.SIGNED.match(value) else b"t%d:%s" % (len(value), value)


def refused(text):
    name, _, rest = text.partition(" ")
    if text in REPLIES:
        return b"reply " + REPLIES[text]
    return b"refused " + WAITED.get(name, rest.partition(":")[0].encode())


def got(value):
    if value is None:
        return b"nothing"
    return b"count " + value if SCRIPTS.SIGNED.match(value) else b"text %d:%s" % (len(value), value)


def scanned(pairs):
    pairs = list(zip(pairs[::2], pairs[1::2]))
    return b"pairs %d" % len(pairs) + b"".join(b" %d:%s %s" % (len(key), key, held(it)) for key, it in pairs)


def told(word, answer):
    """Returns the server's answer in the words of scripts."""
    if isinstance(answer, Refused):
        return refused(str(answer))
    texts = {
        b"get": got, b"put": lambda _: b"done", b"append": lambda _: b"done", b"inc": lambda it: b"count %d" % it,
        b"del": lambda it: b"done" if it else b"nothing", b"scan": scanned,
    }  # fmt: skip
    return texts[word](answer) if word in texts else answer.encode().replace(b"OK", b"ok")


def wanted(answer):
    """Returns the script's answer without the parts that a client isn't told: the server and the place, and the number
    behind a name."""
    answer = EXECUTED.sub(b"", answer)
    return b" ".join(answer.split(b" ")[:2]) if answer.startswith(b"refused ") else answer


def by_model(script, asked):
    """Returns the model's answers. If sm_cli was built, it must give the same."""
    answers = [answer for _, answer in asked]
    if SM_CLI.is_file():
        lines = [json.dumps(script.settings).encode(), *(line for line, _ in asked)]
        ran = subprocess.run([SM_CLI, "model"], input=b"".join(it + b"\n" for it in lines), capture_output=True)
        assert ran.returncode == 0 and ran.stdout.split(b"\n")[:-1] == answers, "the models differ"
    return answers


def compare(program, seed):
    """Sends the lines of a random script to a server. Returns how many."""
    script = SCRIPTS.Script(seed, is_served=True)
    asked = list(script.answered(LINES))
    answers = by_model(script, asked)
    bounds = [it.encode() for it in script.settings["bounds"]]
    with tempfile.NamedTemporaryFile("w", suffix=".json") as file:
        json.dump(script.settings, file)
        file.flush()
        with served(program, "--settings", file.name, "--vacant", "--wait", 0) as server, server.client() as client:
            for at, ((line, _), answer) in enumerate(zip(asked, answers), 2):
                client.send(*command_of(line, bounds))
                found = told(SCRIPTS.call_of(line)[0], client.read())
                assert found == wanted(
                    answer
                ), f"seed {seed}, line {at}, {line[:90]}: {found[:90]}, and not {answer[:90]}"
            rows = client.rows("SERVERS")
    counts = collections.Counter(int(it[1]) for it in map(EXECUTED.search, answers) if it)
    assert {int(it[0]): int(it[4]) for it in rows} == {it: counts[it] for it in range(1, len(rows) + 1)}, rows
    return len(asked)


def scripts_are_answered_as_by_the_model(program):
    """Each server must also have executed as many requests as in the script."""
    lines = sum(compare(program, seed) for seed in range(1, COUNT + 1))
    return f"{COUNT} scripts, {lines} lines, by {'sm_cli' if SM_CLI.is_file() else 'the plain model'}"


if __name__ == "__main__":
    main([scripts_are_answered_as_by_the_model])
