"""The members of settings, as in docs/SETTINGS.md: tools/settings, tools/check, tools/malformed and tools/explanations
know them only from this list.

    MEMBERS      all, in the order in which they are judged
    VERSIONS     the numbers of versions
    of(VERSION)  those of a version
"""
import collections

MAX_32 = (1 << 32) - 1

# Members beside `version`, each with the first version that has it. A line whose member breaks a rule is answered by
# `error`. Texts are 1 to `most`, of at most this many bytes. Rows have only numbers, within the ranges of `row`, and
# are 1 to `most`. A number has a range, its default in tools/settings, or None if that makes one up, and its help.
Texts = collections.namedtuple("Texts", "name since error most bytes")
Rows = collections.namedtuple("Rows", "name since error most row")
Number = collections.namedtuple("Number", "name since error low high default told")

MEMBERS = [
    Texts("bounds", 1, "BadLayout", 4096, 255),
    Rows("servers", 1, "BadServers", 4095, {"id": (1, 4095), "domain": (0, 4095), "capacity": (0, MAX_32)}),
    Rows("groups", 1, "BadGroups", 4096, {"limit": (0, 4096), "down": (0, 4096)}),
    Rows("shards", 1, "BadShards", 4096, {"group": (0, (1 << 64) - 1), "load": (0, MAX_32), "cap": (0, 1)}),
    Number("ops", 1, "BadOps", 0, 4095, None, "servers that may be away at a time; see above"),
    Number("kept", 1, "BadKept", 1, 1_048_576, 1_048_576, "requests that a shard keeps at most"),
    Number("ceiling", 1, "BadCeiling", 3, 68_719_476_735, 68_719_476_735, "the greatest generation of a shard"),
    Number("workers", 1, "BadWorkers", 1, 8, 1, "of each server"),
    Rows("domains", 2, "BadDomains", 4096, {"domain": (0, 4095), "down": (0, 4095)}),
]

VERSIONS = range(1, max(it.since for it in MEMBERS) + 1)


def of(version):
    return [it for it in MEMBERS if it.since <= version]


def rows_of(version):
    return [it for it in of(version) if isinstance(it, Rows)]


def numbers_of(version):
    return [it for it in of(version) if isinstance(it, Number)]
