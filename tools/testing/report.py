"""The costs of a run of proofs: the sums, the longest tasks, the cost of a check of edits, and how long processors
idled."""
import collections
import os
import textwrap

from testing import checks
from testing.runner import processors

MEMORY = os.sysconf("SC_PHYS_PAGES") * os.sysconf("SC_PAGE_SIZE")


def longest(found):
    """Returns the minutes of each task with its name, the longest first: a crate's edits, as its proof, are one."""
    spans = {}
    for check in found:
        began, ended = spans.get((check.crate, check.part), (check.began, check.ended))
        spans[check.crate, check.part] = min(began, check.began), max(ended, check.ended)
    return sorted((((ended - began) / 60, *task) for task, (began, ended) in spans.items()), reverse=True)


def further(found):
    """Returns the seconds and the crate of each check of edits but a crate's first, the dearest first."""
    told, seen = [], set()
    for check in sorted((it for it in found if it.part == "edits"), key=lambda it: it.began):
        if check.crate in seen:
            told.append((check.seconds, check.crate))
        seen.add(check.crate)
    return sorted(told, reverse=True)


def idle(found):
    """Returns the minutes at the start, at the end and in between in which fewer than two checks ran."""
    events = sorted([(it.began, 1) for it in found] + [(it.ended, -1) for it in found])
    many, count = [], 0
    for (at, change), (following, _) in zip(events, events[1:]):
        count += change
        if count > 1:
            many.append((at, following))
    began, ended = min(it.began for it in found), max(it.ended for it in found)
    if not many:
        return (ended - began) / 60, 0, 0
    between = sum(after - before for (_, before), (after, _) in zip(many, many[1:]))
    return (many[0][0] - began) / 60, (ended - many[-1][1]) / 60, between / 60


def lines(found):
    """Returns the text about these checks, a line each."""
    if not found:
        return ["No check of the prover was seen."]
    sums, passed = collections.Counter(), max(it.ended for it in found) - min(it.began for it in found)
    for check in found:
        sums[check.part] += check.seconds
    parts = ", ".join(f"{it} {sums[it] / 60:.0f}" for it in checks.PARTS if sums[it])
    where = f"on {processors()} processors with {MEMORY / 1e9:.0f} GB"
    told = [
        f"Proofs took {sum(sums.values()) / 60:.0f} processor minutes ({parts}), "
        f"{passed / 60:.1f} minutes passed {where}."
    ]
    told.append(
        "The longest tasks, in minutes: "
        + ", ".join(f"{crate} ({part}) {it:.1f}" for it, crate, part in longest(found)[:5])
        + "."
    )
    edits = further(found)
    if edits:
        middle, most = edits[len(edits) // 2][0], edits[0]
        told.append(
            f"A check of edits after the first of its crate: {middle:.0f} s in the middle of {len(edits)}, "
            f"{most[0]:.0f} s at most ({most[1]})."
        )
    told.append("Fewer than two checks: %.1f minutes at the start, %.1f at the end, %.1f in between." % idle(found))
    return [textwrap.fill(it, 150) for it in told]
