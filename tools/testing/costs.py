"""The costs of the parts of the last whole run: the table of costs.md, from which ./test estimates how long a run still
takes.

A row of a crate has the processor seconds of its proof and of its must-fail edits, with the number of their checks; a
row of another part has the seconds that it took, if they were at least LEAST_SECONDS. `write` puts the rows of a run in
their place.
"""
import collections
import pathlib
import re
import textwrap

PAGE = pathlib.Path(__file__).resolve().parent / "costs.md"
HEAD = "| crate or part | proof, s | edits, s (checks) | all, s | most memory, GB |\n|---|---|---|---|---|\n"
ROW = re.compile(r"^\| `?([^`|]+?)`? \| (\d*) \| (?:(\d+) \((\d+)\))? ?\| (\d+) \|", re.M)

# A part that took less has no row.
LEAST_SECONDS = 10

# The seconds of a crate's proof and of its edits, the number of their checks, and the seconds of all. A part that isn't
# a crate has only the last.
Cost = collections.namedtuple("Cost", "proof edits checks whole")


def read(page=PAGE):
    """Returns the costs of the last run by the names of crates and parts, or none if the page has no table."""
    text = page.read_text(encoding="utf-8") if page.exists() else ""
    table = text.partition(HEAD)[2].partition("\n\n")[0]
    return {name: Cost(*(int(it or 0) for it in rest)) for name, *rest in ROW.findall(table)}


def row(name, proof, edits, checks, whole, memory):
    cells = [f"`{name}`", f"{proof:.0f}" if proof else "", f"{edits:.0f} ({checks})" if checks else ""]
    return f"| {' | '.join(cells)} | {whole:.0f} | {f'{memory:.1f}' if memory else ''} |\n"


def sums_of(checks):
    """Returns by crate the seconds of its proof, of its tests and of its edits, the number of these, and the greatest
    memory in GB, the dearest crate first."""
    found = collections.defaultdict(lambda: {"proof": 0.0, "tests": 0.0, "edits": 0.0, "tried": 0, "memory": 0.0})
    for check in checks:
        crate = found[check.crate]
        crate[check.part] += check.seconds
        crate["tried"] += check.part == "edits"
        crate["memory"] = max(crate["memory"], check.memory / 1e6)
    return sorted(found.items(), key=lambda it: -it[1]["proof"] - it[1]["tests"] - it[1]["edits"])


def brief(checks):
    """Returns the same in few words."""
    told = [
        f"{name} {it['proof']:.0f}+{it['edits']:.0f} ({it['tried']}), {it['memory']:.1f};"
        for name, it in sums_of(checks)
    ]
    return textwrap.fill(" ".join(["Seconds of proof+edits (checks), most GB:", *told]), 150)


def table(checks, parts):
    """Returns the table of a run: the costs of its checks by crate, and its other parts, a dictionary of seconds, the
    dearest first."""
    rows = [
        row(name, it["proof"], it["edits"], it["tried"], it["proof"] + it["tests"] + it["edits"], it["memory"])
        for name, it in sums_of(checks)
    ]
    long = [(name, seconds) for name, seconds in parts.items() if seconds >= LEAST_SECONDS]
    rows += [row(name, 0, 0, 0, seconds, 0) for name, seconds in sorted(long, key=lambda it: -it[1])]
    return HEAD + "".join(rows)


def write(checks, parts, page=PAGE):
    """Puts the table of a run in the place of the one on the page."""
    text = page.read_text(encoding="utf-8")
    before, head, after = text.partition(HEAD)
    if not head:
        raise SystemExit(f"{page} has no table of costs to write anew")
    page.write_text(before + table(checks, parts) + "\n" + after.partition("\n\n")[2], encoding="utf-8")
