"""The part of ./test for random schedules of the simulator over the driver and the control of a shared store, as they
ship: they must find no fault, and each planted bug."""
import shutil
import subprocess
import xml.etree.ElementTree

import other_crates
import sources
from testing import workspace
from testing.library import is_there
from testing.part import verdict
from testing.program import tool

BINDINGS = ("-p", "durkenzo-store-sys", "--features", "permits,relay")
SIMULATION = ("-p", "simulation", "--release")
# The same schedules on each machine, so that all machines find the same. They take 25 s of a processor.
LIMITS = ("--seed", "1", "--schedules", "10000", "--seconds", "900")
# Those of a fleet take eight times as long each, so that there are fewer.
FLEETS = ("--part", "fleet", "--seed", "1", "--schedules", "2000", "--seconds", "900")
# Those of a store in a folder take 8 ms each.
FOLDERS = ("--part", "folder", "--seed", "1", "--schedules", "1000000", "--processor-seconds", "30", "--seconds", "300")
# Those of a server take 7 ms each.
SERVERS = ("--part", "server", "--seed", "1", "--schedules", "5000", "--seconds", "900")
# Those of a server of one process take 11 ms each.
ALONE = ("--part", "alone", "--seed", "1", "--schedules", "3000", "--seconds", "900")
# For how many seconds of a processor further ones are tried, and for how many of time at most.
NEW_SECONDS, NEW_TIME = "180", "900"
# More schedules than are tried in that time, so that no seed comes twice.
APART = 1_000_000
# A patch of simulation/plants that is found within seconds.
PLANTS = ("batch-without-record",)
# The schedule that is drawn.
DRAWN = "37"


def new_seed():
    """Returns a seed that no other commit has, so a commit finds the same on each machine; 0 if git names none."""
    asked = ["git", "-C", str(sources.TOP), "rev-parse", "HEAD"]
    told = subprocess.run(asked, capture_output=True, text=True, stdin=subprocess.DEVNULL, check=False)
    return int(told.stdout[:10] or "0", 16) * APART


def drawn():
    """Returns the verdict on the picture of a schedule: it must be XML, and say whether the law was broken."""
    command = [str(sources.TOP / "tools/picture"), "--schedule", DRAWN]
    how = {"capture_output": True, "text": True, "stdin": subprocess.DEVNULL, "check": False}
    ran = subprocess.run(command, env=other_crates.environment(), **how)
    try:
        texts = [it.text for it in xml.etree.ElementTree.fromstring(ran.stdout).iter() if it.tag.endswith("}text")]
    except xml.etree.ElementTree.ParseError as wrong:
        texts = [f"no picture: {wrong}"]
    is_well = ran.returncode == 0 and "server 1" in texts and texts[-1] == "all laws are kept"
    return verdict("a schedule is drawn", is_well, f"{texts[-1:]}{ran.stderr[-workspace.TOLD:]}")


def passed(_room):
    """All of it; nothing if there is no library, or cargo finds no crates."""
    if not is_there() or not shutil.which("cargo") or not other_crates.has_crates():
        return
    yield workspace.ran("the bindings of a store's calls", "test", *BINDINGS)
    yield workspace.ran("planted bugs are found", "test", *SIMULATION)
    yield workspace.ran("schedules of chance keep the law", "run", "--quiet", *SIMULATION, "--", *LIMITS)
    yield workspace.ran("those of a fleet do", "run", "--quiet", *SIMULATION, "--", *FLEETS)
    yield workspace.ran("those of a store in a folder do", "run", "--quiet", *SIMULATION, "--", *FOLDERS)
    yield workspace.ran("those of a server do", "run", "--quiet", *SIMULATION, "--", *SERVERS)
    yield workspace.ran("those of a server of one process do", "run", "--quiet", *SIMULATION, "--", *ALONE)
    seed = str(new_seed())
    limits = ("--seed", seed, "--schedules", str(APART), "--processor-seconds", NEW_SECONDS, "--seconds", NEW_TIME)
    yield workspace.ran(f"new ones from seed {seed} on do", "run", "--quiet", *SIMULATION, "--", *limits)
    yield drawn()
    yield tool("plants", *PLANTS)
