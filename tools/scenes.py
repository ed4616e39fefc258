"""The contents of the pictures of docs/pictures: tools/pictures makes each of them by its function here.

`untrue` compares the stands, the servers that execute in each, and the keys of the store with the sources, so a picture
can't go on to show something that the code no longer does."""
import re

import sources
from sheet import WIDTH, Sheet

# A stand: its name, the servers that it names, and the row of each. The first server named is the owner.
LIFE = {
    "Vacant": ("", [("", "nobody executes")]),
    "Serving": ("A", [("executes", "A executes")]),
    "Prepared": ("AB", [("executes", "A executes"), ("prepared", "B prepares")]),
    "Forwarding": ("AB", [("forwards", "A forwards"), ("receives", "B executes what A forwards")]),
    "Taken": ("BA", [("forwards", "A forwards what still comes"), ("executes", "B executes")]),
    "Paused": ("A", [("paused", "nobody")]),
}
# The changes from stand to stand.
CHANGES = [
    ("Vacant", "Assign", "Serving"),
    ("Serving", "PrepareAddShard", "Prepared"),
    ("Prepared", "PrepareDropShard", "Forwarding"),
    ("Forwarding", "AddShard", "Taken"),
    ("Taken", "DropShard", "Serving"),
    ("Prepared", "Cancel", "Serving"),
    ("Forwarding", "Cancel", "Serving"),
    ("Serving", "Pause", "Paused"),
    ("Paused", "Resume", "Serving"),
    ("Paused", "Reassign", "Serving"),
]
# Keys of the store and their meanings: the keys that go with their process's lease, and those that stay.
LEASED = [
    ("server/N", "a process is there, and how far it has read"),
    ("ack/SHARD/N", "up to which record it let go of a shard"),
    ("leader", "the process that sends commands"),
]
STAYING = [
    ("settings", "shards, servers and caps"),
    ("record/SHARD", "the shard's stand: who executes"),
    ("state/N", "up, asked, approved, stopped or failed"),
    ("drain/N", "its shards are to go elsewhere"),
    ("home/SHARD", "the server to which it comes home"),
    ("head/SHARD", "how long the shard's log is"),
    ("batch/, base/", "the log's requests, and what they left"),
]
# The store's other keys, which are not drawn.
OTHERS = {"process", "ran", "lowest", "commands", "drained", "load", "snapshot"}


def written(change):
    """Returns a change as scripts write it."""
    return re.sub(r"(?<!^)(?=[A-Z])", "_", change.removesuffix("Shard")).lower()


def executors(rules):
    """Yields each stand of these rules, with the server that executes and the one that forwards, by their letters."""
    forwards = dict(re.findall(r"(?m)^forward_at \((\w+) .*\) server = if (\w+) ==", rules))
    for name, named, who in re.findall(r"(?m)^executor_of \(?(\w+) ?([a-z ]*)\)? = (?:Some (\w+)|None)", rules):
        letters = dict(zip(named.split(), LIFE[name][0])) if name in LIFE else {}
        yield name, letters.get(who, ""), letters.get(forwards.get(name), "")


def drawn_executors():
    """Yields each stand that is drawn, with the letters of the servers that execute and forward."""
    for name, (_, rows) in LIFE.items():
        of_role = lambda roles, rows=rows: "".join(words[0] for role, words in rows if role in roles)
        yield name, of_role(("executes", "receives")), of_role(("forwards",))


def untrue():
    """Yields each statement of a picture that the sources contradict."""
    rules = (sources.CRATES / "sm_ownership/specs/Rules.antt").read_text(encoding="utf-8")
    changes = re.findall(r"(?m)^stand_after \(?(\w+)[a-z ]*\)? \(?(\w+)[a-z ]*\)? = .*?Some \((\w+)", rules)
    table = (sources.TOP / "driver/src/keys.rs").read_text(encoding="utf-8")
    keys_of = lambda texts: {it.split("/")[0] for text in texts for it in text.split(", ")}
    for what, drawn, told in [
        ("changes of stands", CHANGES, changes),
        ("executors of stands", drawn_executors(), executors(rules)),
        (
            "keys",
            keys_of(it[0] for it in LEASED + STAYING) | OTHERS,
            keys_of(re.findall(r"(?m)^//! \| `([^`]+)`", table)),
        ),
    ]:
        for it in sorted(set(drawn) ^ set(told)):
            yield f"scenes.py and the sources differ in the {what}: {it}"


def stand(sheet, x, y, width, name, servers=""):
    """Draws a box for this stand, in which these servers take the places of A and B. Returns the lower end of the
    box."""
    rows = [(kind, words.translate(str.maketrans("AB", servers or "AB"))) for kind, words in LIFE[name][1]]
    return sheet.box(x, y, width, [("name", name), *rows])


def shard_life():
    """A shard's stands, from the first owner to the next one."""
    sheet = Sheet(
        "shard-life",
        542,
        "A shard's life",
        "A shard is vacant until it is assigned to server A. While it is Serving, A executes. A migration to server"
        " B goes through Prepared, where A executes; Forwarding, where B executes only what A forwards; and Taken,"
        " where B executes and A forwards what still comes; then B serves. A cancel in Prepared or Forwarding has A"
        " serve again. A paused shard has no executor until it is resumed at A or reassigned to B. Each stand has at"
        " most one executor.",
    )
    middle, right, rows = 120, 244, [8, 92, 176, 280, 384, 488]
    names = ["Vacant", "Serving", "Prepared", "Forwarding", "Taken"]
    ends = [stand(sheet, 8, y, right - 8, name) for y, name in zip(rows, names)]
    stand(sheet, 8, rows[5], right - 8, "Serving", "BA")
    for end, y, (_, change, _) in zip(ends, rows[1:], CHANGES):
        sheet.arrow([(middle, end), (middle, y)])
        sheet.text(middle + 10, (end + y) / 2 + 5, written(change))
    stand(sheet, 350, rows[1], 102, "Paused")
    sheet.arrow([(right, 106), (350, 106)])
    sheet.text(297, 101, "pause", anchor="middle")
    sheet.arrow([(350, 126), (right, 126)])
    sheet.text(297, 121, "resume", anchor="middle")
    sheet.line([(right, 315), (270, 315), (270, 211)])
    sheet.arrow([(right, 211), (270, 211), (270, 138), (right, 138)])
    sheet.text(280, 232, "cancel:")
    sheet.text(280, 250, "A serves on")
    sheet.arrow([(430, 142), (430, 513), (right, 513)])
    sheet.text(420, 400, "reassign to B:", anchor="end")
    sheet.text(420, 418, "by hand, or", anchor="end")
    sheet.text(420, 436, "if A has failed", anchor="end")
    return sheet


# The lanes of a migration: the client, the owner, the next owner, the control, and the beginning of its boxes.
CLIENT, OWNER, NEXT, CONTROL, BOXES = 34, 136, 250, 392, 332
# Half of the width of a bar.
HALF = 10
# The writes of the control and their places, the acks of servers, the roles of servers with their times, and the
# servers by which calls go.
COMMANDS = [
    (92, "prepare_add", "Prepared"),
    (178, "prepare_drop", "Forwarding"),
    (312, "add", "Taken"),
    (432, "drop", "Serving"),
]
ACKS = [(164, [NEXT], "ack: prepared"), (260, [OWNER], "ack: let go"), (418, [OWNER, NEXT], "all have read")]
PARTS = [
    (OWNER, "executes", 46, 214),
    (OWNER, "forwards", 214, 457),
    (NEXT, "prepared", 117, 238),
    (NEXT, "receives", 238, 337),
    (NEXT, "executes", 337, 532),
]
CALLS = [(64, "call", [OWNER]), (286, "call", [OWNER, NEXT]), (382, "call", [OWNER, NEXT]), (502, "new map", [NEXT])]


def command(sheet, y, word, to):
    """Draws a command of the control, and that both servers read the record that it writes."""
    middle = y + 25
    for tip in (NEXT + HALF, OWNER + HALF):
        sheet.arrow([(BOXES, middle), (tip, middle)])
    sheet.box(BOXES, y, 2 * (CONTROL - BOXES), [("name", word), ("", to)])


def ack(sheet, y, lanes, words):
    """Draws that servers tell the control how far they are."""
    sheet.arrow([(min(lanes) + HALF, y), (CONTROL, y)])
    sheet.text(NEXT + HALF + 8, y - 5, words)
    for lane in lanes:
        sheet.line([(lane, y), (lane + HALF, y)])


def call(sheet, y, words, servers):
    """Draws a call that goes by these servers to the last one, which executes it, and the answer's way back."""
    first, last = servers[0], servers[-1]
    sheet.text(CLIENT + 10, y - 5, words)
    sheet.arrow([(CLIENT, y), (first - HALF, y)])
    if last != first:
        sheet.arrow([(first + HALF, y), (last - HALF, y)], "hop")
    sheet.dot(last, y)
    sheet.arrow([(last - HALF, y + 14), (CLIENT, y + 14)])


def lanes_of_migration(sheet, bottom):
    """Draws who takes part."""
    heads = [("client", "old map"), ("server 1", "owner"), ("server 2", "next owner"), ("control", "writes records")]
    for x, (name, below) in zip((CLIENT, OWNER, NEXT, CONTROL), heads):
        sheet.text(x, 18, name, "name", "middle")
        sheet.text(x, 34, below, "note", "middle")
        sheet.line([(x, 42), (x, bottom)], "life")


def graceful_migration():
    """A shard's way from server 1 to server 2, as a sequence."""
    sheet = Sheet(
        "graceful-migration",
        596,
        "A graceful migration from server 1 to server 2",
        "Time goes down. The control writes each change as the shard's record, which both servers read. After"
        " prepare_add server 1 executes, and server 2 prepares and acks. The control waits for that ack before"
        " prepare_drop. Then server 1 stops executing, hands the body to server 2, acks, and forwards calls of"
        " clients with the old map; server 2 executes only these. The control waits for server 1's ack before add."
        " Then server 2 owns the shard, and server 1 forwards what still comes. Once all servers have read that, the"
        " control makes drop.",
    )
    lanes_of_migration(sheet, 532)
    for y, word, to in COMMANDS:
        command(sheet, y, word, to)
    for y, lanes, words in ACKS:
        ack(sheet, y, lanes, words)
    for lane, role, top, bottom in PARTS:
        sheet.rect(lane - HALF, top, 2 * HALF, bottom - top, role)
    sheet.arrow([(OWNER + HALF, 234), (NEXT - HALF, 234)], "thick")
    sheet.text((OWNER + NEXT) / 2, 226, "the body", anchor="middle")
    sheet.text(CLIENT + 10, 234, "calls wait")
    for y, words, servers in CALLS:
        call(sheet, y, words, servers)
    for x, y, role, words in [
        (8, 560, "executes", "executes"),
        (142, 560, "receives", "executes what is forwarded"),
        (8, 584, "prepared", "prepares"),
        (142, 584, "forwards", "forwards"),
    ]:
        sheet.row(x, y, WIDTH - 8, role, words)
    return sheet


# The contents of each layer: a heading and its meaning.
TESTED = [
    ("server/", "Redis' protocol, commands"),
    ("fleet/", "your service's calls, bodies"),
    ("control/", "links, drains, who leads"),
    ("driver/", "reads, sends, keeps leases"),
    ("store/", "etcd's client, SQLite"),
    ("enough memory", "then no call gives up"),
]
PROVED = [
    ("who executes", "sm_ownership, sm_rule"),
    ("each transaction", "sm_shard, sm_lead"),
    ("each reply", "sm_map, sm_body"),
    ("permits by leases", "sm_permit"),
    ("caps and room", "sm_tasks, sm_place"),
    ("each call is safe", "no bad index, no overflow"),
]
TRUSTED = [
    ("the toolchain", "rt, and crates of its kit"),
    ("the definitions", "they say what is meant"),
    ("the machine", "system, C library"),
    ("the store", "etcd, or SQLite, the disk"),
    ("clocks", "if leases decide"),
    ("the driver", "it tells what it read"),
]


def layer(sheet, y, kind, name, parts):
    """Draws a layer, with two of its parts beside each other. Returns the lower end of the layer."""
    width = (WIDTH - 36) / 2
    sheet.text(20, y + 12, name, "name")
    for at, (head, told) in enumerate(parts):
        sheet.box(20 + at % 2 * (width + 8), y + 22 + at // 2 * 58, width, [("name", head), ("note", told)])
    height = 22 + 58 * ((len(parts) + 1) // 2) - 8
    sheet.rect(6, y, 6, height, kind)
    return y + height


def trust():
    """The parts that are proved, the parts that are only tested, and the parts that are trusted."""
    sheet = Sheet(
        "trust",
        650,
        "What is proved, what is only tested, and what is trusted",
        "Three layers. Only tested is the ordinary Rust of server/, fleet/, control/, driver/ and store/, and that"
        " no call gives up if there is enough memory. It asks proved crates who executes, what a transaction"
        " compares and writes, each reply, permits by leases, caps and room, and that each call is safe. Both rest"
        " on what is trusted: the toolchain, the definitions, the machine, the store, clocks if leases decide, and"
        " that the driver tells the proved code what it read.",
    )
    end = 8
    for kind, name, parts, below in [
        ("held", "Only tested", TESTED, "asks who executes, what to write and reply"),
        ("base", "Proved", PROVED, "rests on"),
        ("point", "Trusted", TRUSTED, ""),
    ]:
        end = layer(sheet, end, kind, name, parts)
        if below:
            sheet.arrow([(40, end + 4), (40, end + 30)])
            sheet.text(54, end + 21, below)
        end += 34
    return sheet


# The places of processes, and how wide they are.
PROCESSES, PROCESS = [8, 172, 336], 116


def processes_above(sheet):
    """Draws clients, and the processes that they call."""
    sheet.box(170, 8, 120, [("name", "clients")])
    sheet.text(300, 28, "call any process")
    sheet.arrow([(8, 20), (34, 20)], "hop")
    sheet.text(42, 16, "calls, and")
    sheet.text(42, 33, "commands, go on")
    for at, x in enumerate(PROCESSES):
        middle, told = x + PROCESS / 2, "also leads" if at == 1 else "may lead"
        sheet.arrow([(230 + (at - 1) * 40, 38), (middle, 84)])
        sheet.box(x, 84, PROCESS, [("name", f"process {at + 1}"), ("executes", f"server {at + 1}"), ("note", told)])
        sheet.arrow([(middle - 10, 154), (middle - 10, 214)])
        sheet.arrow([(middle + 10, 214), (middle + 10, 154)])
    for x in PROCESSES[:2]:
        sheet.arrow([(x + PROCESS, 112), (x + 164, 112)], "hop")
        sheet.arrow([(x + 164, 126), (x + PROCESS, 126)], "hop")
    for x, y, words in [
        (148, 180, "\u2193 transactions"),
        (148, 198, "\u2193 kept leases"),
        (312, 189, "\u2191 watches"),
    ]:
        sheet.text(x, y, words, anchor="middle")


def keys(sheet, y, told, rows):
    """Draws a group of keys and their meanings. Returns the lower end of the group."""
    sheet.text(18, y, told, "note")
    sheet.rect(18, y + 8, WIDTH - 36, 20 * len(rows) + 10, "group")
    for at, (key, means) in enumerate(rows):
        sheet.row(26, y + 20 * at + 27, 150, "name", key)
        sheet.row(150, y + 20 * at + 27, WIDTH - 20, "", means)
    return y + 20 * len(rows) + 18


def processes():
    """Three processes over etcd."""
    sheet = Sheet(
        "processes",
        530,
        "Three processes over etcd",
        "Clients call any process. Each process runs a server, and passes on to the other processes the calls that"
        " another server executes, and commands for the process that leads. All keep their leases, send transactions"
        " to etcd and watch its keys. With a process's lease go its keys: that it is there, up to which record of a"
        " shard it let go, and that it leads. The settings, each shard's record, log and base, the servers' states,"
        " and which drains and ways home are under way, stay.",
    )
    processes_above(sheet)
    sheet.rect(8, 214, WIDTH - 16, 308, "box")
    sheet.text(18, 234, "etcd", "name")
    sheet.text(58, 234, "makes each write by a majority of its members")
    end = keys(sheet, 258, "With a process's lease go:", LEASED)
    keys(sheet, end + 20, "These stay:", STAYING)
    return sheet


# The lanes of servers in a rolling restart, and half of the width of each.
LANES, SIDE = [206, 296, 386], 36
# The bars of a lane: the lane, the kind, the words, the beginning and the end, and whether the bar has the whole lane,
# its left half or its right half.
BARS = [
    (0, "executes", "of 1", 44, 150, "whole"),
    (1, "executes", "of 2", 44, 140, "whole"),
    (2, "executes", "of 3", 44, 140, "whole"),
    (1, "executes", "of 1", 140, 264, "right"),
    (2, "executes", "of 1", 140, 264, "right"),
    (1, "executes", "of 2", 140, 282, "left"),
    (2, "executes", "of 3", 140, 374, "left"),
    (0, "away", "away", 166, 216, "whole"),
    (0, "executes", "of 1", 264, 374, "left"),
    (0, "executes", "of 2", 282, 374, "right"),
    (2, "executes", "of 2", 282, 374, "right"),
    (1, "away", "away", 306, 356, "whole"),
    (0, "executes", "of 1", 374, 410, "whole"),
    (1, "executes", "of 2", 374, 410, "whole"),
    (2, "executes", "of 3", 374, 410, "whole"),
]
# The steps, line by line.
STEPS = [
    (64, "all serve"),
    (96, "1 and 2 are asked"),
    (112, "1 is approved"),
    (146, "shards of 1 move"),
    (184, "1 is stopped,"),
    (200, "and begun anew"),
    (226, "1 is back,"),
    (242, "2 is approved"),
    (274, "shards of 1 come"),
    (290, "home, of 2 move"),
    (324, "2 is stopped,"),
    (340, "and begun anew"),
    (370, "2 is back, and"),
    (386, "its shards"),
]


def restarts_in_turn():
    """A rolling restart: which servers are away and when, on which servers the shards are meanwhile, and which cap
    makes a server wait."""
    sheet = Sheet(
        "restarts-in-turn",
        506,
        "Restarts of two servers, in turn",
        "Time goes down. Restarts of servers 1 and 2 are asked for at once. Server 1 is approved. Server 2 waits by"
        " GlobalCap, because ops is 1, so at most one server may be approved, stopped or failed. The shards of"
        " server 1 move to servers 2 and 3; it is stopped, and begun anew. Once it is back, server 2 is approved:"
        " the shards of server 1 come home, those of server 2 move to servers 1 and 3, and it is stopped, begun"
        " anew, and gets its shards back.",
    )
    for at, middle in enumerate(LANES):
        sheet.text(middle, 18, f"server {at + 1}", "name", "middle")
        sheet.line([(middle - SIDE, 30), (middle - SIDE, 416)], "life")
        sheet.line([(middle + SIDE, 30), (middle + SIDE, 416)], "life")
    for lane, role, words, top, bottom, part in BARS:
        left = LANES[lane] - SIDE + (SIDE if part == "right" else 0)
        width = SIDE * (2 if part == "whole" else 1)
        sheet.rect(left, top, width, bottom - top, role)
        sheet.text(left + width / 2, top + 18, words, "lit" if role == "executes" else "", "middle")
    sheet.rect(LANES[1] + SIDE + 3, 86, 6, 148, "held")
    for y, words in STEPS:
        sheet.text(8, y, words)
    sheet.row(8, 440, WIDTH - 8, "executes", "executes; of 1: the shards whose home is server 1")
    sheet.row(8, 462, WIDTH - 8, "held", "waits (GlobalCap): ops is 1, so one server at most")
    sheet.text(34, 478, "may be approved, stopped or failed at a time")
    sheet.row(8, 500, WIDTH - 8, "away", "away: its process ends, and the next one begins")
    return sheet


SCENES = [shard_life, graceful_migration, trust, processes, restarts_in_turn]
