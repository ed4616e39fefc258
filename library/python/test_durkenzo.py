"""Tests of the Python face of the library."""
import contextlib
import gc
import pathlib
import pydoc
import sqlite3
import subprocess
import sys
import tempfile
import threading
import time
import unittest
from unittest import mock

import durkenzo
from durkenzo import Board, Layout, Map, Phase, Plan, Reply, ReplyKind, Request, Sent, Service
from durkenzo._library import LIBRARY, Handle


class Counter:
    def __init__(self):
        self.count = 0


class Boards(unittest.TestCase):
    def test_a_migration_step_by_step(self):
        board = Board([[], []], servers=3)
        with board.new_pass(1) as one, board.new_pass(2) as two:
            with self.assertRaises(durkenzo.NobodyOwns) as refused:
                one.admit(0)
            self.assertEqual(refused.exception.record.phase, Phase.VACANT)
            board.control.assign(0, 1)
            with one.admit(0) as permit:
                permit.body.append(1)
                with self.assertRaises(durkenzo.Busy) as busy:
                    board.control.pause(0)
                self.assertTrue(busy.exception.record.admitted)
                self.assertRaises(durkenzo.WrongHandle, one.admit, 0)
            self.assertRaises(durkenzo.NotAdmitted, lambda: permit.body)
            self.assertRaises(durkenzo.NotAdmitted, permit.finish)
            board.control.prepare_add_shard(0, 2)
            board.control.prepare_drop_shard(0)
            self.assertRaises(durkenzo.NotYet, two.admit, 0)
            with two.admit(0, forwarded_by=1) as permit:
                permit.body.append(2)
            board.control.add_shard(0)
            board.control.drop_shard(0)
            self.assertEqual((two.look(0).phase, two.look(0).owner), (Phase.SERVING, 2))
            self.assertEqual(two.run(0, list), [1, 2])
            self.assertRaises(durkenzo.UnknownShard, two.look, 2)

    def test_keys_have_shards(self):
        layout = Layout([b"", b"g", b"n"])
        self.assertEqual([layout.shard_of(it) for it in (b"", b"fz", b"g", b"m\xff", b"n", b"z")], [0, 0, 1, 1, 2, 2])
        self.assertEqual([layout.range(it) for it in range(3)], [(b"", b"g"), (b"g", b"n"), (b"n", None)])
        self.assertRaises(durkenzo.UnknownShard, layout.range, 3)
        for fault, bounds in {
            durkenzo.NoBound: [],
            durkenzo.FirstNotEmpty: [b"a"],
            durkenzo.NotRising: [b"", b"b", b"b"],
            durkenzo.BoundTooLong: [b"", bytes(range(1, 256)) + b"a"],
            durkenzo.TooMany: [b"", *(b"%04d" % it for it in range(4096))],
        }.items():
            self.assertRaises(fault, Layout, bounds)

    def test_notes_are_told_once(self):
        board, other = Board([None], servers=2), Board([None], servers=1)
        with board.new_pass(1) as one, board.new_pass(2) as two, other.new_pass(1) as stranger:
            note = one.note()
            self.assertRaises(durkenzo.BadArgument, stranger.meet, note)
            two.meet(note)
            self.assertRaises(durkenzo.WrongHandle, two.meet, note)
            for none in (one, two, board):
                self.assertRaises(durkenzo.BadArgument, one.meet, none)
            self.assertEqual([it.look(0).phase for it in (one, two)], [Phase.VACANT, Phase.VACANT])

    def test_plans(self):
        board = Board([[], [], []], servers=2)
        board.control.assign(1, 2)
        self.assertEqual(board.control.plan_assign(), Plan([(0, 1), (2, 1)], []))
        self.assertEqual(board.control.plan_drain(2), Plan([(1, 1)], []))
        self.assertRaises(durkenzo.UnknownServer, board.control.plan_drain, 3)

    def test_an_exception_ends_the_admission(self):
        board = Board([Counter()], servers=1)
        board.control.assign(0, 1)
        with board.new_pass(1) as one:
            with self.assertRaises(ZeroDivisionError):
                with one.admit(0) as permit:
                    token = permit.token
                    _ = 1 // 0
            with one.admit(0) as permit:
                self.assertGreater(permit.token, token)

    def test_a_permit_ends_with_its_pass(self):
        board = Board([Counter()], servers=1)
        board.control.assign(0, 1)
        one = board.new_pass(1)
        closed = one.admit(0)
        one.close()
        with board.new_pass(1) as left:
            out = left.admit(0)
            self.assertIsInstance(out.body, Counter)
        with board.new_pass(1) as two, two.admit(0) as permit:
            for ended in (closed, out):
                self.assertRaises(durkenzo.NotAdmitted, lambda: ended.body)
                self.assertRaises(durkenzo.NotAdmitted, lambda: ended.generation)
                self.assertRaises(durkenzo.NotAdmitted, lambda: ended.token)
                self.assertRaises(durkenzo.NotAdmitted, ended.finish)
            self.assertIsInstance(permit.body, Counter)
            two.close()
            self.assertRaises(durkenzo.NotAdmitted, lambda: permit.body)
        self.assertRaises(durkenzo.WrongHandle, one.admit, 0)

    def test_the_token_fences_late_writes(self):
        board = Board([None], servers=2)
        board.control.assign(0, 1)
        store = sqlite3.connect(":memory:")
        store.execute("CREATE TABLE accounts (shard INTEGER, balance INTEGER, token INTEGER)")
        store.execute("INSERT INTO accounts VALUES (0, 0, 0)")

        def put(balance, token):
            change = "UPDATE accounts SET balance = ?1, token = ?2 WHERE shard = 0 AND token <= ?2"
            return store.execute(change, (balance, token)).rowcount

        with board.new_pass(1) as one, board.new_pass(2) as two:
            with one.admit(0) as permit:
                old = permit.token
                self.assertEqual(put(10, old), 1)
            board.control.migrate(0, 2)
            with two.admit(0) as permit:
                self.assertEqual(put(20, permit.token), 1)
            self.assertEqual(put(30, old), 0)
        self.assertEqual(store.execute("SELECT balance FROM accounts").fetchall(), [(20,)])

    def test_bodies_are_given_back(self):
        bodies = [["a"], ["b"]]
        board = Board(bodies, servers=1)
        board.control.assign(1, 1)
        one = board.new_pass(1)
        with one.admit(1) as permit:
            permit.body.append("c")
        self.assertRaises(durkenzo.PassOpen, board.into_bodies)
        self.assertEqual(one.run(1, len), 2)
        one.close()
        with contextlib.suppress(ZeroDivisionError), board.new_pass(1):
            _ = 1 // 0
        board.new_pass(1)
        gc.collect()
        given = board.into_bodies()
        self.assertEqual(given, [["a"], ["b", "c"]])
        self.assertIs(given[0], bodies[0])
        for call in (board.into_bodies, lambda: board.new_pass(1), lambda: board.control.assign(0, 1)):
            self.assertRaises(durkenzo.WrongHandle, call)

    def test_a_board_ends_with_its_block(self):
        with Board([0], servers=1) as board, Service(Layout([b""]), servers=1) as service, Map() as held:
            board.control.assign(0, 1)
            service.control.assign(0, 1)
            held.put(b"a", b"b")
        for call in (lambda: board.new_pass(1), lambda: service.new_pass(1), lambda: held.get(b"a")):
            self.assertRaises(durkenzo.WrongHandle, call)

    def test_tokens_begin_after_what_came_before(self):
        greatest = (1 << 63) - (1 << 36)
        for after in (0, 200, greatest):
            for board in (Board([None], servers=1, after=after), Board.by_settings(SETTINGS, [1, 2], after)[0]):
                board.control.assign(0, 1)
                with board.new_pass(1) as one, one.admit(0) as permit:
                    self.assertEqual(permit.token, after + permit.generation)
                    self.assertGreater(permit.token, after)
        for after in (greatest + 1, (1 << 64) - 1, 1 << 64, -1):
            self.assertRaises(durkenzo.BadAfter, Board, [None], servers=1, after=after)
            self.assertRaises(durkenzo.BadAfter, Board.by_settings, SETTINGS, [1, 2], after)

    def test_two_processes_lose_no_write(self):
        program = pathlib.Path(__file__).with_name("fenced.py")
        with tempfile.TemporaryDirectory() as room:

            def write(*words):
                command = [sys.executable, program, f"{room}/store", *words]
                return subprocess.run(command, capture_output=True, text=True)

            self.assertEqual(write("100").stdout, "the accounts have 100\n")
            self.assertEqual(write("60").stdout, "the accounts have 160\n")
            late = write("60", "0")
            self.assertEqual((late.returncode, late.stdout), (1, ""))
            self.assertIn("LateWrite: account 0 has a later token than 2", late.stderr)

    def test_a_board_has_passes_of_its_servers(self):
        for board in (Board([None], servers=2), Service(Layout([b""]), servers=2)):
            board.new_pass(2).close()
            for stranger in (3, 4095):
                self.assertRaises(durkenzo.UnknownServer, board.new_pass, stranger)
            for none in (0, 4096):
                self.assertRaises(durkenzo.BadArgument, board.new_pass, none)

    def test_sizes_and_restarts(self):
        self.assertRaises(durkenzo.NoShard, Board, [], servers=1)
        self.assertRaises(durkenzo.TooMany, Board, range(4097), servers=1)
        self.assertRaises(durkenzo.BadCeiling, Board, [0], servers=1, ceiling=2)
        self.assertRaises(durkenzo.BadBooks, Board, [0], servers=0)
        self.assertRaises(durkenzo.BadBooks, Service, Layout([b""]), servers=0)
        control = Board([0], servers=2).control
        control.ask(1)
        control.ask(2)
        control.approve(1)
        self.assertRaises(durkenzo.GlobalCap, control.approve, 2)
        self.assertRaises(durkenzo.Leaving, control.assign, 0, 1)

    def test_threads_count_without_a_lock(self):
        board = Board([Counter() for _ in range(8)], servers=4)
        for shard in range(8):
            board.control.assign(shard, shard % 4 + 1)
        done = [0] * 4

        def serve(thread):
            with board.new_pass(thread + 1) as mine:
                for turn in range(20000):
                    try:
                        with mine.admit(turn % 8) as permit:
                            count = permit.body.count
                            permit.body.count = count + 1
                            done[thread] += 1
                    except (durkenzo.NotExecutor, durkenzo.NotYet, durkenzo.IsAdmitted, durkenzo.Raced):
                        pass

        threads = [threading.Thread(target=serve, args=(it,)) for it in range(4)]
        for it in threads:
            it.start()
        for turn in range(200):
            try:
                board.control.migrate(turn % 8, turn // 8 % 4 + 1)
            except durkenzo.SameServer:
                pass
        for it in threads:
            it.join()
        with board.new_pass(1) as look:
            counts = 0
            for shard in range(8):
                board.control.pause(shard)
                board.control.reassign(shard, 1) if look.look(shard).owner != 1 else board.control.resume(shard)
                counts += look.run(shard, lambda body: body.count)
        self.assertEqual(counts, sum(done))
        self.assertGreater(counts, 0)


class Numbers(unittest.TestCase):
    """A number that its C type doesn't have is refused, and isn't taken for another number."""

    def setUp(self):
        self.board = Board(["zero", "one"], servers=2)
        self.board.control.assign(0, 1)

    def test_of_shards(self):
        control, layout = self.board.control, Layout([b"", b"n"])
        service = durkenzo.Service(layout, servers=1)
        service.control.assign(0, 1)
        with self.board.new_pass(1) as one, service.new_pass(1) as serving:
            for zero in (1 << 16, -(1 << 16)):
                for call in (one.look, one.admit, serving.look, serving.checkpoint, layout.range, control.pause):
                    self.assertRaises(durkenzo.UnknownShard, call, zero)
            self.assertRaises(durkenzo.UnknownShard, control.assign, (1 << 16) + 1, 1)
            self.assertEqual([one.look(it).phase for it in (0, 1)], [Phase.SERVING, Phase.VACANT])

    def test_of_servers(self):
        control = self.board.control
        with self.board.new_pass(2) as two:
            for one in ((1 << 16) + 1, 1 - (1 << 16)):
                for call in (control.ask, control.fail, control.plan_drain, self.board.new_pass):
                    self.assertRaises(durkenzo.BadArgument, call, one)
                self.assertRaises(durkenzo.BadArgument, control.assign, 1, one)
                self.assertRaises(durkenzo.BadArgument, two.admit, 0, one)
            self.assertRaises(durkenzo.BadArgument, control.plan_drain, 1 << 16)
            self.assertEqual(two.look(1).phase, Phase.VACANT)

    def test_of_sizes(self):
        layout = Layout([b""])
        for one in ((1 << 16) + 1, 1 - (1 << 16)):
            for sizes in ({"servers": one}, {"servers": 1, "restarts": one}):
                self.assertRaises(durkenzo.BadArgument, Board, [0], **sizes)
                self.assertRaises(durkenzo.BadArgument, durkenzo.Service, layout, **sizes)
        for thousand in ((1 << 64) + 1000, 1000 - (1 << 64)):
            self.assertRaises(durkenzo.BadCeiling, Board, [0], servers=1, ceiling=thousand)
            self.assertRaises(durkenzo.BadCeiling, durkenzo.Service, layout, servers=1, ceiling=thousand)
            self.assertRaises(durkenzo.BadArgument, durkenzo.Service, layout, servers=1, kept=thousand)

    def test_of_envelopes(self):
        service, get = durkenzo.Service(Layout([b""]), servers=2), Request.get(b"a")
        with service.new_pass(2) as two:
            wide = [(1 << 64, 0), (-1, 0), (1, 1 << 16), (1, 0, 1 << 16), (1, 0, (1 << 16) + 1, 1), (1, 0, 1, 257)]
            for parts in wide:
                self.assertRaises(durkenzo.BadArgument, two.received, Sent(*parts), get)
                self.assertRaises(durkenzo.BadArgument, Sent(*parts).to_bytes)
            self.assertRaises(durkenzo.BadArgument, two.envelope, 1 << 64, get)
            for request in (Request((1 << 8) + 1, b"a"), Request.add(b"a", (1 << 64) + 1), Request.add(b"a", -1 << 64)):
                self.assertRaises(durkenzo.BadArgument, two.envelope, 1, request)
        self.assertRaises(durkenzo.BadArgument, Map().scan, b"a", b"z", (1 << 64) + 1)
        self.assertRaises(durkenzo.CountOverflow, Map().add, b"a", (1 << 64) + 1)


class Routes(unittest.TestCase):
    def test_routes_never_go_back(self):
        board, publisher = Board(["zero", "one"], servers=2), durkenzo.Publisher(2)
        router = publisher.new_router()
        with board.new_pass(1) as one:
            self.assertRaises(durkenzo.WrongPhase, publisher.publish, one, 0)
            self.assertRaises(durkenzo.UnknownShard, publisher.publish, one, 2)
            board.control.assign(0, 1)
            first = durkenzo.Route(server=1, generation=1)
            self.assertEqual(publisher.publish(one, 0), first)
            self.assertRaises(durkenzo.OldRoute, publisher.publish, one, 0)
            board.control.migrate(0, 2)
            self.assertEqual(router.route(0), first)
            following = publisher.publish(one, 0)
            self.assertEqual((following.server, router.route(0)), (2, following))
        publisher.close()
        self.assertEqual([router.route(it) for it in (0, 1, 2)], [following, None, None])
        for number in (4_096, 1 << 16, -1):
            self.assertRaises(durkenzo.UnknownShard, router.route, number)
        router.close()
        self.assertRaises(durkenzo.WrongHandle, router.route, 0)
        self.assertRaises(durkenzo.WrongHandle, publisher.new_router)

    def test_sizes(self):
        self.assertRaises(durkenzo.NoShard, durkenzo.Publisher, 0)
        self.assertRaises(durkenzo.TooMany, durkenzo.Publisher, 4_097)
        self.assertRaises(durkenzo.BadArgument, durkenzo.Publisher, -1)
        board, publisher = Board([0] * 3, servers=1), durkenzo.Publisher(2)
        board.control.assign(2, 1)
        with board.new_pass(1) as one:
            self.assertRaises(durkenzo.UnknownShard, publisher.publish, one, 2)

    def test_routes_rise_beside_a_publisher(self):
        board, publisher, rounds, failed = Board([0], servers=2), durkenzo.Publisher(1), 200, []
        board.control.assign(0, 1)

        def read():
            router, newest = publisher.new_router(), 0
            while newest <= 4 * rounds:
                if route := router.route(0):
                    self.assertLessEqual(newest, route.generation)
                    newest = route.generation

        with mock.patch("threading.excepthook", failed.append), board.new_pass(1) as one:
            readers = [threading.Thread(target=read) for _ in range(4)]
            for it in readers:
                it.start()
            for turn in range(rounds):
                publisher.publish(one, 0)
                board.control.migrate(0, 2 - turn % 2)
            publisher.publish(one, 0)
            for it in readers:
                it.join()
        self.assertEqual(failed, [])


class Maps(unittest.TestCase):
    def test_what_keys_hold(self):
        held = Map()
        self.assertIsNone(held.get(b"name"))
        held.put(b"name", b"durk")
        held.append(b"name", b"enzo")
        self.assertEqual((held.get(b"name"), held.add(b"visits", 3), held.add(b"visits", -5)), (b"durkenzo", 3, -2))
        self.assertEqual(held.scan(b"a", b"z"), [(b"name", b"durkenzo"), (b"visits", -2)])
        self.assertEqual((len(held), held.scan(b"a", b"z", 1)), (2, [(b"name", b"durkenzo")]))
        self.assertEqual((held.remove(b"name"), held.remove(b"name"), held.get(b"name")), (True, False, None))

    def test_refusals_change_nothing(self):
        held = Map()
        held.put(b"text", b"a")
        held.add(b"count", (1 << 63) - 1)
        self.assertRaises(durkenzo.WrongKind, held.add, b"text", 1)
        self.assertRaises(durkenzo.WrongKind, held.put, b"count", b"a")
        self.assertRaises(durkenzo.CountOverflow, held.add, b"count", 1)
        self.assertRaises(durkenzo.CountOverflow, held.add, b"count", 1 << 63)
        self.assertRaises(durkenzo.TextTooLong, held.put, b"text", bytes(65_536))
        self.assertRaises(durkenzo.KeyEmpty, held.get, b"")
        self.assertRaises(durkenzo.KeyTooLong, held.get, bytes(256))
        self.assertEqual((held.get(b"text"), held.get(b"count")), (b"a", (1 << 63) - 1))
        held.close()
        self.assertRaises(durkenzo.WrongHandle, held.get, b"text")


SETTINGS = (
    b'{"version":1,"bounds":["","n"],"servers":[{"id":1,"domain":0,"capacity":1},{"id":2,"domain":1,"capacity":2}],'
    b'"groups":[{"limit":2,"down":1}],"shards":[{"group":0,"load":1,"cap":1},{"group":0,"load":1,"cap":1}],'
    b'"ops":1,"kept":2,"ceiling":100,"workers":1}'
)


class Services(unittest.TestCase):
    def test_requests_are_answered_or_go_on(self):
        service = durkenzo.Service(Layout([b"", b"n"]), servers=2)
        service.control.assign(0, 1)
        service.control.assign(1, 1)
        with service.new_pass(1) as one, service.new_pass(2) as two:
            put = one.serve(one.envelope(7, Request.put(b"name", b"durk")))
            self.assertEqual((put.number, put.server, put.place, put.reply), (7, 1, 0, Reply(ReplyKind.DONE)))
            two.hear(put)
            self.assertRaises(durkenzo.WrongHandle, two.hear, put)
            for none in (two, one, one.envelope(0, Request.get(b"name"))):
                self.assertRaises(durkenzo.BadArgument, two.hear, none)
            for none in (one, put):
                self.assertRaises(durkenzo.BadArgument, one.serve, none)
            service.control.prepare_add_shard(1, 2)
            service.control.prepare_drop_shard(1)
            gone = one.serve(two.envelope(8, Request.scan(b"n", b"z")))
            self.assertEqual(
                (gone.to, gone.envelope.hops, gone.envelope.forwarded_by, gone.envelope.shard), (2, 1, 1, 1)
            )
            found = two.serve(gone.envelope)
            self.assertEqual(found.reply, Reply(ReplyKind.PAIRS, [(b"name", b"durk")]))
            refused = two.envelope(9, Request.add(b"visits", 2))
            with self.assertRaises(durkenzo.NotYet) as fault:
                two.serve(refused)
            self.assertEqual(fault.exception.record.phase, Phase.FORWARDING)
            self.assertEqual((refused.hops, refused.forwarded_by), (0, 0))
            self.assertRaises(durkenzo.KeyEmpty, one.envelope, 0, Request.get(b""))

    def test_envelopes_travel_as_bytes(self):
        service = durkenzo.Service(durkenzo.Layout([b""]), servers=2)
        service.control.assign(0, 1)
        service.control.prepare_add_shard(0, 2)
        service.control.prepare_drop_shard(0)
        request = Request.add(b"a", 1)
        with service.new_pass(1) as one, service.new_pass(2) as two:
            forward = one.serve(one.envelope(7, request))
            sent = durkenzo.Sent.from_bytes(forward.envelope.sent.to_bytes())
            self.assertEqual((forward.to, sent), (2, durkenzo.Sent(7, 0, 1, 1)))
            again = two.received(sent, request)
            self.assertEqual(again.sent, sent)
            self.assertEqual(two.serve(again).number, 7)
            for wrong in ((7, 0, 1, 0), (7, 0, 0, 1), (7, 0, 1, 5), (7, 4096, 1, 1), (7, 0, 4096, 1)):
                self.assertRaises(durkenzo.BadArgument, two.received, durkenzo.Sent(*wrong), request)
                text = durkenzo.Sent(*wrong).to_bytes()
                self.assertRaises(durkenzo.BadArgument, durkenzo.Sent.from_bytes, text)
        self.assertRaises(durkenzo.BadArgument, durkenzo.Sent.from_bytes, b"")

    def test_settings_open_a_board_of_own_bodies(self):
        board, layout = durkenzo.Board.by_settings(SETTINGS, ["one", "two"])
        self.assertEqual((len(board), len(layout), layout.shard_of(b"z")), (2, 2, 1))
        board.control.assign(0, 1)
        self.assertRaises(durkenzo.NoCapacity, board.control.assign, 1, 1)
        board.control.assign(1, 2)
        with board.new_pass(2) as two, two.admit(1) as permit:
            self.assertEqual(permit.body, "two")
        self.assertRaises(durkenzo.BadCount, durkenzo.Board.by_settings, SETTINGS, ["one"])
        self.assertRaises(durkenzo.BadSettings, durkenzo.Board.by_settings, b"", [])

    def test_settings_open_a_board(self):
        service = durkenzo.Service.by_settings(SETTINGS)
        self.assertEqual((len(service.layout), service.layout.shard_of(b"z")), (2, 1))
        service.control.assign(0, 1)
        self.assertRaises(durkenzo.NoCapacity, service.control.assign, 1, 1)
        service.control.assign(1, 2)
        with service.new_pass(1) as one:
            for count in (1, 2):
                self.assertEqual(one.serve(one.envelope(0, Request.add(b"a", 1))).reply.value, count)
            before = one.look(0).generation
            self.assertRaises(durkenzo.KeptFull, one.serve, one.envelope(0, Request.add(b"a", 1)))
            self.assertEqual(one.look(0).generation, before + 2)
            one.checkpoint(0)
            self.assertEqual(one.serve(one.envelope(0, Request.add(b"a", 1))).reply.value, 3)
        for line, rule in ((b"", "BadJson"), (SETTINGS.replace(b"100", b"2"), "BadCeiling")):
            with self.assertRaises(durkenzo.BadSettings) as fault:
                durkenzo.Service.by_settings(line)
            self.assertEqual(fault.exception.rule, rule)


class Names(unittest.TestCase):
    def test_what_is_public_is_there_and_told(self):
        told = pydoc.plain(pydoc.render_doc(durkenzo))
        for name in durkenzo.__all__:
            self.assertTrue(hasattr(durkenzo, name))
            self.assertIn(name, told)
        for it in durkenzo.DurkenzoError.__subclasses__():
            self.assertIn(it.__name__, durkenzo.__all__)
            self.assertIn(f"class {it.__name__}(", told)

    def test_of_the_version(self):
        version = pathlib.Path(__file__).resolve().parent.parent.parent / "VERSION"
        self.assertEqual(durkenzo.__version__, version.read_text(encoding="utf-8").strip())

    def test_of_codes(self):
        error = durkenzo.errors.error_of(9_999, None)
        self.assertEqual((type(error), error.code), (durkenzo.OtherCode, 9_999))
        with mock.patch.object(LIBRARY, "durkenzo_open_settings", lambda *given: 83):
            self.assertRaises(durkenzo.OtherCode, Service.by_settings, SETTINGS)

    def test_of_what_was_never_made(self):
        unraisable = []
        with mock.patch("sys.unraisablehook", unraisable.append):
            for kind in (Board, Layout, Service, durkenzo.Pass, durkenzo.Note, durkenzo.Envelope):
                self.assertRaises(TypeError, kind)
            for kind in (Board, Map):
                kind.__new__(kind)
            gc.collect()
        self.assertEqual(unraisable, [])


class Shared(unittest.TestCase):
    """Only one call at a time uses a handle, whatever threads do."""

    @contextlib.contextmanager
    def one_by_one(self, *calls):
        """Slows these calls of the library down, and checks that no other call uses a handle meanwhile."""
        used, twice, lock = set(), [], threading.Lock()

        def slow(name, call):
            def made(*given):
                handles = {id(it._obj) for it in given if isinstance(getattr(it, "_obj", None), Handle)}
                with lock:
                    twice.extend([name] * bool(used & handles))
                    used.update(handles)
                time.sleep(0.05)
                try:
                    return call(*given)
                finally:
                    with lock:
                        used.difference_update(handles)

            return made

        with contextlib.ExitStack() as patched:
            for name in (f"durkenzo_{it}" for it in calls):
                patched.enter_context(mock.patch.object(LIBRARY, name, slow(name, getattr(LIBRARY, name))))
            yield
        self.assertEqual(twice, [])

    def run_beside(self, *works):
        """Runs these at once. A closed handle may be refused."""

        def ran(work):
            with contextlib.suppress(durkenzo.WrongHandle):
                work()

        threads = [threading.Thread(target=ran, args=(it,)) for it in works]
        for it in threads:
            it.start()
        for it in threads:
            it.join()

    def test_a_call_and_the_close(self):
        board, layout, held = Board([0], servers=2), Layout([b"", b"n"]), Map()
        service = Service(Layout([b""]), servers=1)
        service.control.assign(0, 1)
        mine, other, serving = board.new_pass(1), board.new_pass(2), service.new_pass(1)
        envelope, note = serving.envelope(1, Request.get(b"a")), mine.note()
        answer = serving.serve(serving.envelope(1, Request.get(b"a")))
        publisher = durkenzo.Publisher(1)
        router = publisher.new_router()
        for call, work, closed in (
            ("route", lambda: router.route(0), router),
            ("publish", lambda: publisher.publish(serving, 0), publisher),
            ("shard_of", lambda: layout.shard_of(b"z"), layout),
            ("change", lambda: board.control.assign(0, 1), board),
            ("plan", board.control.plan_assign, board),
            ("restart", lambda: service.control.ask(1), service),
            ("look", lambda: mine.look(0), mine),
            ("meet", lambda: other.meet(note), note),
            ("ask", lambda: held.put(b"a", b"b"), held),
            ("sent", lambda: envelope.hops, envelope),
            ("meet", lambda: serving.hear(answer), answer),
            ("serve", lambda: serving.serve(serving.envelope(1, Request.get(b"a"))), serving),
            ("serve", lambda: serving.serve(envelope), envelope),
        ):
            with self.subTest(call), self.one_by_one(call, "close"):
                self.run_beside(work, closed.close)
            closed.close()

    def test_calls_of_a_map(self):
        held = Map()
        held.put(b"a", b"one")
        with self.one_by_one("ask", "reply_text", "map_length"):
            self.run_beside(lambda: held.get(b"a"), lambda: held.put(b"a", b"two"), lambda: len(held))

    def test_threads_count_in_one_map(self):
        held, rounds = Map(), 2_000

        def count(thread):
            for turn in range(rounds):
                held.add(b"all", 1)
                held.put(b"%d" % thread, b"%d" % turn)
                self.assertEqual(held.get(b"%d" % thread), b"%d" % turn)

        failed = []
        with mock.patch("threading.excepthook", failed.append):
            threads = [threading.Thread(target=count, args=(it,)) for it in range(4)]
            for it in threads:
                it.start()
            for it in threads:
                it.join()
        self.assertEqual((failed, held.get(b"all"), len(held)), ([], 4 * rounds, 5))


if __name__ == "__main__":
    unittest.main()
