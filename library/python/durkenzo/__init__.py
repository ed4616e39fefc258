"""Shards that move between servers while each has one writer, decided by proved code.

A Board keeps a body, any object, for each shard. A thread makes a Pass as one of the board's servers. The pass is
admitted to a shard if that server executes the shard's requests and nobody else is admitted. The Permit then has the
body for itself, without a lock, until it ends. The board's Control moves shards between servers meanwhile.

    board = Board([[] for _ in range(4)], servers=2)
    board.control.assign(3, 1)
    with board.new_pass(1) as one:
        with one.admit(3) as permit:
            permit.body.append("first")

Proved code decides which server is admitted, and that no two permits of a shard live at once. The caller must not keep
a body beyond its permit.
"""
from __future__ import annotations

import ctypes
import itertools
import weakref
from dataclasses import dataclass
from types import TracebackType
from typing import Callable, Generic, Iterable, TypeVar

from . import errors
from ._kept import Kept as _Kept, check as _check
from ._library import LIBRARY, Handle, Part, RecordParts
from .errors import *
from .errors import BadArgument, Busy, DurkenzoError, IsAdmitted, NotAdmitted, Raced, WrongHandle
from ._kinds import ChangeKind, RestartKind
from ._limits import MAX_GENERATION
from ._map import Map
from ._reply import ReplyKind, RequestKind, Value
from ._routes import Publisher, Route, Router
from ._service import Answer, BadSettings, Envelope, Forward, KeptFull, Reply, Request, Sent, ServicePass
from ._service import TooManyHops, WrongShard, _RULES
from ._version import __version__ as __version__
from .record import Phase, Record

__all__ = ["Board", "Control", "Layout", "MAX_GENERATION", "Map", "Note", "Pass", "Permit", "Phase", "Plan", "Record"]
__all__ += ["Answer", "Envelope", "Forward", "Reply", "ReplyKind", "Request", "RequestKind", "Sent", "Service"]
__all__ += ["Publisher", "Route", "Router"]
__all__ += ["ServicePass", "Value", "BadSettings", "KeptFull", "PassOpen", "TooManyHops", "WrongShard"]
__all__ += errors.__all__

T = TypeVar("T")
R = TypeVar("R")


class Permit(Generic[T]):
    """The right to a shard's body, which nobody else has. Leave its `with` block, or call finish, to end the admission.
    It also ends with its pass."""

    def __init__(self, of: Pass[T], shard: int, body: T) -> None:
        self._pass, self._turn = of, of._turn
        self.shard = shard
        self._body = body

    @property
    def body(self) -> T:
        """The shard's body. Raises NotAdmitted if the admission has ended."""
        if self._turn != self._pass._turn:
            raise NotAdmitted()
        return self._body

    @property
    def token(self) -> int:
        """The fencing token of this admission. Each later admission to the shard has a greater one. Tokens of a board
        begin after its `after`. Raises NotAdmitted if the admission has ended."""
        token, of = ctypes.c_uint64(), self._pass
        with of._lock:
            if self._turn != of._turn:
                raise NotAdmitted()
            _check(LIBRARY.durkenzo_token(ctypes.byref(of._handle), ctypes.byref(token)))
        return token.value

    @property
    def generation(self) -> int:
        """The shard's generation at this admission. It begins at 0 in each board, so it isn't a fencing token."""
        with self._pass._lock:
            if self._turn != self._pass._turn:
                raise NotAdmitted()
            return self._pass.look(self.shard).generation

    def finish(self) -> int:
        """Ends the admission, and returns the shard's generation after it. Raises NotAdmitted if it has ended
        already."""
        generation, of = ctypes.c_uint64(), self._pass
        with of._lock:
            if self._turn != of._turn:
                raise NotAdmitted()
            of._turn += 1
            _check(LIBRARY.durkenzo_finish(ctypes.byref(of._handle), ctypes.byref(generation)))
        return generation.value

    def __enter__(self) -> Permit[T]:
        return self

    def __exit__(self, kind: type[BaseException] | None, error: BaseException | None, at: TracebackType | None) -> None:
        with self._pass._lock:
            if self._turn == self._pass._turn:
                self.finish()


class Note(_Kept, Generic[T]):
    """A note of all that a pass has seen, for another pass of its board. It travels with a message, and can be given to
    only one pass."""

    def __init__(self, of: Pass[T]) -> None:
        super().__init__()
        self._board = of._board
        with of._lock:
            _check(LIBRARY.durkenzo_split(ctypes.byref(of._handle), ctypes.byref(self._handle)))


class Pass(_Kept, Generic[T]):
    """A pass acts on a board as one server, for its whole life. Only one thread may use it at a time."""

    # A turn ends when a permit or the pass ends. A permit is open only in the turn in which it was made.
    _turn = 0

    def __init__(self, board: Board[T], server: int) -> None:
        super().__init__()
        self._board = board
        with board._lock:
            _check(LIBRARY.durkenzo_pass(ctypes.byref(board._handle), ctypes.byref(self._handle), server))
            board._passes.add(self)

    def look(self, shard: int) -> Record:
        """Returns the shard's record, as the pass now sees it. Raises UnknownShard."""
        parts = RecordParts()
        with self._lock:
            _check(LIBRARY.durkenzo_look(ctypes.byref(self._handle), shard, ctypes.byref(parts)))
        return Record.of(parts)

    def admit(self, shard: int, forwarded_by: int = 0) -> Permit[T]:
        """Admits the pass's server to the shard, for a client's request or for one that this server forwarded.

        Raises NobodyOwns, IsPaused, NotExecutor, NotYet, IsAdmitted, Spent or Raced, with the record that was read;
        UnknownShard; BadArgument if no server has that number; or WrongHandle if the pass has a permit.
        """
        number, parts = ctypes.c_uint64(), RecordParts()
        written = map(ctypes.byref, (number, parts))
        with self._lock:
            code = LIBRARY.durkenzo_admit(ctypes.byref(self._handle), shard, forwarded_by, *written)
            if code == 0:
                return Permit(self, shard, self._board._bodies[number.value])
        raise errors.error_of(code, Record.of(parts))

    def run(self, shard: int, work: Callable[[T], R], forwarded_by: int = 0) -> R:
        """Admits the pass, and returns the result of `work` on the body. Tries again while another thread has the shard
        or was first."""
        while True:
            try:
                permit = self.admit(shard, forwarded_by)
            except (IsAdmitted, Raced):
                continue
            with permit:
                return work(permit.body)

    def note(self) -> Note[T]:
        """Returns a note of all that the pass has seen. Raises WrongHandle while it has a permit, or NoMemory."""
        return Note(self)

    def meet(self, note: Note[T]) -> None:
        """Tells the pass all that the note says. Raises WrongHandle if the note was given to a pass already or the pass
        has a permit, or BadArgument if it isn't a note of its board."""
        if not isinstance(note, Note) or note._board is not self._board:
            raise BadArgument()
        with self._lock, note._lock:
            _check(LIBRARY.durkenzo_meet(ctypes.byref(self._handle), ctypes.byref(note._handle)))

    def close(self) -> None:
        """Frees everything that the library keeps for the pass, and ends its permit. Further calls raise
        WrongHandle."""
        with self._lock:
            self._turn += 1
            super().close()
            self._board._passes.discard(self)


@dataclass(frozen=True)
class Plan:
    """A plan: pairs of a shard and the server to which it goes, and the shards that fit on no server in their turn."""

    moves: list[tuple[int, int]]
    left: list[int]

    @staticmethod
    def _of(handle: Handle) -> Plan:
        plan, shard, server = Plan([], []), ctypes.c_uint16(), ctypes.c_uint16()
        at, places = ctypes.byref(handle), (ctypes.byref(shard), ctypes.byref(server))
        while LIBRARY.durkenzo_move(at, len(plan.moves), *places) == 0:
            plan.moves.append((shard.value, server.value))
        while LIBRARY.durkenzo_left(at, len(plan.left), places[0]) == 0:
            plan.left.append(shard.value)
        return plan


class Control(Generic[T]):
    """Moves the shards of a board between its servers. Threads may share it, because each call takes the control's
    lock.

    Restart a server in this order: ask, approve within the caps, a migrate for each move of plan_drain, and stopped.
    Then its passes end, and it starts again, with back and a migrate home for each shard that left. To give up a
    restart earlier, call back too."""

    def __init__(self, board: Board[T] | Service) -> None:
        self._board = board

    def _change(self, shard: int, kind: ChangeKind, server: int = 0) -> None:
        parts = RecordParts()
        with self._board._lock:
            code = LIBRARY.durkenzo_change(ctypes.byref(self._board._handle), shard, kind, server, ctypes.byref(parts))
        _check(code, parts)

    def _restart(self, kind: RestartKind, server: int) -> None:
        with self._board._lock:
            _check(LIBRARY.durkenzo_restart(ctypes.byref(self._board._handle), kind, server))

    def assign(self, shard: int, server: int) -> None:
        """Gives a vacant shard this owner."""
        self._change(shard, ChangeKind.ASSIGN, server)

    def prepare_add_shard(self, shard: int, server: int) -> None:
        """Begins a migration of the shard to this server."""
        self._change(shard, ChangeKind.PREPARE_ADD_SHARD, server)

    def prepare_drop_shard(self, shard: int) -> None:
        """Makes the shard's owner stop executing, and forward to the next owner."""
        self._change(shard, ChangeKind.PREPARE_DROP_SHARD)

    def add_shard(self, shard: int) -> None:
        """Makes the next owner, to which the previous one forwards, the owner."""
        self._change(shard, ChangeKind.ADD_SHARD)

    def drop_shard(self, shard: int) -> None:
        """Ends the migration: the previous owner drops the shard."""
        self._change(shard, ChangeKind.DROP_SHARD)

    def cancel(self, shard: int) -> None:
        """Gives up a migration that hasn't reached add_shard."""
        self._change(shard, ChangeKind.CANCEL)

    def pause(self, shard: int) -> None:
        """Pauses the shard: no server executes its requests."""
        self._change(shard, ChangeKind.PAUSE)

    def resume(self, shard: int) -> None:
        """Lets the owner of a paused shard execute again."""
        self._change(shard, ChangeKind.RESUME)

    def reassign(self, shard: int, server: int) -> None:
        """Gives a paused shard this owner."""
        self._change(shard, ChangeKind.REASSIGN, server)

    def migrate(self, shard: int, server: int) -> None:
        """Moves the shard to this server by a whole migration. Each step is tried again while the shard is admitted,
        and forever if that admission doesn't end, for example because the calling thread has the permit. If a step
        raises, the steps before it stay made, and the shard stays in the midst of its migration: cancel goes back from
        before add_shard, and drop_shard ends it after add_shard."""
        self._again(lambda: self.prepare_add_shard(shard, server))
        self._again(lambda: self.prepare_drop_shard(shard))
        self._again(lambda: self.add_shard(shard))
        self._again(lambda: self.drop_shard(shard))

    def ask(self, server: int) -> None:
        """Asks for a restart of the server: the first of its steps."""
        self._restart(RestartKind.ASK, server)

    def approve(self, server: int) -> None:
        """Approves the restart of the server, within the caps."""
        self._restart(RestartKind.APPROVE, server)

    def stopped(self, server: int) -> None:
        """Notes that the server was stopped for its restart. It must serve no shard."""
        self._restart(RestartKind.STOPPED, server)

    def back(self, server: int) -> None:
        """Notes that the server is up again, also if it had failed, or if its restart is given up."""
        self._restart(RestartKind.BACK, server)

    def fail(self, server: int) -> None:
        """Notes that the server failed. This changes no shard: the server's own passes are admitted to the shards that
        it owns until pause. After pause, reassign gives the shard another owner."""
        self._restart(RestartKind.FAIL, server)

    def plan_assign(self) -> Plan:
        """Plans where the vacant shards go: each, by number, to the lowest server on which it fits, with earlier moves
        counted as made. Moves nothing. Raises NoMemory."""
        return self._plan(0)

    def plan_drain(self, server: int) -> Plan:
        """Plans to which other servers the shards of this server go. Moves nothing. Raises UnknownServer, BadArgument
        or NoMemory."""
        if server == 0:
            raise BadArgument()
        return self._plan(server)

    def _plan(self, server: int) -> Plan:
        kept = _Kept()
        with self._board._lock:
            _check(LIBRARY.durkenzo_plan(ctypes.byref(self._board._handle), ctypes.byref(kept._handle), server))
        return Plan._of(kept._handle)

    @staticmethod
    def _again(change: Callable[[], None]) -> None:
        while True:
            try:
                return change()
            except (Busy, Raced):
                pass


def _check_settings(code: int) -> None:
    if rule := _RULES.get(code):
        raise BadSettings(rule)
    _check(code)


class PassOpen(DurkenzoError):
    """A pass of the board is open. Close it first."""


class Board(_Kept, Generic[T]):
    """A board: a body for each shard, and who may use it. Threads may share it, because each call takes its lock."""

    def __init__(
        self,
        bodies: Iterable[T],
        servers: int,
        restarts: int = 1,
        ceiling: int = MAX_GENERATION,
        after: int = 0,
    ) -> None:
        """Makes a board with these bodies, 1 to 4,096, and with the servers from 1 to this one. At most `restarts` of
        them restart at once. Fencing tokens begin after `after`: each is greater, and at most `after + MAX_GENERATION`.

        Raises NoShard, TooMany, BadArgument, BadBooks if there are no servers, BadCeiling, BadAfter or NoMemory.
        """
        super().__init__()
        numbers, count = self._begin(bodies)
        sizes = servers, restarts, ceiling, after
        _check(LIBRARY.durkenzo_open_after(ctypes.byref(self._handle), numbers, count, *sizes))

    @classmethod
    def by_settings(cls, line: bytes, bodies: Iterable[T], after: int = 0) -> tuple[Board[T], Layout]:
        """Makes the board of a line of settings, with these bodies, as many as its shards, and returns it with its
        layout. Ignores the workers of the settings, and how many requests a shard keeps. Raises BadSettings, BadCount,
        BadAfter or NoMemory."""
        board, layout = cls.__new__(cls), Layout.__new__(Layout)
        for kept in (board, layout):
            _Kept.__init__(kept)
        numbers, count = board._begin(bodies)
        handles = map(ctypes.byref, (board._handle, layout._handle))
        _check_settings(LIBRARY.durkenzo_open_bodies_after(*handles, line, len(line), numbers, count, after))
        layout._count = count
        return board, layout

    def _begin(self, bodies: Iterable[T]) -> tuple[ctypes.Array[ctypes.c_uint64], int]:
        """Keeps the bodies, and returns their numbers and how many there are."""
        self._bodies = list(bodies)
        # The passes that aren't closed.
        self._passes: weakref.WeakSet[Pass[T]] = weakref.WeakSet()
        self.control: Control[T] = Control(self)
        count = len(self._bodies)
        return (ctypes.c_uint64 * count)(*range(count)), count

    def __len__(self) -> int:
        return len(self._bodies)

    def new_pass(self, server: int) -> Pass[T]:
        """Returns a new pass, which acts as this server. Raises BadArgument, UnknownServer or NoMemory."""
        return Pass(self, server)

    def into_bodies(self) -> list[T]:
        """Closes the board, and returns its bodies in the order of their shards. Raises PassOpen if a pass of it is
        open, and then changes nothing, or WrongHandle if the board is closed."""
        with self._lock:
            if not self._handle.full:
                raise WrongHandle()
            if self._passes:
                raise PassOpen()
            self.close()
            return self._bodies


class Layout(_Kept):
    """A layout, which gives keys to shards: shard k has the keys from bound k on, up to the next bound. Threads may
    share it, because each call takes its lock."""

    def __init__(self, bounds: Iterable[bytes]) -> None:
        """Makes the layout with these bounds: 1 to 4,096 of at most 255 bytes. They must rise, from the empty one.

        Raises NoBound, FirstNotEmpty, NotRising, BoundTooLong, TooMany or NoMemory.
        """
        super().__init__()
        texts = list(bounds)
        ends = list(itertools.accumulate(map(len, texts)))
        parts = (Part * len(texts))(*(Part(end - len(it), end) for it, end in zip(texts, ends)))
        text = b"".join(texts)
        _check(LIBRARY.durkenzo_layout(ctypes.byref(self._handle), text, len(text), parts, len(texts)))
        self._count = len(texts)

    def __len__(self) -> int:
        return self._count

    def shard_of(self, key: bytes) -> int:
        """Returns the shard of the key. A key may be any bytes."""
        shard = ctypes.c_uint16()
        with self._lock:
            _check(LIBRARY.durkenzo_shard_of(ctypes.byref(self._handle), key, len(key), ctypes.byref(shard)))
        return shard.value

    def range(self, shard: int) -> tuple[bytes, bytes | None]:
        """Returns the bound at which the shard begins, and the bound of the next shard, if there is one. Raises
        UnknownShard."""
        return self._bound(shard), self._bound(shard + 1) if shard + 1 < self._count else None

    def _bound(self, shard: int) -> bytes:
        into, length = ctypes.create_string_buffer(255), ctypes.c_size_t()
        with self._lock:
            _check(LIBRARY.durkenzo_bound(ctypes.byref(self._handle), shard, into, 255, ctypes.byref(length)))
        return into.raw[: length.value]


class Service(_Kept):
    """A board of the sample service with the layout of its keys: texts and counts by key. The library itself executes
    the requests. Threads may share it, because each call takes its lock."""

    def __init__(
        self,
        layout: Layout,
        servers: int,
        kept: int = (1 << 64) - 1,
        restarts: int = 1,
        ceiling: int = MAX_GENERATION,
    ) -> None:
        """Makes a board with a shard for each one of the layout, and with the servers from 1 to this one. Each shard
        keeps at most `kept` requests between checkpoints. At most `restarts` servers restart at once.

        Raises BadArgument, BadBooks if there are no servers, BadCeiling or NoMemory.
        """
        super().__init__()
        self._begin(layout)
        at, sizes = ctypes.byref(self._handle), (kept, servers, restarts, ceiling)
        _check(LIBRARY.durkenzo_open_service(at, len(layout), *sizes))

    @classmethod
    def by_settings(cls, line: bytes) -> Service:
        """Makes the board of a line of settings. Ignores its workers. Raises BadSettings or NoMemory."""
        service, layout, count = cls.__new__(cls), Layout.__new__(Layout), ctypes.c_size_t()
        for kept in (service, layout):
            _Kept.__init__(kept)
        handles = map(ctypes.byref, (service._handle, layout._handle))
        _check_settings(LIBRARY.durkenzo_open_settings(*handles, line, len(line), ctypes.byref(count)))
        layout._count = count.value
        service._begin(layout)
        return service

    def _begin(self, layout: Layout) -> None:
        self.layout = layout
        self.control: Control[None] = Control(self)

    def new_pass(self, server: int) -> ServicePass:
        """Returns a new pass, which serves as this server, and makes envelopes. Raises BadArgument, UnknownServer or
        NoMemory."""
        return ServicePass(self, server)
