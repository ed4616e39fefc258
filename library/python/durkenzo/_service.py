"""A board of the sample service. The library itself executes its requests."""
from __future__ import annotations

import ctypes
import struct
from dataclasses import dataclass
from typing import TYPE_CHECKING, Union

from ._kept import Kept, check
from ._library import LIBRARY, AnswerParts, RecordParts, ReplyParts, SentParts
from ._limits import MAX_SERVER, MAX_SHARD, MOST_HOPS
from ._reply import ReplyKind, RequestKind, Value, pairs_in, value_in
from .errors import BadArgument, DurkenzoError, error_of
from .record import Record

if TYPE_CHECKING:
    from . import Service

FORWARD = 60


class WrongShard(DurkenzoError):
    """The request's key belongs to another shard."""


class TooManyHops(DurkenzoError):
    """The request was already forwarded as often as it may be."""


class KeptFull(DurkenzoError):
    """The shard already keeps as many requests as it may. Make a checkpoint."""


class BadSettings(DurkenzoError):
    """The line of settings breaks a rule. `rule` is the name of the first one, as in docs/SETTINGS.md."""

    def __init__(self, rule: str) -> None:
        super().__init__()
        self.rule = rule


# By tools/library-codes, the settings of library/codes.txt:
_RULES = {
    70: "TooLong",
    71: "BadJson",
    72: "BadVersion",
    73: "BadShape",
    74: "BadLayout",
    75: "BadServers",
    76: "BadGroups",
    77: "BadShards",
    78: "BadOps",
    79: "BadKept",
    80: "BadCeiling",
    81: "BadWorkers",
    82: "BadDomains",
}
# End of them.
_REFUSALS = {61: WrongShard, 62: TooManyHops, 63: KeptFull}


@dataclass(frozen=True)
class Request:
    """A request to the service. Keys have 1 to 255 bytes, and texts at most 65,535."""

    kind: RequestKind
    key: bytes
    other: bytes = b""
    amount: int = 0

    @staticmethod
    def get(key: bytes) -> Request:
        """Returns a request for the key's value."""
        return Request(RequestKind.GET, key)

    @staticmethod
    def put(key: bytes, text: bytes) -> Request:
        """Returns a request to give the key this text, in place of its text."""
        return Request(RequestKind.PUT, key, text)

    @staticmethod
    def append(key: bytes, tail: bytes) -> Request:
        """Returns a request to append this text to the key's text."""
        return Request(RequestKind.APPEND, key, tail)

    @staticmethod
    def add(key: bytes, amount: int) -> Request:
        """Returns a request to add the number to the key's count."""
        return Request(RequestKind.ADD, key, amount=amount)

    @staticmethod
    def remove(key: bytes) -> Request:
        """Returns a request to remove the key's value."""
        return Request(RequestKind.REMOVE, key)

    @staticmethod
    def scan(low: bytes, high: bytes, most: int = 100) -> Request:
        """Returns a request for pairs, with keys at or above the first of these and below the second."""
        return Request(RequestKind.SCAN, low, high, most)


@dataclass(frozen=True)
class Reply:
    """A reply of the service: its kind, and the text, the count or the pairs."""

    kind: ReplyKind
    value: Union[Value, list[tuple[bytes, Value]], None] = None


@dataclass(frozen=True)
class Sent:
    """An envelope without its request and its note, as plain fields that travel as bytes: its number, its shard, the
    server that forwarded it, or 0 if it came directly, and how often it was forwarded."""

    number: int
    shard: int
    forwarded_by: int = 0
    hops: int = 0

    def to_bytes(self) -> bytes:
        """Returns the fields as 13 bytes, each with its highest byte first. Raises BadArgument if a number is too large
        for its field."""
        fields = (self.number, self.shard, self.forwarded_by, self.hops)
        SentParts.of(*fields)
        return _FIELDS.pack(*fields)

    @staticmethod
    def from_bytes(text: bytes) -> Sent:
        """Returns the fields of these bytes, which to_bytes made. Raises BadArgument if the bytes aren't those of an
        envelope."""
        if len(text) != _FIELDS.size:
            raise BadArgument()
        sent = Sent(*_FIELDS.unpack(text))
        if sent.shard > MAX_SHARD or sent.forwarded_by > MAX_SERVER or sent.hops not in _HOPS[sent.forwarded_by != 0]:
            raise BadArgument()
        return sent


_FIELDS = struct.Struct(">QHHB")
# How often a direct envelope was forwarded, and how often a forwarded one may have been.
_HOPS = (range(1), range(1, MOST_HOPS + 1))


class Envelope(Kept):
    """A request on its way, with a note of all that its sender had seen. A host that forwards it must pass on just
    this."""

    def __init__(self, service: Service) -> None:
        super().__init__()
        self._service = service

    @property
    def sent(self) -> Sent:
        """The envelope without its request and its note. Send it with the request to another process, where
        ServicePass.received makes the envelope again."""
        parts = SentParts()
        with self._lock:
            check(LIBRARY.durkenzo_sent(ctypes.byref(self._handle), ctypes.byref(parts)))
        return Sent(parts.number, parts.shard, getattr(parts, "from"), parts.hops)

    @property
    def shard(self) -> int:
        """The shard of the request."""
        return self.sent.shard

    @property
    def hops(self) -> int:
        """How often the envelope was forwarded, 0 to 4."""
        return self.sent.hops

    @property
    def forwarded_by(self) -> int:
        """The server that forwarded the envelope, or 0 if it came directly."""
        return self.sent.forwarded_by


class Answer(Kept):
    """The answer to a request, with a note of all that its server had then seen."""

    def __init__(self, envelope: Envelope) -> None:
        super().__init__()
        # Must be made under the lock of the envelope, which then keeps nothing.
        self._service = envelope._service
        self._handle, envelope._handle = envelope._handle, self._handle
        parts, reply = AnswerParts(), ReplyParts()
        check(LIBRARY.durkenzo_answer(*map(ctypes.byref, (self._handle, parts, reply))))
        self.number, self.place, self.server = parts.number, parts.place, parts.server
        self.reply = Reply(ReplyKind(reply.kind), self._value(reply))

    def _value(self, parts: ReplyParts) -> Union[Value, list[tuple[bytes, Value]], None]:
        if parts.kind in (ReplyKind.TEXT, ReplyKind.COUNT):
            return value_in(self._handle, parts)
        return pairs_in(self._handle, parts) if parts.kind == ReplyKind.PAIRS else None


@dataclass(frozen=True)
class Forward:
    """The envelope must go on to this server, with one hop more."""

    to: int
    envelope: Envelope


class ServicePass(Kept):
    """A pass that serves as one server, for its whole life, and makes envelopes. Only one thread may use it at a
    time."""

    def __init__(self, service: Service, server: int) -> None:
        super().__init__()
        self._service = service
        with service._lock:
            check(LIBRARY.durkenzo_pass(ctypes.byref(service._handle), ctypes.byref(self._handle), server))

    def look(self, shard: int) -> Record:
        """Returns the shard's record, as the pass now sees it. Raises UnknownShard."""
        parts = RecordParts()
        with self._lock:
            check(LIBRARY.durkenzo_look(ctypes.byref(self._handle), shard, ctypes.byref(parts)))
        return Record.of(parts)

    def envelope(self, number: int, request: Request) -> Envelope:
        """Returns an envelope with your number for the request's shard, with a note of all that the pass has seen.
        Raises KeyEmpty, KeyTooLong, BadArgument or NoMemory."""
        return self.received(Sent(number, self._service.layout.shard_of(request.key)), request)

    def received(self, sent: Sent, request: Request) -> Envelope:
        """Returns the envelope that came with this request from another process, whose Envelope.sent gave these fields,
        with a note of all that the pass has seen. Raises KeyEmpty, KeyTooLong, BadArgument or NoMemory."""
        envelope, it = Envelope(self._service), request
        parts = SentParts.of(sent.number, sent.shard, sent.forwarded_by, sent.hops)
        texts = (it.key, len(it.key), it.other, len(it.other))
        with self._lock:
            handles = map(ctypes.byref, (self._handle, envelope._handle, parts))
            check(LIBRARY.durkenzo_envelope(*handles, it.kind, *texts, it.amount))
        return envelope

    def serve(self, envelope: Envelope) -> Union[Answer, Forward]:
        """Serves the envelope at the pass's server: executes the request and returns the answer, or returns the server
        to which the envelope must go on. If it does neither, it raises the reason, and the envelope stays the same, but
        it may have seen more. The reasons are NobodyOwns, IsPaused, NotExecutor, NotYet, IsAdmitted, Spent or Raced,
        with the record that was read; WrongShard or TooManyHops; KeptFull or NoMemory, if the server was admitted and
        its admission ended with nothing, which took 2 of the shard's generations; or BadArgument if this isn't an
        envelope of its board."""
        if not isinstance(envelope, Envelope) or envelope._service is not self._service:
            raise BadArgument()
        to, read, layout = ctypes.c_uint16(), RecordParts(), self._service.layout
        with self._lock, layout._lock, envelope._lock:
            handles = map(ctypes.byref, (self._handle, layout._handle, envelope._handle))
            code = LIBRARY.durkenzo_serve(*handles, ctypes.byref(to), ctypes.byref(read))
            if code == 0:
                return Answer(envelope)
        if code == FORWARD:
            return Forward(to.value, envelope)
        if refusal := _REFUSALS.get(code):
            raise refusal()
        raise error_of(code, Record.of(read))

    def hear(self, answer: Answer) -> None:
        """Tells the pass all that the answer has seen, so that its next requests come after the answered one. Raises
        WrongHandle if a pass was told already, or BadArgument if it isn't an answer of its board."""
        if not isinstance(answer, Answer) or answer._service is not self._service:
            raise BadArgument()
        with self._lock, answer._lock:
            check(LIBRARY.durkenzo_meet(ctypes.byref(self._handle), ctypes.byref(answer._handle)))

    def checkpoint(self, shard: int) -> int:
        """Makes the shard's state its base, so that it keeps no request, and returns its generation after that. Raises
        UnknownShard; NobodyOwns, IsPaused, NotExecutor, NotYet, IsAdmitted, Spent or Raced, with the record that was
        read; or NoMemory, if the pass was admitted and its admission ended with nothing, which took 2 of the shard's
        generations."""
        generation, read = ctypes.c_uint64(), RecordParts()
        with self._lock:
            at = ctypes.byref(self._handle)
            check(LIBRARY.durkenzo_checkpoint(at, shard, ctypes.byref(generation), ctypes.byref(read)), read)
        return generation.value
