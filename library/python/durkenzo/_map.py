"""Texts and counts by key: the sample service, proved, as a body for your shards."""
from __future__ import annotations

import ctypes

from ._kept import Kept, check
from ._library import LIBRARY, Handle, Number, ReplyParts, i64
from ._reply import ReplyKind, RequestKind, Value, pairs_in, value_in
from .errors import CountOverflow, TextTooLong, WrongKind

_AMOUNT = Number(i64, CountOverflow)
_REFUSALS = {ReplyKind.WRONG_KIND: WrongKind, ReplyKind.OVERFLOW: CountOverflow, ReplyKind.TOO_LONG: TextTooLong}


class Map(Kept):
    """A map from keys of 1 to 255 bytes to texts of at most 65,535 bytes and counts of 64 bits, in the order of the
    keys. A call that raises changes nothing. Each call may raise KeyEmpty, KeyTooLong or NoMemory. Threads may share
    the map, because each call takes its lock."""

    def __init__(self) -> None:
        # The reply to the last request, under the lock of the map.
        self._reply = Handle()
        super().__init__()
        check(LIBRARY.durkenzo_map(ctypes.byref(self._handle)))

    def __len__(self) -> int:
        """Returns how many keys have a value."""
        length = ctypes.c_uint64()
        with self._lock:
            check(LIBRARY.durkenzo_map_length(ctypes.byref(self._handle), ctypes.byref(length)))
        return length.value

    def get(self, key: bytes) -> Value | None:
        """Returns the key's text or count, or None."""
        with self._lock:
            parts = self._ask(RequestKind.GET, key)
            return None if parts.kind == ReplyKind.NOTHING else value_in(self._reply, parts)

    def put(self, key: bytes, text: bytes) -> None:
        """Gives the key this text, in place of its text. Raises WrongKind if the key has a count, and TextTooLong."""
        self._ask(RequestKind.PUT, key, text)

    def append(self, key: bytes, tail: bytes) -> None:
        """Appends this text to the key's text; a key without a value counts as the empty text. Raises WrongKind and
        TextTooLong."""
        self._ask(RequestKind.APPEND, key, tail)

    def add(self, key: bytes, amount: int) -> int:
        """Adds to the key's count, and returns the sum; a key without a value counts as 0. Raises WrongKind if the key
        has a text, and CountOverflow."""
        _AMOUNT.check(amount)
        return self._ask(RequestKind.ADD, key, amount=amount).count

    def remove(self, key: bytes) -> bool:
        """Removes the key's value. Returns whether it had one."""
        return self._ask(RequestKind.REMOVE, key).kind == ReplyKind.DONE

    def scan(self, low: bytes, high: bytes, most: int = 100) -> list[tuple[bytes, Value]]:
        """Returns the first `most` pairs, and at most 100, with keys at or above `low` and below `high`."""
        with self._lock:
            return pairs_in(self._reply, self._ask(RequestKind.SCAN, low, high, most))

    def close(self) -> None:
        """Frees everything that the library keeps for the map. Further calls raise WrongHandle."""
        with self._lock:
            super().close()
            LIBRARY.durkenzo_close(ctypes.byref(self._reply))

    def _ask(self, kind: RequestKind, key: bytes, other: bytes = b"", amount: int = 0) -> ReplyParts:
        parts = ReplyParts()
        with self._lock:
            handles = map(ctypes.byref, (self._handle, self._reply))
            check(LIBRARY.durkenzo_ask(*handles, kind, key, len(key), other, len(other), amount, ctypes.byref(parts)))
        if refusal := _REFUSALS.get(parts.kind):
            raise refusal()
        return parts
