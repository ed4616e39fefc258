"""Requests to the sample service, and the replies that handles keep."""
from __future__ import annotations

import ctypes
from enum import IntEnum
from typing import Union

from ._kept import check
from ._library import LIBRARY, Handle, ReplyParts

Value = Union[bytes, int]


class RequestKind(IntEnum):
    """The kind of a request."""

    GET, PUT, APPEND, ADD, REMOVE, SCAN = range(1, 7)


class ReplyKind(IntEnum):
    """The kind of a reply. From WRONG_KIND on, the request has changed nothing."""

    NOTHING, DONE, TEXT, COUNT, PAIRS, WRONG_KIND, OVERFLOW, TOO_LONG = range(8)


def value_in(handle: Handle, parts: ReplyParts) -> Value:
    """Returns the text or the count that the handle keeps as its reply."""
    return parts.count if parts.kind == ReplyKind.COUNT else _written(handle, "reply_text", parts.length)


def pairs_in(handle: Handle, parts: ReplyParts) -> list[tuple[bytes, Value]]:
    """Returns the pairs that the handle keeps as its reply."""
    return [_pair(handle, at) for at in range(parts.length)]


def _pair(handle: Handle, at: int) -> tuple[bytes, Value]:
    parts = ReplyParts()
    check(LIBRARY.durkenzo_pair(ctypes.byref(handle), at, ctypes.byref(parts)))
    key = _written(handle, "pair_key", 255, at)
    if parts.kind == ReplyKind.COUNT:
        return key, parts.count
    return key, _written(handle, "pair_text", parts.length, at)


def _written(handle: Handle, call: str, room: int, *place: int) -> bytes:
    """Returns the bytes that the call writes into a buffer of this size."""
    into, length = ctypes.create_string_buffer(room or 1), ctypes.c_size_t()
    write = getattr(LIBRARY, f"durkenzo_{call}")
    check(write(ctypes.byref(handle), *place, into, room, ctypes.byref(length)))
    return into.raw[: length.value]
