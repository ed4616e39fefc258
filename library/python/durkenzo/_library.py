"""The calls of the proved library, as durkenzo.h declares them."""
from __future__ import annotations

import ctypes
import ctypes.util
import os
import pathlib
from typing import Any, Callable

from .errors import BadAfter, BadArgument, BadCeiling, DurkenzoError, UnknownShard

u8, u16, u32, u64 = ctypes.c_uint8, ctypes.c_uint16, ctypes.c_uint32, ctypes.c_uint64
i64 = ctypes.c_int64
NAME = "libdurkenzo.so"


class Number:
    """A number as C takes it. A number outside its type is refused, because ctypes would turn it into another one."""

    def __init__(self, c_type: Any, fault: type[DurkenzoError] = BadArgument) -> None:
        self.c_type, self._fault = c_type, fault
        half = 1 << 8 * ctypes.sizeof(c_type) - 1
        self._low, self._end = (-half, half) if c_type(-1).value < 0 else (0, 2 * half)

    def check(self, number: int) -> None:
        """Raises the fault if the type doesn't have this number."""
        if not self._low <= number < self._end:
            raise self._fault()


class Handle(ctypes.Structure):
    """A handle, which the library keeps between calls. It begins as zeros, and only one call at a time may use it."""

    _fields_ = [("full", ctypes.c_bool), ("owned", ctypes.c_void_p)]


class RecordParts(ctypes.Structure):
    """A shard's record."""

    _fields_ = [("generation", u64), ("owner", u16), ("other", u16), ("phase", u8), ("admitted", ctypes.c_bool)]


class Part(ctypes.Structure):
    """A part of a text."""

    _fields_ = [("start", ctypes.c_size_t), ("end", ctypes.c_size_t)]


class ReplyParts(ctypes.Structure):
    """A reply of a map, or the value of a pair."""

    _fields_ = [("count", i64), ("length", ctypes.c_size_t), ("kind", u8)]


class AnswerParts(ctypes.Structure):
    """An answer without its reply."""

    _fields_ = [("number", u64), ("place", u64), ("server", u16)]


class RouteParts(ctypes.Structure):
    """A shard's route."""

    _fields_ = [("generation", u64), ("server", u16)]


class SentParts(ctypes.Structure):
    """An envelope without its request and its note."""

    _fields_ = [("number", u64), ("shard", u16), ("from", u16), ("hops", u8)]
    _numbers = [Number(it) for _, it in _fields_]

    @classmethod
    def of(cls, *parts: int) -> SentParts:
        """Returns these parts. Raises BadArgument if the type of a part doesn't have it."""
        for it, part in zip(cls._numbers, parts):
            it.check(part)
        return cls(*parts)


def found() -> str:
    """Returns the path of the library."""
    here = pathlib.Path(__file__).resolve().parent
    folders = [os.environ.get("DURKENZO_SO"), here, here.parent.parent / "build"]
    for folder in filter(None, folders):
        if (path := pathlib.Path(folder) / NAME).is_file():
            return str(path)
    if name := ctypes.util.find_library("durkenzo"):
        return name
    raise ImportError(f"{NAME} isn't found: run `make` in library/, or set DURKENZO_SO to a folder that has it")


def calls() -> dict[str, list[Any]]:
    """Returns the types of each call's arguments, by its name."""
    handle, record, number = map(ctypes.POINTER, (Handle, RecordParts, u64))
    size, kind, server, amount = map(Number, (ctypes.c_size_t, u8, u16, i64))
    shard, ceiling, after = Number(u16, UnknownShard), Number(u64, BadCeiling), Number(u64, BadAfter)
    text, into, length = ctypes.c_char_p, ctypes.POINTER(u16), ctypes.POINTER(ctypes.c_size_t)
    sent, parts = map(ctypes.POINTER, (SentParts, ReplyParts))
    return {
        "open_after": [handle, number, size, server, server, ceiling, after],
        "pass": [handle, handle, server],
        "look": [handle, shard, record],
        "admit": [handle, shard, server, number, record],
        "token": [handle, number],
        "finish": [handle, number],
        "change": [handle, shard, kind, server, record],
        "restart": [handle, kind, server],
        "split": [handle, handle],
        "meet": [handle, handle],
        "plan": [handle, handle, server],
        "move": [handle, size, into, into],
        "left": [handle, size, into],
        "layout": [handle, text, size, ctypes.POINTER(Part), size],
        "shard_of": [handle, text, size, into],
        "bound": [handle, shard, text, size, length],
        "publisher": [handle, size],
        "router": [handle, handle],
        "publish": [handle, shard, server, Number(u64)],
        "route": [handle, shard, ctypes.POINTER(RouteParts)],
        "map": [handle],
        "map_length": [handle, number],
        "ask": [handle, handle, kind, text, size, text, size, amount, parts],
        "reply_text": [handle, text, size, length],
        "pair": [handle, size, parts],
        "pair_key": [handle, size, text, size, length],
        "pair_text": [handle, size, text, size, length],
        "open_service": [handle, size, size, server, server, ceiling],
        "open_settings": [handle, handle, text, size, length],
        "open_bodies_after": [handle, handle, text, size, number, size, after],
        "envelope": [handle, handle, sent, kind, text, size, text, size, amount],
        "sent": [handle, sent],
        "serve": [handle, handle, handle, into, record],
        "answer": [handle, ctypes.POINTER(AnswerParts), parts],
        "checkpoint": [handle, shard, number, record],
    }


def typed(call: Any, types: list[Any]) -> Callable[..., int]:
    """Returns the call with the types of its arguments. It refuses a number outside its type."""
    call.argtypes, call.restype = [it.c_type if isinstance(it, Number) else it for it in types], u32
    checks = [(at, it.check) for at, it in enumerate(types) if isinstance(it, Number)]

    def checked(*given: Any) -> int:
        for at, check in checks:
            check(given[at])
        return call(*given)

    return checked if checks else call


def loaded() -> ctypes.CDLL:
    """Returns the library with the types of its calls. Other threads run beside a call; Kept keeps them from using the
    same handle."""
    library = ctypes.CDLL(found())
    for name, types in calls().items():
        name = f"durkenzo_{name}"
        setattr(library, name, typed(getattr(library, name), types))
    library.durkenzo_close.argtypes, library.durkenzo_close.restype = [ctypes.POINTER(Handle)], None
    return library


LIBRARY = loaded()
