"""The handles that the library keeps for objects."""
from __future__ import annotations

import ctypes
import threading
from types import TracebackType
from typing import TypeVar

from ._library import LIBRARY, Handle, RecordParts
from .errors import error_of
from .record import Record


K = TypeVar("K", bound="Kept")


def check(code: int, parts: RecordParts | None = None) -> None:
    """Raises the exception of a code that isn't 0, with the record that was read."""
    if code:
        raise error_of(code, Record.of(parts) if parts else None)


class Kept:
    """A handle that the library keeps for an object. It is freed at the end of the object's `with` block, or of its
    life.

    Only one call at a time may use a handle, but other threads run while ctypes is in a call. So a method that gives
    the handle to the library, or replaces it, must hold the lock of its object; a new object needs none. If a method
    takes several locks, it must take the lock of a pass first, then a layout's, and the lock of a note, an envelope or
    an answer last.
    """

    def __init__(self) -> None:
        self._handle, self._lock = Handle(), threading.RLock()

    def close(self) -> None:
        """Frees everything that the library keeps for this. Ends an admission. Further calls raise WrongHandle."""
        with self._lock:
            LIBRARY.durkenzo_close(ctypes.byref(self._handle))

    def __enter__(self: K) -> K:
        return self

    def __exit__(self, kind: type[BaseException] | None, error: BaseException | None, at: TracebackType | None) -> None:
        self.close()

    def __del__(self) -> None:
        # An object that was refused before it was made has no lock, and keeps nothing.
        if hasattr(self, "_lock"):
            self.close()
