"""Published routes, by which clients send requests."""
from __future__ import annotations

import ctypes
from dataclasses import dataclass
from typing import Protocol

from ._kept import Kept, check
from ._library import LIBRARY, RouteParts
from .errors import WrongPhase
from .record import Phase, Record


class Looks(Protocol):
    """A pass of a board."""

    def look(self, shard: int) -> Record:
        """Returns the shard's record, as the pass now sees it."""


@dataclass(frozen=True)
class Route:
    """A shard's owner at a generation."""

    server: int
    generation: int


class Publisher(Kept):
    """The publisher of a map of routes. Threads may share it, because each call takes its lock; a Router reads without
    that lock.

    Nothing publishes by itself. In a migration, publish the new owner between `add_shard` and `drop_shard`, because the
    previous owner forwards to it until then."""

    def __init__(self, count: int) -> None:
        """Makes the map of this many shards, 1 to 4,096, of which none has a route yet. Raises NoShard, TooMany,
        NoMemory, or BadArgument for a number that C has no type for."""
        super().__init__()
        check(LIBRARY.durkenzo_publisher(ctypes.byref(self._handle), count))

    def new_router(self) -> Router:
        """Returns a new router of the map, which has seen all publications so far. Raises NoMemory."""
        return Router(self)

    def publish(self, by: Looks, shard: int) -> Route:
        """Publishes the shard's owner at its generation, as the pass sees it, and returns this route. Give it only
        passes of one board, because it can't tell boards apart.

        Raises UnknownShard if the board or the map has no such shard, WrongPhase if nobody owns it, and OldRoute if its
        last route is at least as new. The map then doesn't change.
        """
        record = by.look(shard)
        if record.phase == Phase.VACANT:
            raise WrongPhase()
        with self._lock:
            check(LIBRARY.durkenzo_publish(ctypes.byref(self._handle), shard, record.owner, record.generation))
        return Route(record.owner, record.generation)


class Router(Kept):
    """Reads a map of routes. The route that it reads of a shard may be old, but never becomes older. It can still read
    after the end of its publisher. Threads may share it, because each call takes its lock."""

    def __init__(self, of: Publisher) -> None:
        super().__init__()
        with of._lock:
            check(LIBRARY.durkenzo_router(ctypes.byref(of._handle), ctypes.byref(self._handle)))

    def route(self, shard: int) -> Route | None:
        """Returns the shard's route, if it has one: the last one among the publications that the router has now seen,
        which include all that it had seen before. A shard that isn't in the map has no route; raises UnknownShard only
        for a number that no shard can have."""
        parts = RouteParts()
        with self._lock:
            check(LIBRARY.durkenzo_route(ctypes.byref(self._handle), shard, ctypes.byref(parts)))
        return Route(parts.server, parts.generation) if parts.server else None
