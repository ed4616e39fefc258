"""Why calls are refused: an exception for each reason."""
from __future__ import annotations

from .record import Record


class DurkenzoError(Exception):
    """A call was refused. If a shard's record refused it, `record` is the record that was read."""

    code: int | None = 0

    def __init__(self, record: Record | None = None) -> None:
        super().__init__(self.__doc__ if record is None else f"{self.__doc__} {record}")
        self.record = record


# By tools/library-codes, the codes of library/codes.txt:
class WrongHandle(DurkenzoError):
    """The pass has a permit, or was closed."""

    code = 1


class BadArgument(DurkenzoError):
    """A server's number isn't 1 to 4,095, or another argument is out of range."""

    code = 2


class NoMemory(DurkenzoError):
    """Out of memory."""

    code = 3


class BadCeiling(DurkenzoError):
    """The ceiling of generations is 3 to 68,719,476,735."""

    code = 5


class NoShard(DurkenzoError):
    """A board, or a map of routes, has at least one shard."""

    code = 6


class TooMany(DurkenzoError):
    """A board, a layout or a map of routes has at most 4,096 shards."""

    code = 7


class BadBooks(DurkenzoError):
    """There are no servers."""

    code = 8


class BadCount(DurkenzoError):
    """The number of bodies isn't the number of shards of the settings."""

    code = 9


class UnknownShard(DurkenzoError):
    """There is no such shard."""

    code = 10


class WrongPhase(DurkenzoError):
    """The change doesn't begin from the shard's stand."""

    code = 11


class SameServer(DurkenzoError):
    """The server owns the shard."""

    code = 12


class ChangeSpent(DurkenzoError):
    """The shard's generations are spent."""

    code = 13


class Busy(DurkenzoError):
    """The shard is admitted."""

    code = 14


class Raced(DurkenzoError):
    """Another thread was first."""

    code = 15


class BadAfter(DurkenzoError):
    """Fencing tokens begin after a number of at most 9,223,371,968,135,299,072."""

    code = 16


class NobodyOwns(DurkenzoError):
    """Nobody owns the shard."""

    code = 21


class IsPaused(DurkenzoError):
    """The shard is paused."""

    code = 22


class NotExecutor(DurkenzoError):
    """Another server executes the shard's requests."""

    code = 23


class NotYet(DurkenzoError):
    """The server executes only what the owner forwards."""

    code = 24


class IsAdmitted(DurkenzoError):
    """The shard is admitted."""

    code = 25


class Spent(DurkenzoError):
    """The shard's generations are spent."""

    code = 26


class NotAdmitted(DurkenzoError):
    """The admission has ended."""

    code = 27


class UnknownServer(DurkenzoError):
    """There is no such server."""

    code = 30


class Leaving(DurkenzoError):
    """The server is leaving."""

    code = 31


class NoCapacity(DurkenzoError):
    """The server has no room."""

    code = 32


class DomainLimit(DurkenzoError):
    """The server's domain has as many shards of the group as its limit allows."""

    code = 33


class NotUp(DurkenzoError):
    """The server isn't up."""

    code = 40


class NotAsked(DurkenzoError):
    """No restart of the server is asked for."""

    code = 41


class GlobalCap(DurkenzoError):
    """Too many servers would be leaving."""

    code = 42


class ShardCap(DurkenzoError):
    """A shard may not be down."""

    code = 43


class GroupCap(DurkenzoError):
    """Too many shards of a group would be down."""

    code = 44


class DomainCap(DurkenzoError):
    """Too many servers of a domain would be down."""

    code = 45


class NotApproved(DurkenzoError):
    """The server's restart isn't approved."""

    code = 46


class StillServing(DurkenzoError):
    """A shard that names the server isn't paused."""

    code = 47


class AlreadyUp(DurkenzoError):
    """The server is up already."""

    code = 48


class AlreadyFailed(DurkenzoError):
    """The server has failed already."""

    code = 49


class NoBound(DurkenzoError):
    """A layout has at least one bound."""

    code = 50


class FirstNotEmpty(DurkenzoError):
    """The first bound is not empty."""

    code = 51


class NotRising(DurkenzoError):
    """A bound is not above the one before it."""

    code = 52


class BoundTooLong(DurkenzoError):
    """A bound has more than 255 bytes."""

    code = 53


class KeyEmpty(DurkenzoError):
    """A key has at least one byte."""

    code = 57


class KeyTooLong(DurkenzoError):
    """A key has at most 255 bytes."""

    code = 58


class OldRoute(DurkenzoError):
    """The shard's published route is as new."""

    code = 64


class WrongKind(DurkenzoError):
    """The key holds a count and the request is for a text, or the other way round."""

    code = None


class CountOverflow(DurkenzoError):
    """The count would have more than 64 bits."""

    code = None


class TextTooLong(DurkenzoError):
    """The text would have more than 65,535 bytes."""

    code = None


class OtherCode(DurkenzoError):
    """The library answered a code that this version doesn't know."""

    code = None


# The codes with which a record is written.
_READ = {13, 14, 15, 21, 22, 23, 24, 25, 26}

__all__ = [
    "DurkenzoError",
    "WrongHandle",
    "BadArgument",
    "NoMemory",
    "BadCeiling",
    "NoShard",
    "TooMany",
    "BadBooks",
    "BadCount",
    "UnknownShard",
    "WrongPhase",
    "SameServer",
    "ChangeSpent",
    "Busy",
    "Raced",
    "BadAfter",
    "NobodyOwns",
    "IsPaused",
    "NotExecutor",
    "NotYet",
    "IsAdmitted",
    "Spent",
    "NotAdmitted",
    "UnknownServer",
    "Leaving",
    "NoCapacity",
    "DomainLimit",
    "NotUp",
    "NotAsked",
    "GlobalCap",
    "ShardCap",
    "GroupCap",
    "DomainCap",
    "NotApproved",
    "StillServing",
    "AlreadyUp",
    "AlreadyFailed",
    "NoBound",
    "FirstNotEmpty",
    "NotRising",
    "BoundTooLong",
    "KeyEmpty",
    "KeyTooLong",
    "OldRoute",
    "WrongKind",
    "CountOverflow",
    "TextTooLong",
    "OtherCode",
]
# End of them.

_BY_CODE = {it.code: it for it in DurkenzoError.__subclasses__()}


def error_of(code: int, record: Record | None) -> DurkenzoError:
    """Returns the exception of a code, with the record if the library wrote one."""
    error = _BY_CODE.get(code, OtherCode)(record if code in _READ else None)
    error.code = code
    return error
