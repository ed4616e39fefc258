"""A shard's record."""
from __future__ import annotations

import enum
from dataclasses import dataclass
from typing import TYPE_CHECKING

if TYPE_CHECKING:
    from ._library import RecordParts


class Phase(enum.IntEnum):
    """How far the migration of a shard has come."""

    # By tools/library-codes, the phases of library/codes.txt:
    VACANT = 0
    SERVING = 1
    PREPARED = 2
    FORWARDING = 3
    TAKEN = 4
    PAUSED = 5
    # End of them.


@dataclass(frozen=True)
class Record:
    """The record of a shard on its board. A server is 0 if there is none; `other` is the next or the previous owner."""

    phase: Phase
    owner: int
    other: int
    admitted: bool
    generation: int

    @staticmethod
    def of(parts: RecordParts) -> Record:
        """Returns the record that the library wrote."""
        return Record(Phase(parts.phase), parts.owner, parts.other, parts.admitted, parts.generation)
