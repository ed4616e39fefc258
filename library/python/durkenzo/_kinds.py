"""The numbers of the commands of a control."""
import enum


# By tools/library-codes, the kinds of library/codes.txt:

class ChangeKind(enum.IntEnum):
    """A change of a shard's stand."""

    ASSIGN = 1  # gives a vacant shard this owner
    PREPARE_ADD_SHARD = 2  # begins a migration of the shard to this server
    PREPARE_DROP_SHARD = 3  # makes the owner stop executing, and forward to the next owner
    ADD_SHARD = 4  # makes the next owner the owner; the previous owner forwards to it
    DROP_SHARD = 5  # ends the migration: the previous owner drops the shard
    CANCEL = 6  # gives up a migration, if the next owner isn't the owner yet
    PAUSE = 7  # pauses the shard: no server executes its requests
    RESUME = 8  # makes the owner of a paused shard execute again
    REASSIGN = 9  # gives a paused shard this owner


class RestartKind(enum.IntEnum):
    """A step of a server's restart."""

    ASK = 1  # asks for a restart of the server
    APPROVE = 2  # approves the restart, within the caps
    STOPPED = 3  # notes that the server was stopped, if it serves no shard any more
    BACK = 4  # notes that the server is up again, or that its restart is given up
    FAIL = 5  # notes that the server failed
# End of them.
