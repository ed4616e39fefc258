use crate::proved::Core;
use durkenzo_store::Revision;
use std::time::Instant;

/// The state of a server's replica of the shard.
pub(super) enum ReplicaState {
    /// The server has read nothing. It may be read from this time on, or at once.
    Unread(Option<Instant>),
    /// The server must read the batches that it lacks, from this time on, or at once. The requests that it has made are
    /// lasting.
    Behind(Core, Option<Instant>),
    /// The server recovers the shard from the store, or catches up with the store. The number is that of its ticket.
    Reading(u64),
    /// The server decides requests. It has read and made everything up to these revisions.
    Ready(Core, Revisions),
    /// The server's transaction with this payload is under way. The number is that of its ticket.
    Sent(Core, Revisions, u64, TransactionPayload),
}

impl ReplicaState {
    /// Returns the state of a server that has lost a transaction, or doesn't know its outcome.
    pub(super) fn lost(mut core: Core) -> ReplicaState {
        match core.lost() {
            Ok(()) => ReplicaState::Behind(core, None),
            Err(_) => ReplicaState::Unread(None),
        }
    }

    /// Returns the state of a server that reads again from this time on: only the batches that it lacks if it has kept
    /// the requests that it made, otherwise everything.
    pub(super) fn later(kept: Option<Core>, later: Instant) -> ReplicaState {
        match kept {
            Some(core) => ReplicaState::Behind(core, Some(later)),
            None => ReplicaState::Unread(Some(later)),
        }
    }

    /// Returns from when on the server may read, if it must. No time means at once.
    pub(super) fn reads_from(&self) -> Option<Option<Instant>> {
        match self {
            ReplicaState::Unread(later) | ReplicaState::Behind(_, later) => Some(*later),
            ReplicaState::Reading(_) | ReplicaState::Ready(..) | ReplicaState::Sent(..) => None,
        }
    }
}

/// The purpose of a server's transaction.
#[derive(Clone, Copy, Debug, PartialEq, Eq)]
pub(super) enum TransactionPayload {
    /// It writes nothing: it compares the revisions on which reads depend.
    Reads,
    /// It only names a base in the head, and has nothing of a round.
    Base,
    /// It writes a batch, of the round with this number.
    Batch(u64),
}

/// The revisions that a server's transactions compare.
#[derive(Clone, Copy, Debug, PartialEq, Eq)]
pub(super) struct Revisions {
    /// The revision of the shard's record.
    pub(super) stood: Revision,
    /// The revision of the log's head.
    pub(super) logged: Revision,
}
