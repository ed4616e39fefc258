use crate::base_parts::KeyedParts;
use crate::proved::Core;
use crate::work::{self, Work, WorkStep};
use crate::Elsewhere;
use durkenzo_store::Transaction;

/// An action that a shard asks of its driver. The shard itself does no I/O.
pub(crate) enum Action {
    /// Sends a server's transaction. The outcome is told by [`super::Shard::on_outcome`], with this ticket.
    Submit(Ticket, Transaction),
    /// Recovers the shard for a server: the batches that it lacks if it has kept the requests that it made, otherwise
    /// everything. The result is told by [`super::Shard::on_read`], with this ticket.
    Read(Ticket, Option<Core>),
    /// Writes the parts of a server's base at these keys. Whether all were written is told by
    /// [`super::Shard::on_base`], with this ticket.
    WriteBase(Ticket, KeyedParts),
    /// Looks for keys that the base of this server may have replaced.
    Sweep(u16),
    /// Deletes these keys.
    Delete(Vec<Vec<u8>>),
    /// Tells the work its outcome.
    Tell(Box<dyn Work>, work::WorkOutcome),
    /// Forwards the steps to another process's server.
    HandOver(Elsewhere, Vec<WorkStep>),
    /// Acks the record of this generation, because this process's server is prepared to execute next.
    Prepared(u64),
    /// Reads the record.
    Look,
    /// Takes another number of a process, because the store has forgotten the clients of this one.
    Renew,
    /// Tells the holder that no transaction is under way.
    Hold(Box<dyn FnOnce() + Send>),
    /// Notes why the store has ended.
    StoreEnded(String),
}

/// Identifies the transaction, the recovery or the base of a server whose outcome is told.
#[derive(Clone, Copy, Debug, PartialEq, Eq)]
pub(crate) struct Ticket {
    pub(crate) server: u16,
    pub(super) number: u64,
}
