use super::{ReplicaState, Revisions, Shard};
use crate::lease_clock::Moment;
use crate::{Member, Reads};

/// Since when a transaction has confirmed the knowledge of this process's server.
#[derive(Debug, Default)]
pub(super) struct LeaseReads {
    /// When the transaction under way was sent, if it compares the record and the head.
    sent: Option<Moment>,
    /// When the last transaction that compared was sent, and the revisions that held then.
    compared: Option<(Revisions, Moment)>,
    /// How many requests were answered without a transaction.
    count: u64,
}

impl LeaseReads {
    /// Takes the time at which the ended transaction was sent. Until it is known that it was made, it confirms nothing.
    pub(super) fn take_sent(&mut self) -> Option<Moment> {
        self.compared = None;
        self.sent.take()
    }

    /// Notes that it was made: at some time since then these revisions held.
    pub(super) fn note_held(&mut self, at: Revisions, sent: Option<Moment>) {
        self.compared = sent.map(|it| (at, it));
    }
}

impl Shard {
    /// Returns how many requests were answered without a transaction.
    pub(crate) fn read_by_lease(&self) -> u64 {
        self.lease_reads.count
    }

    /// Returns this process's server, if it may answer reads by its lease.
    fn leaser(&self) -> Option<&Member> {
        let own = self.own.as_deref();
        own.filter(|_| self.shard_options.reads == Reads::Lease)
    }

    /// Notes that a transaction is sent now, which compares the record and the head if `compares` is true.
    pub(super) fn note_sent(&mut self, compares: bool) {
        self.lease_reads.sent = self.leaser().filter(|_| compares).map(Member::now);
    }

    /// Returns whether this process's server may answer reads from its memory. As long as its lease is kept, nobody
    /// else has its place. If the shard went to another server by a change that it hasn't seen, that was less than a
    /// lease's length ago.
    pub(super) fn is_leased(&self) -> bool {
        let Some(own) = self.leaser() else {
            return false;
        };
        let (Some((held, since)), Some(ReplicaState::Ready(_, at))) =
            (self.lease_reads.compared, self.replicas.get(&own.server()))
        else {
            return false;
        };
        held == *at && self.unknown_at.is_none() && own.is_kept_since(since)
    }

    /// Makes the server answer its reads, as if the compares had held.
    pub(super) fn answer_by_lease(&mut self, server: u16) -> Result<(), u16> {
        let Some(ReplicaState::Ready(mut core, at)) = self.replicas.remove(&server) else {
            return Ok(());
        };
        let told = self.on_made(&mut core, at.logged).map_err(|_| server)?;
        self.lease_reads.count += told;
        self.replicas.insert(server, ReplicaState::Ready(core, at));
        Ok(())
    }
}
