use super::pending_write::PendingWrite;
use super::tenure::Tenure;
use super::PAUSE;
use crate::lease_clock::Moment;
use durkenzo_store::{LeaseId, Revision};
use std::collections::{BTreeMap, BTreeSet};
use std::time::{Duration, Instant};

/// The most acks that one transaction tells, beside the server's key: etcd by default takes 128 writes.
pub(super) const MOST_ACKS: usize = 100;

/// The state of the server's own key, as far as it is known.
pub(super) struct OwnKey {
    pub(super) lease: Option<LeaseId>,
    /// When the lease was last granted or kept. It lasts for its length from some time after that.
    pub(super) kept: Moment,
    /// When it must next be kept, or another one taken, by the clock of the lease.
    pub(super) keep_due: Moment,
    /// The revision of the key as it was last written.
    pub(super) written: Revision,
    /// The revision that created the key under this lease.
    pub(super) joined: Revision,
    /// The acks by shard, and the shards whose acks aren't told under this lease yet.
    pub(super) acks: BTreeMap<u16, u64>,
    pub(super) untold: BTreeSet<u16>,
    /// The revision that the key tells, and the one that it must tell, with the time when that is due.
    pub(super) told: Revision,
    pub(super) followed: Revision,
    pub(super) due: Option<Instant>,
    /// When it was last written.
    pub(super) wrote: Instant,
    /// Until when nothing is written, because the last write failed.
    paused_until: Instant,
    /// The write on its way to the store.
    pub(super) pending: Option<PendingWrite>,
    /// Since when no other process of the server has executed, if this one executes by its lease.
    pub(super) tenure: Option<Tenure>,
    pub(super) is_over: bool,
}

impl OwnKey {
    /// Makes the state in which nothing is written yet, and there is no lease.
    pub(super) fn new(kept: Moment, now: Instant) -> OwnKey {
        OwnKey {
            lease: None,
            kept,
            keep_due: kept,
            written: Revision::NEVER,
            joined: Revision::NEVER,
            acks: BTreeMap::new(),
            untold: BTreeSet::new(),
            told: Revision::NEVER,
            followed: Revision::NEVER,
            due: None,
            wrote: now,
            paused_until: now,
            pending: None,
            tenure: None,
            is_over: false,
        }
    }

    /// Makes the key due at this time, or earlier if it is due earlier.
    pub(super) fn be_due(&mut self, at: Instant) {
        self.due = Some(self.due.map_or(at, |it| it.min(at)));
    }

    /// Makes the key due again, but not before the end of this pause.
    pub(super) fn pause(&mut self, now: Instant, pause: Duration) {
        self.paused_until = now + pause;
        self.be_due(now);
    }

    /// Returns whether the key must be written now. A write on its way must end first.
    pub(super) fn is_due(&self, now: Instant) -> bool {
        self.due_at().is_some_and(|it| it <= now)
    }

    /// Returns whether there is a lease and no write is on its way.
    fn may_write(&self) -> bool {
        let patience = self.tenure.as_ref().and_then(Tenure::patience);
        self.lease.is_some() && self.pending.is_none() && patience.is_none()
    }

    /// Returns when the key must next be written, if it may be.
    fn due_at(&self) -> Option<Instant> {
        let due = self.due.filter(|_| self.may_write());
        due.map(|it| it.max(self.paused_until))
    }

    /// Returns when it must next be written that this process executes, if that may be.
    pub(super) fn tenure_due_at(&self) -> Option<Instant> {
        let tenure = self.tenure.as_ref().filter(|_| self.may_write());
        tenure.and_then(|it| it.due_at(self.joined))
    }

    /// Returns after how long there is something to do, if nobody wakes it before and neither clock jumps.
    pub(super) fn next_turn(&self, now: Instant, by_lease: Moment) -> Duration {
        let patience = self.pending.as_ref().map(PendingWrite::end);
        let of_tenure = self.tenure.as_ref().and_then(Tenure::patience);
        let times = [self.due_at(), self.tenure_due_at(), patience, of_tenure];
        let times = times.into_iter().flatten();
        let waits = times.map(|it| it.saturating_duration_since(now));
        waits.fold(self.keep_due.since(by_lease), Duration::min)
    }

    /// Returns whether the key tells everything that it must.
    pub(super) fn is_told(&self) -> bool {
        self.written > Revision::NEVER && self.followed <= self.told && self.untold.is_empty()
    }

    /// Returns the next acks to tell, as many as one transaction may have. Acks are told together with a key that is
    /// there already: once it was written again, they are due at once.
    pub(super) fn acks_due(&self) -> Vec<(u16, u64)> {
        if self.written == Revision::NEVER {
            return Vec::new();
        }
        let due = self.untold.iter().take(MOST_ACKS);
        due.filter_map(|shard| Some((*shard, *self.acks.get(shard)?)))
            .collect()
    }

    /// Notes that these acks were told. Later ones of the same shards, and those that had no room, are due.
    pub(super) fn have_told(&mut self, acks: &[(u16, u64)], now: Instant) {
        for (shard, generation) in acks {
            if self.acks.get(shard) == Some(generation) {
                self.untold.remove(shard);
            }
        }
        if !self.untold.is_empty() {
            self.be_due(now);
        }
    }

    /// Notes the new lease, which was asked for at that moment. The key went with the earlier lease, and so did its
    /// acks, and any write under that lease.
    pub(super) fn have_lease(&mut self, lease: Option<LeaseId>, kept: Moment, now: Instant) {
        (self.lease, self.kept, self.told) = (lease, kept, Revision::NEVER);
        self.lie_nowhere();
        self.untold = self.acks.keys().copied().collect();
        self.pending = None;
        self.tenure.iter_mut().for_each(Tenure::have_lease);
        self.be_due(now);
    }

    /// Notes that the key isn't there.
    pub(super) fn lie_nowhere(&mut self) {
        (self.written, self.joined) = (Revision::NEVER, Revision::NEVER);
    }

    /// Notes that the lease has ended. Another one is taken after a pause.
    pub(super) fn lose_lease(&mut self, now: Instant, by_lease: Moment) {
        self.lease = None;
        self.keep_due = by_lease.after(PAUSE);
        self.be_due(now);
    }
}
