//! How the next owner of a shard gets ready while the owner still writes, so that nobody waits for its readings.
use super::{Action, ReplicaState, Shard};
use durkenzo::Stand;
use std::time::{Duration, Instant};

/// After so many readings in vain a server counts as prepared, because others may not help either.
const MOST_FAULTS: u32 = 4;
/// How long a prepared server waits until it reads what was written since.
const AGAIN: Duration = Duration::from_millis(200);

/// The readings of this process's server for the record by which it is the next owner.
#[derive(Debug, Default)]
pub(super) struct Preparation {
    /// The generation of that record.
    generation: u64,
    /// When the last reading ended.
    last: Option<Instant>,
    faults: u32,
    /// Whether it was told that the server is prepared.
    is_told: bool,
}

impl Preparation {
    fn of(generation: u64) -> Preparation {
        Preparation {
            generation,
            ..Preparation::default()
        }
    }

    /// Notes the end of a reading.
    pub(super) fn note_read(&mut self, now: Instant) {
        self.last = Some(now);
    }

    /// Notes a reading in vain.
    pub(super) fn note_fault(&mut self) {
        self.faults += 1;
    }

    /// Returns whether the last reading is so old that much may have been written since.
    fn is_old(&self, now: Instant) -> bool {
        self.last.is_none_or(|it| now >= it + AGAIN)
    }
}

impl Shard {
    /// Makes this process's server read the shard if the server is the next owner, before anybody asks it. If the owner
    /// still executes, tells once the server has read. Until then the control waits, and afterwards the server reads
    /// from time to time, so that it never lacks much.
    pub(crate) fn prepare(&mut self, now: Instant, actions: &mut Vec<Action>) {
        let next = self.next_here().filter(|it| self.is_reached(it.0));
        let Some((server, is_prepared)) = next else {
            return;
        };
        if is_prepared {
            self.begin_preparation();
            let is_ready = matches!(self.replicas.get(&server), Some(ReplicaState::Ready(..)));
            if is_ready || self.preparation.faults >= MOST_FAULTS {
                self.tell_prepared(actions);
            }
            if is_ready && self.preparation.is_old(now) {
                self.fall_behind(server);
            }
        }
        self.ready_core(server, now, actions);
    }

    /// Returns whether this process's server is the next owner. Then a later tick may have it read.
    pub(super) fn is_next_here(&self) -> bool {
        self.next_here().is_some()
    }

    /// Returns this process's server if it is the next owner, and whether the owner still executes.
    fn next_here(&self) -> Option<(u16, bool)> {
        let (next, is_prepared) = match self.stored.record()?.stand {
            Stand::Prepared { next, .. } => (next, true),
            Stand::Forwarding { next, .. } => (next, false),
            Stand::Vacant | Stand::Serving(_) | Stand::Taken { .. } | Stand::Paused(_) => {
                return None;
            }
        };
        (self.me() == Some(next)).then_some((next, is_prepared))
    }

    /// Forgets the readings for an earlier record.
    fn begin_preparation(&mut self) {
        let generation = self.stored.record().map_or(0, |it| it.generation);
        if self.preparation.generation != generation {
            self.preparation = Preparation::of(generation);
        }
    }

    /// Tells that the next owner is prepared, once for each record that names it. If its log is damaged, it is as
    /// prepared as it will be.
    pub(super) fn tell_prepared(&mut self, actions: &mut Vec<Action>) {
        self.begin_preparation();
        if self.next_here().is_some_and(|it| it.1) && !self.preparation.is_told {
            self.preparation.is_told = true;
            actions.push(Action::Prepared(self.preparation.generation));
        }
    }
}
