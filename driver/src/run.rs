use crate::round::Round;
use crate::shard::Lister;
use crate::work::WorkStep;
use crate::{Came, MapRequest};
use durkenzo_store::Revision;
use std::collections::VecDeque;
use std::time::Instant;

/// The most requests of one run that a round takes before other runs have their turn.
const SHARE: usize = 16;

/// The origin of steps.
#[derive(Clone, Copy, Debug, PartialEq, Eq)]
pub(crate) struct Origin {
    /// The number of their run.
    pub(crate) run: u64,
    /// Since when they wait.
    pub(crate) since: Instant,
    /// How they came from another process; nothing if a client gave them to this process.
    pub(crate) came: Option<Came>,
}

/// The steps that a client gave at once, in its order: the part of its pipeline that concerns one shard.
pub(crate) struct Run {
    pub(crate) origin: Origin,
    pub(crate) steps: VecDeque<WorkStep>,
    /// The run waits until the record was seen at this revision, and until this time.
    pub(crate) after: Revision,
    pub(crate) not_before: Option<Instant>,
    /// The server to which this process's server forwards the run, how often the run was then forwarded, and the
    /// revision of the record that says so.
    pub(crate) leaves: Option<(u16, u8, Revision)>,
}

impl Run {
    /// Returns whether the run's wait is over.
    pub(crate) fn is_due(&self, now: Instant) -> bool {
        self.not_before.is_none_or(|it| now >= it)
    }

    /// Drops the steps for which nobody waits any more; returns whether some are left.
    pub(crate) fn keep_wanted(&mut self) -> bool {
        self.steps.retain(|it| it.work.is_wanted());
        !self.steps.is_empty()
    }

    /// Gives the round its next steps, up to its share of requests. If there is a lister, it lists keys. Returns
    /// whether the run has more for this round.
    pub(crate) fn give(&mut self, round: &mut Round, mut lister: Option<&mut Lister>) -> bool {
        let end = round.requests.len() + SHARE;
        while !round.is_full() && round.requests.len() < end {
            let Some(step) = self.steps.pop_front() else {
                return false;
            };
            if !step.work.is_wanted() {
                continue;
            }
            if let Err(step) = round.take(self.origin, step, lister.as_deref_mut()) {
                self.steps.push_front(step);
                return false;
            }
        }
        !self.steps.is_empty()
    }
}

/// A change that has read its keys. Its requests come first in the next round.
pub(crate) struct DecidedChange {
    pub(crate) origin: Origin,
    pub(crate) step: WorkStep,
    pub(crate) requests: Vec<MapRequest>,
}
