use super::{Action, ReplicaState, Shard};
use crate::round::Round;
use crate::round_step::AbortedStep;
use crate::run::{DecidedChange, Origin, Run};
use crate::{NotDone, WorkStep};
use durkenzo_store::Revision;
use std::collections::{BTreeMap, VecDeque};

/// Steps that begin again, in the order of each run.
type Retries = BTreeMap<u64, (Origin, VecDeque<WorkStep>)>;

impl Shard {
    /// Notes the head of the log as it was read. If it isn't as this process left it, somebody else has written since
    /// changes were decided, so these changes read again.
    pub(super) fn note_head(&mut self, logged: Revision) {
        if logged <= self.logged {
            return;
        }
        self.logged = logged;
        self.round.iter_mut().for_each(|it| it.is_broken = true);
        let mut again = Retries::new();
        for DecidedChange { origin, step, .. } in std::mem::take(&mut self.decided) {
            put(&mut again, origin, step);
        }
        self.begin_again(again);
    }

    /// Aborts the round. Nothing of it is made or will be, except requests with replies: these are told. All others
    /// begin again, or end with their reasons.
    pub(super) fn abort_round(&mut self, actions: &mut Vec<Action>) {
        let Some(round) = self.round.take() else {
            return;
        };
        self.unknown_at = None;
        for server in round.waits_at() {
            self.forget_waiting(server);
        }
        let mut again = Retries::new();
        for it in round.aborted() {
            match it {
                AbortedStep::Told(work, outcome) => actions.push(Action::Tell(work, outcome)),
                AbortedStep::Again(origin, step) => put(&mut again, origin, step),
            }
        }
        self.begin_again(again);
    }

    /// Drops the steps for which nobody waits any more.
    pub(crate) fn drop_unwanted(&mut self, actions: &mut Vec<Action>) {
        self.abort_if_unwanted(actions);
        self.runs.retain_mut(Run::keep_wanted);
    }

    /// Aborts the round if nobody waits any more for a part of it, unless something of it may have been made.
    pub(super) fn abort_if_unwanted(&mut self, actions: &mut Vec<Action>) {
        let may_be_made = self.is_sent() || self.unknown_at.is_some();
        if !may_be_made && self.round.as_ref().is_some_and(Round::has_unwanted) {
            self.abort_round(actions);
        }
    }

    /// Takes everything back that waits at the server.
    fn forget_waiting(&mut self, server: u16) {
        let stored = &self.stored;
        if let Some(ReplicaState::Ready(core, at)) = self.replicas.get_mut(&server) {
            match core.record(stored.bytes(), stored.revision()) {
                Ok(()) => at.stood = stored.revision(),
                Err(_) => self.read_again(server),
            }
        }
    }

    /// Puts these steps before the other waiting steps of their runs.
    fn begin_again(&mut self, again: Retries) {
        for (number, (origin, mut steps)) in again.into_iter().rev() {
            match self.runs.iter_mut().find(|it| it.origin.run == number) {
                Some(run) => {
                    steps.append(&mut run.steps);
                    run.steps = steps;
                }
                None => self.runs.push_front(Run {
                    origin,
                    steps,
                    after: Revision::NEVER,
                    not_before: None,
                    leaves: None,
                }),
            }
        }
    }

    /// Ends the round with an unknown outcome.
    pub(super) fn end_unknown(&mut self, actions: &mut Vec<Action>) {
        self.round.iter_mut().for_each(|it| it.may_be_made = true);
        self.give_up_round(
            &NotDone::Unknown("the store keeps no note of it".to_owned()),
            actions,
        );
    }
}

fn put(again: &mut Retries, origin: Origin, step: WorkStep) {
    let (_, steps) = again.entry(origin.run).or_insert((origin, VecDeque::new()));
    steps.push_back(step);
}
