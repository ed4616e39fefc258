use super::{Action, Shard, READ_AGAIN};
use crate::run::Run;
use crate::{Came, Elsewhere, NotDone};
use durkenzo_store::Revision;
use std::time::Instant;

/// The destination of a run.
#[derive(Clone, Copy, Debug, PartialEq, Eq)]
pub(super) enum RunDestination {
    /// The servers of this process.
    Here,
    /// It waits until others have written or answered.
    Waits,
    /// This server of another process, to which it is forwarded like this.
    Elsewhere(u16, Came),
    /// Its sender, who looks again which server executes.
    Back,
}

impl Shard {
    /// Returns the only server of this process, unless it has all.
    pub(super) fn me(&self) -> Option<u16> {
        self.own.as_ref().map(|it| it.server())
    }

    /// Returns whether requests can be given to the server.
    pub(super) fn is_reached(&self, server: u16) -> bool {
        let is_there = self.own.as_ref().is_none_or(|own| {
            let is_own = own.server() == server;
            is_own && !own.is_replaced() || !is_own && own.members().contains_key(&server)
        });
        !self.away.contains(&server) && is_there
    }

    /// Returns whether another process has the name of this one's server. Then the server is away here.
    fn is_replaced(&self) -> bool {
        self.own.as_ref().is_some_and(|it| it.is_replaced())
    }

    /// Returns the destination of the run by the record, as it was last seen.
    pub(super) fn destination_of(&self, run: &Run, now: Instant) -> RunDestination {
        let Some(me) = self.me() else {
            return RunDestination::Here;
        };
        let revision = self.stored.revision();
        if run.after > revision || !run.is_due(now) {
            return RunDestination::Waits;
        }
        if let Some((to, hops, by)) = run.leaves.filter(|it| it.2 == revision) {
            let came = Came {
                from: me,
                hops,
                revision: by,
            };
            return self.if_reached(to, came);
        }
        match (
            self.stored.record().and_then(|it| it.owner()),
            run.origin.came,
        ) {
            (None, _) => RunDestination::Waits,
            (Some(owner), _) if owner == me && self.is_replaced() => RunDestination::Waits,
            (Some(owner), _) if owner == me => RunDestination::Here,
            (Some(owner), None) => self.if_reached(
                owner,
                Came {
                    revision,
                    ..Came::HERE
                },
            ),
            (Some(_), Some(_)) if self.stored.names(me) => RunDestination::Here,
            (Some(_), Some(_)) => RunDestination::Back,
        }
    }

    fn if_reached(&self, server: u16, came: Came) -> RunDestination {
        match self.is_reached(server) {
            true => RunDestination::Elsewhere(server, came),
            false => RunDestination::Waits,
        }
    }

    /// Hands over the runs that other processes' servers must do.
    pub(super) fn route(&mut self, now: Instant, actions: &mut Vec<Action>) {
        if self.own.is_none() {
            return;
        }
        for run in std::mem::take(&mut self.runs) {
            self.route_one(run, now, actions);
        }
    }

    /// Hands over the run, or puts it behind the others to wait.
    pub(super) fn route_one(&mut self, mut run: Run, now: Instant, actions: &mut Vec<Action>) {
        match self.destination_of(&run, now) {
            RunDestination::Here | RunDestination::Waits => self.runs.push_back(run),
            RunDestination::Elsewhere(..) if !run.keep_wanted() => {}
            RunDestination::Elsewhere(server, came) => {
                let elsewhere = Elsewhere {
                    shard: self.number,
                    server,
                    came,
                    since: run.origin.since,
                    first_came: run.origin.came,
                };
                actions.push(Action::HandOver(elsewhere, run.steps.into()));
            }
            RunDestination::Back => {
                let why = NotDone::Moved(self.stored.revision());
                let steps = run.steps.into_iter();
                actions.extend(steps.map(|it| Action::Tell(it.work, Err(why.clone()))));
            }
        }
    }

    /// Has the record read, if somebody has seen a later one.
    pub(super) fn look(&mut self, now: Instant, actions: &mut Vec<Action>) {
        let latest = self.runs.iter().map(|it| it.after).max();
        let is_behind = latest.unwrap_or(Revision::NEVER) > self.stored.revision();
        if is_behind && self.looked.is_none_or(|it| now >= it + READ_AGAIN) {
            self.looked = Some(now);
            actions.push(Action::Look);
        }
    }
}
