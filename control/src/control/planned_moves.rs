use super::controller::Controller;
use super::Refusal;
use durkenzo::{Move, Stand};
use durkenzo_driver::{ControlCommand, Next};
use std::collections::{BTreeMap, VecDeque};

/// The moves of all shards of a server, or of the vacant shards if `server` is 0, by the proved plan. If changes don't
/// outlive the process, nobody else makes any, so one plan is kept for all its moves: the time of a plan grows with the
/// number of shards.
#[derive(Debug)]
pub(super) struct PlannedMoves {
    server: u16,
    /// The moves of the last plan that weren't begun.
    left: VecDeque<Move>,
    /// Whether other moves of that plan were made before the last one that was told.
    is_of_earlier: bool,
    /// The shards whose moves were refused, and why. Other shards go on.
    aside: BTreeMap<u16, Refusal>,
}

impl PlannedMoves {
    /// Returns the moves of this server's shards, or of the vacant ones if `server` is 0.
    pub(super) fn of(server: u16) -> PlannedMoves {
        PlannedMoves {
            server,
            left: VecDeque::new(),
            is_of_earlier: false,
            aside: BTreeMap::new(),
        }
    }

    /// Returns the next step of the shards that aren't set aside.
    pub(super) fn next(&mut self, control: &mut Controller) -> Result<Next, Refusal> {
        let is_by_store = control.backend.lasts() && self.left.is_empty() && self.aside.is_empty();
        if is_by_store {
            match control.backend.next_of_drain(self.server)? {
                // The first move would be refused, but others may go on.
                Next::Waits if self.server > 0 => {}
                next => return Ok(next),
            }
        }
        self.is_of_earlier = true;
        if let Some(command) = self.next_left(control)? {
            return Ok(Next::Command(command));
        }
        self.is_of_earlier = false;
        self.left = control.backend.plan(self.server)?.moves.into();
        match self.next_left(control)? {
            Some(command) => Ok(Next::Command(command)),
            None if self.aside.is_empty() => Ok(control.backend.next_of_drain(self.server)?),
            None => Ok(Next::Nothing),
        }
    }

    /// Plans the next move again, because the last one was refused. Returns whether the reason may be that many changes
    /// were made since the plan.
    pub(super) fn forget(&mut self) -> bool {
        self.left.clear();
        std::mem::take(&mut self.is_of_earlier)
    }

    /// Lets others go on, because this shard's move was refused.
    pub(super) fn put_aside(&mut self, shard: u16, why: Refusal) {
        self.aside.insert(shard, why);
    }

    /// Returns the first shard that is set aside, and why its move was refused.
    pub(super) fn refused(&self) -> Option<(u16, &Refusal)> {
        self.aside.iter().next().map(|(shard, why)| (*shard, why))
    }

    /// Takes up the shards that are set aside and may be moved later. Returns whether there are some.
    pub(super) fn take_up_aside(&mut self) -> bool {
        let aside = self.aside.len();
        self.aside.retain(|_, why| why.is_for_good());
        self.aside.len() < aside
    }

    /// Returns the command of the next move whose shard still has the stand that the plan saw. Another task may have
    /// moved a shard.
    fn next_left(&mut self, control: &mut Controller) -> Result<Option<ControlCommand>, Refusal> {
        while let Some(Move { shard, server }) = self.left.pop_front() {
            let (shard, server) = (shard.get(), server.get());
            if self.aside.contains_key(&shard) {
                continue;
            }
            let stand = control.backend.record(shard)?.map(|it| it.stand);
            if self.server == 0 && stand == Some(Stand::Vacant) {
                return Ok(Some(ControlCommand::Assign(shard, server)));
            }
            if self.server > 0 && stand == Some(Stand::Serving(self.server)) {
                return Ok(Some(ControlCommand::PrepareAddShard(shard, server)));
            }
        }
        Ok(None)
    }
}
