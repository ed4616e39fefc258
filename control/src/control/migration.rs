use super::advance::Advance;
use super::answer::ControlAnswer;
use super::controller::Controller;
use super::patience::Patience;
use super::Refusal;
use durkenzo::Stand;
use durkenzo_driver::{ControlCommand, Next};

/// A whole migration of a shard. Each call makes a step.
#[derive(Debug)]
pub(super) struct Migration {
    shard: u16,
    /// The server to which somebody moves it.
    to: Option<u16>,
    /// Whether it has begun, so that the next leader goes on with it.
    has_begun: bool,
    /// Whether it may have begun anyway, because the store didn't tell.
    is_doubtful: bool,
    /// For how long the next step is tried again while another thread has the shard.
    patience: Patience,
    /// Why it was given up, if it was. Then its shard must stay.
    given_up: Option<Refusal>,
}

impl Migration {
    /// Returns the migration of the shard to this server.
    pub(super) fn new(shard: u16, server: u16) -> Migration {
        Migration {
            to: Some(server),
            has_begun: false,
            ..Migration::going_on(shard)
        }
    }

    /// Returns a migration that has begun, or other work under way for the shard.
    pub(super) fn going_on(shard: u16) -> Migration {
        Migration {
            shard,
            to: None,
            has_begun: true,
            is_doubtful: false,
            patience: Patience::default(),
            given_up: None,
        }
    }

    /// Returns the shard.
    pub(super) fn shard(&self) -> u16 {
        self.shard
    }

    /// Returns whether it has begun, so that the next leader goes on with it.
    pub(super) fn has_begun(&self) -> bool {
        self.has_begun
    }

    /// Returns whether it may have begun, as far as the store tells.
    pub(super) fn may_have_begun(&self) -> bool {
        self.has_begun || self.is_doubtful
    }

    /// Makes the next step. If another thread prevents a step before the change of owner, the shard stays.
    pub(super) fn advance(&mut self, control: &mut Controller) -> Result<Advance, Refusal> {
        if let Some(refusal) = self.given_up.clone() {
            return self.stay(refusal, control);
        }
        match self.step(control) {
            Err(refusal) if refusal.is_passing() => {
                if self.patience.lasts(control.now()) {
                    return Ok(Advance::soon());
                }
                // Work under way for the shard is then another task's.
                if !self.has_begun {
                    return Err(refusal);
                }
                (self.given_up, self.patience) = (Some(refusal), Patience::default());
                Ok(Advance::soon())
            }
            advanced => {
                self.patience = Patience::default();
                advanced
            }
        }
    }

    /// Makes the shard stay, and then fails for this reason.
    fn stay(&mut self, why: Refusal, control: &mut Controller) -> Result<Advance, Refusal> {
        match self.cancel(control) {
            Err(refusal) if refusal.is_passing() && self.patience.lasts(control.now()) => {
                Ok(Advance::soon())
            }
            cancelled => cancelled.and(Err(why)),
        }
    }

    fn step(&mut self, control: &mut Controller) -> Result<Advance, Refusal> {
        if let Some(server) = self.to.filter(|_| !self.has_begun) {
            return self.begin(server, control);
        }
        match control.backend.next_of_shard(self.shard)? {
            Next::Nothing => self.end(control),
            Next::Waits => Ok(Advance::Later),
            Next::Command(ControlCommand::Reassign(shard, named)) => control.reassign(shard, named),
            Next::Command(command) => {
                if let ControlCommand::Pause(shard) = command {
                    control.paused.insert(shard);
                }
                control.step(command)
            }
        }
    }

    fn begin(&mut self, server: u16, control: &mut Controller) -> Result<Advance, Refusal> {
        let has_begun =
            self.is_doubtful && control.backend.next_of_shard(self.shard)? != Next::Nothing;
        if !has_begun {
            let made = control.make(ControlCommand::PrepareAddShard(self.shard, server));
            self.is_doubtful = made.as_ref().is_err_and(Refusal::is_of_store);
            made?;
        }
        self.has_begun = true;
        Ok(Advance::Again)
    }

    /// Ends the migration: nothing is under way any more. Fails if the shard isn't at its destination.
    fn end(&self, control: &mut Controller) -> Result<Advance, Refusal> {
        match self.to {
            Some(server) if !control.is_at(self.shard, server)? => {
                Err(Refusal::not_moved(self.shard, server))
            }
            _ => Ok(Advance::Done(ControlAnswer::Done)),
        }
    }

    /// Makes only the shard's owner execute again, if the next owner doesn't own it yet.
    fn cancel(&self, control: &mut Controller) -> Result<(), Refusal> {
        match self.stand(control)? {
            Some(Stand::Prepared { .. } | Stand::Forwarding { .. }) => {
                control.make(ControlCommand::Cancel(self.shard))
            }
            Some(Stand::Vacant | Stand::Serving(_) | Stand::Paused(_) | Stand::Taken { .. })
            | None => Ok(()),
        }
    }

    /// Ends it as it is: only one server has the shard.
    pub(super) fn give_up(&self, control: &mut Controller) -> Result<(), Refusal> {
        if !self.has_begun {
            return Ok(());
        }
        match self.stand(control)? {
            Some(Stand::Taken { .. }) => {
                control.make_patiently(ControlCommand::DropShard(self.shard))
            }
            Some(Stand::Prepared { .. } | Stand::Forwarding { .. }) => {
                control.make_patiently(ControlCommand::Cancel(self.shard))
            }
            Some(Stand::Vacant | Stand::Serving(_) | Stand::Paused(_)) | None => Ok(()),
        }
    }

    fn stand(&self, control: &mut Controller) -> Result<Option<Stand>, Refusal> {
        let record = control.backend.record(self.shard)?;
        Ok(record.map(|it| it.stand))
    }
}

#[cfg(test)]
mod tests {
    use super::super::plain_backend::PlainBackend;
    use super::*;
    use std::time::Duration;

    #[test]
    fn a_migration_that_gives_up_cancels_no_other_one() {
        let prepared = Stand::Prepared { owner: 1, next: 2 };
        for (mut migration, left) in [
            (Migration::new(0, 2), prepared),
            (Migration::going_on(0), Stand::Serving(1)),
        ] {
            let backend = PlainBackend::of(1, prepared);
            backend.plain().busy = [(0, 3)].into();
            let mut control = backend.control();
            let refused = loop {
                match migration.advance(&mut control) {
                    Err(refused) => break refused,
                    Ok(_) => backend.plain().passed += Duration::from_secs(1),
                }
            };
            assert!(refused.is_passing(), "{refused}");
            assert_eq!(backend.plain().stands[0], left);
        }
    }
}
