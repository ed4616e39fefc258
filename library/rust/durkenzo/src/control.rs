use crate::board::Shared;
use crate::change::Change;
use crate::fault::{ChangeFault, PlanFault, RestartFault};
use crate::limits::MAX_SERVER;
use crate::parked;
use crate::plan::Plan;
use crate::raw::{self, Handle, RecordParts};
use crate::record::{Record, Stand};
use crate::restart_step::RestartStep;
use crate::restore_fault::RestoreFault;
use crate::server_id::ServerId;
use crate::shard_id::ShardId;
use crate::waiters::{Attempt, Wait};
use std::fmt;
use std::future::{self, Future};
use std::sync::Arc;
use std::time::{Duration, Instant};

/// The control of a board, which alone can change who owns a shard. Each call holds the control's lock while it runs.
///
/// # Restarts
///
/// A server restarts in this order: [`Control::ask`], [`Control::approve`] within the caps, a [`Control::migrate`] for
/// each move of [`Control::plan_drain`], and [`Control::stopped`]. End the server's passes then. When the server
/// begins again, call [`Control::back`], and `migrate` for each shard that has to move home. Call `back` too if you
/// give up the restart before that.
///
/// # Errors
///
/// A change is refused by `UnknownShard` or `UnknownServer` if there is no such shard or server. It is refused by
/// `WrongPhase` or `SameServer` if the shard's stand doesn't allow it. `Leaving`, `NoCapacity` and `DomainLimit` are
/// about the server that the change names; `Spent`, `Busy` and `Raced` are about the record that was read. A step of a
/// restart is refused by `UnknownServer`, by a cap, or by the stage of the server's restart. A refused call changes no
/// stand, except for [`Control::migrate`] and [`Control::restore`], which make several changes.
pub struct Control<T> {
    shared: Arc<Shared<T>>,
}

impl<T> Control<T> {
    pub(crate) fn new(shared: Arc<Shared<T>>) -> Control<T> {
        Control { shared }
    }

    /// Gives a vacant shard this owner.
    ///
    /// # Errors
    ///
    /// [Those of a change](Control#errors).
    pub fn assign(&self, shard: ShardId, server: ServerId) -> Result<(), ChangeFault> {
        self.change(shard, Change::Assign(server.get()))
    }

    /// Begins a migration of the shard to this server.
    ///
    /// # Errors
    ///
    /// [Those of a change](Control#errors).
    pub fn prepare_add_shard(&self, shard: ShardId, server: ServerId) -> Result<(), ChangeFault> {
        self.change(shard, Change::PrepareAddShard(server.get()))
    }

    /// Makes the shard's owner stop executing, and forward to the next owner.
    ///
    /// # Errors
    ///
    /// [Those of a change](Control#errors).
    pub fn prepare_drop_shard(&self, shard: ShardId) -> Result<(), ChangeFault> {
        self.change(shard, Change::PrepareDropShard)
    }

    /// Makes the next owner the owner. The previous owner forwards to it.
    ///
    /// # Errors
    ///
    /// [Those of a change](Control#errors).
    pub fn add_shard(&self, shard: ShardId) -> Result<(), ChangeFault> {
        self.change(shard, Change::AddShard)
    }

    /// Ends the migration: the previous owner drops the shard.
    ///
    /// # Errors
    ///
    /// [Those of a change](Control#errors).
    pub fn drop_shard(&self, shard: ShardId) -> Result<(), ChangeFault> {
        self.change(shard, Change::DropShard)
    }

    /// Gives up a migration that hasn't reached `add_shard`.
    ///
    /// # Errors
    ///
    /// [Those of a change](Control#errors).
    pub fn cancel(&self, shard: ShardId) -> Result<(), ChangeFault> {
        self.change(shard, Change::Cancel)
    }

    /// Stops all execution of the shard's requests.
    ///
    /// # Errors
    ///
    /// [Those of a change](Control#errors).
    pub fn pause(&self, shard: ShardId) -> Result<(), ChangeFault> {
        self.change(shard, Change::Pause)
    }

    /// Makes the owner of a paused shard execute again.
    ///
    /// # Errors
    ///
    /// [Those of a change](Control#errors).
    pub fn resume(&self, shard: ShardId) -> Result<(), ChangeFault> {
        self.change(shard, Change::Resume)
    }

    /// Gives a paused shard this owner.
    ///
    /// # Errors
    ///
    /// [Those of a change](Control#errors).
    pub fn reassign(&self, shard: ShardId, server: ServerId) -> Result<(), ChangeFault> {
        self.change(shard, Change::Reassign(server.get()))
    }

    /// Moves the shard to this server by a whole migration. While the shard is admitted, this thread is parked before
    /// the next step. If that admission never ends, `migrate` never returns: for example, because the calling thread
    /// holds the permit, or has forgotten it while its pass lives. [`Control::migrate_for`] waits for a limited time.
    ///
    /// `migrate` publishes no route. If you keep [`Routes`](crate::Routes), take the steps one by one, and publish
    /// before `drop_shard`.
    ///
    /// # Errors
    ///
    /// [Those of a change](Control#errors), except for `Busy` and `Raced`. If a step is refused, the steps before it
    /// stay made, and the shard is left in the middle of its migration. Before `add_shard`, [`Control::cancel`] goes
    /// back; after it, [`Control::drop_shard`] ends the migration.
    pub fn migrate(&self, shard: ShardId, server: ServerId) -> Result<(), ChangeFault> {
        let mut steps = migration(server).into_iter();
        steps.try_for_each(|step| self.change_blocking(shard, step))
    }

    /// Moves the shard as [`Control::migrate`] does, without waiting.
    ///
    /// # Errors
    ///
    /// [Those of a change](Control#errors). `Busy` or `Raced` comes if a step would have to wait. The steps before it
    /// stay made, as with `migrate`.
    pub fn try_migrate(&self, shard: ShardId, server: ServerId) -> Result<(), ChangeFault> {
        let mut steps = migration(server).into_iter();
        steps.try_for_each(|step| self.change(shard, step))
    }

    /// Moves the shard as [`Control::migrate`] does, and waits at most for this time in all.
    ///
    /// # Errors
    ///
    /// [Those of a change](Control#errors). `Busy` or `Raced` comes after the time. The steps before it stay made, as
    /// with `migrate`. [`Control::change_for`] takes one of the other steps.
    pub fn migrate_for(
        &self,
        shard: ShardId,
        server: ServerId,
        time: Duration,
    ) -> Result<(), ChangeFault> {
        let until = parked::end_of(time);
        let mut steps = migration(server).into_iter();
        steps.try_for_each(|step| self.change_until(shard, step, until))
    }

    /// Moves the shard as [`Control::migrate`] does, for a task of any async runtime.
    ///
    /// If the future is dropped, the steps that it has made stay made, as with `migrate`.
    ///
    /// # Errors
    ///
    /// Those of [`Control::migrate`].
    pub async fn migrate_async(&self, shard: ShardId, server: ServerId) -> Result<(), ChangeFault> {
        for step in migration(server) {
            self.change_async(shard, step).await?;
        }
        Ok(())
    }

    /// Makes the changes that lead a vacant shard, or a shard on its way, to this stand. Use it to restore an older
    /// board's shard. It restores no generation: open the board [`after`](crate::Builder::after) the older board's
    /// fencing tokens, so that its own are greater.
    ///
    /// # Errors
    ///
    /// `Change` with the first change that is refused, or `NoMemory`. The changes before the refused one stay made.
    pub fn restore(&self, shard: ShardId, to: Stand) -> Result<(), RestoreFault> {
        let (from, mut at) = (self.stand(shard)?, to);
        let mut changes = Vec::new();
        while at != from {
            let (before, change) = at.step_to().ok_or(ChangeFault::WrongPhase)?;
            changes.push(change);
            at = before;
        }
        for change in changes.into_iter().rev() {
            self.change(shard, change)?;
        }
        Ok(())
    }

    /// Asks for a restart of the server. This is the first step of [a restart](Control#restarts).
    ///
    /// # Errors
    ///
    /// [Those of a step](Control#errors).
    pub fn ask(&self, server: ServerId) -> Result<(), RestartFault> {
        self.restart(server, RestartStep::Ask)
    }

    /// Approves the restart of the server, within the caps.
    ///
    /// # Errors
    ///
    /// [Those of a step](Control#errors).
    pub fn approve(&self, server: ServerId) -> Result<(), RestartFault> {
        self.restart(server, RestartStep::Approve)
    }

    /// Notes that the server was stopped for its restart. The server must not serve any shard.
    ///
    /// # Errors
    ///
    /// [Those of a step](Control#errors).
    pub fn stopped(&self, server: ServerId) -> Result<(), RestartFault> {
        self.restart(server, RestartStep::Stopped)
    }

    /// Notes that the server is up again, after a restart or a failure, or that its restart is given up.
    ///
    /// # Errors
    ///
    /// [Those of a step](Control#errors).
    pub fn back(&self, server: ServerId) -> Result<(), RestartFault> {
        self.restart(server, RestartStep::Back)
    }

    /// Notes that the server failed. This changes no shard: until [`Control::pause`], the server's own passes are still
    /// admitted to its shards. After the pause, [`Control::reassign`] gives the shard another owner.
    ///
    /// # Errors
    ///
    /// [Those of a step](Control#errors).
    pub fn fail(&self, server: ServerId) -> Result<(), RestartFault> {
        self.restart(server, RestartStep::Fail)
    }

    /// Plans where the vacant shards go, and moves nothing. In the order of their numbers, each shard goes to the
    /// lowest server that it fits, as if the earlier moves were made.
    ///
    /// # Errors
    ///
    /// `NoMemory` if memory for the plan is refused.
    pub fn plan_assign(&self) -> Result<Plan, PlanFault> {
        self.plan(0)
    }

    /// Plans to which other servers this server's shards go, and moves nothing.
    ///
    /// # Errors
    ///
    /// `UnknownServer` if there is no such server, or `NoMemory`.
    pub fn plan_drain(&self, server: ServerId) -> Result<Plan, PlanFault> {
        self.plan(server.get())
    }

    fn plan(&self, from: u16) -> Result<Plan, PlanFault> {
        let mut plan = Handle::empty();
        // SAFETY: the control's handle is locked, and only this call uses the other.
        match unsafe { raw::durkenzo_plan(&mut *self.shared.chief(), &mut plan, from) } {
            0 => Ok(Plan::of(plan)),
            code => Err(PlanFault::of(code)),
        }
    }

    // Returns the shard's stand, which a pass of any server sees.
    fn stand(&self, shard: ShardId) -> Result<Stand, RestoreFault> {
        let mut pass = self.any_pass()?;
        // SAFETY: only this call uses the handle.
        match unsafe { raw::durkenzo_look_word(&mut pass, shard.get()) } {
            raw::NO_WORD => Err(ChangeFault::UnknownShard.into()),
            word => Ok(Record::of_word(word).stand),
        }
    }

    // Returns a pass of the board's first server. Its number is in the settings.
    fn any_pass(&self) -> Result<Handle, RestoreFault> {
        let (mut chief, mut pass) = (self.shared.chief(), Handle::empty());
        for server in 1..=MAX_SERVER {
            // SAFETY: the control's handle is locked, and only this call uses the other.
            match unsafe { raw::durkenzo_pass(&mut *chief, &mut pass, server) } {
                0 => return Ok(pass),
                raw::UNKNOWN_SERVER => {}
                _ => break,
            }
        }
        Err(RestoreFault::NoMemory)
    }

    /// Makes this change of the shard.
    ///
    /// # Errors
    ///
    /// [Those of a change](Control#errors).
    pub fn change(&self, shard: ShardId, change: Change) -> Result<(), ChangeFault> {
        let ((kind, server), mut read) = (change.parts(), RecordParts::default());
        // SAFETY: the control's handle is locked, and only this call uses the record.
        match unsafe {
            raw::durkenzo_change(
                &mut *self.shared.chief(),
                shard.get(),
                kind,
                server,
                &mut read,
            )
        } {
            0 => Ok(()),
            code => Err(ChangeFault::of(code, Record::of(&read))),
        }
    }

    /// Makes this change of the shard as soon as the shard isn't admitted. Until then, the thread is parked, as in
    /// [`Control::migrate`].
    ///
    /// # Errors
    ///
    /// [Those of a change](Control#errors), except for `Busy` and `Raced`.
    pub fn change_blocking(&self, shard: ShardId, change: Change) -> Result<(), ChangeFault> {
        self.change_until(shard, change, None)
    }

    /// Makes this change of the shard. While the shard is admitted, the thread is parked, at most for this time.
    ///
    /// # Errors
    ///
    /// [Those of a change](Control#errors). `Busy` or `Raced` comes after the time.
    pub fn change_for(
        &self,
        shard: ShardId,
        change: Change,
        time: Duration,
    ) -> Result<(), ChangeFault> {
        self.change_until(shard, change, parked::end_of(time))
    }

    /// Makes this change of the shard as soon as the shard isn't admitted, for a task of any async runtime. The future
    /// gives up if it is dropped.
    ///
    /// # Errors
    ///
    /// [Those of a change](Control#errors), except for `Busy` and `Raced`.
    pub fn change_async(
        &self,
        shard: ShardId,
        change: Change,
    ) -> impl Future<Output = Result<(), ChangeFault>> + '_ {
        let mut wait = Wait::default();
        future::poll_fn(move |context| {
            let attempt = || match self.change(shard, change) {
                Err(ChangeFault::Raced(_)) => Attempt::Raced,
                Err(ChangeFault::Busy(_)) => Attempt::Held,
                made => Attempt::Ended(made),
            };
            wait.poll(context, (&self.shared.waiters, shard), attempt, |_| false)
        })
    }

    /// Makes the change, and waits at most until then, or for as long as it takes if no time is given.
    fn change_until(
        &self,
        shard: ShardId,
        change: Change,
        until: Option<Instant>,
    ) -> Result<(), ChangeFault> {
        let attempt = || match self.change(shard, change) {
            Err(fault) if fault.is_transient() => None,
            made => Some(made),
        };
        if let Some(made) = attempt().or_else(|| parked::spin(attempt)) {
            return made;
        }
        let waited = parked::wait_for(self.change_async(shard, change), until);
        waited.unwrap_or_else(|| self.change(shard, change))
    }

    /// Makes this step of the server's restart.
    ///
    /// # Errors
    ///
    /// [Those of a step](Control#errors).
    pub fn restart(&self, server: ServerId, step: RestartStep) -> Result<(), RestartFault> {
        let kind = step.number();
        // SAFETY: the control's handle is locked.
        match unsafe { raw::durkenzo_restart(&mut *self.shared.chief(), kind, server.get()) } {
            0 => Ok(()),
            code => Err(RestartFault::of(code)),
        }
    }
}

impl<T> Clone for Control<T> {
    fn clone(&self) -> Control<T> {
        Control {
            shared: self.shared.clone(),
        }
    }
}

impl<T> fmt::Debug for Control<T> {
    fn fmt(&self, f: &mut fmt::Formatter<'_>) -> fmt::Result {
        f.debug_struct("Control").finish_non_exhaustive()
    }
}

/// Returns the steps of a migration to this server, in order.
fn migration(server: ServerId) -> [Change; 4] {
    [
        Change::PrepareAddShard(server.get()),
        Change::PrepareDropShard,
        Change::AddShard,
        Change::DropShard,
    ]
}
