use super::advance::Advance;
use super::Refusal;
use durkenzo::{ChangeFault, Plan, PlanFault, Record, RestartFault};
use durkenzo_driver::{ControlCommand, Intent, Next, Refused, ServerState, ShardLoad};
use durkenzo_store::WriteError;
use std::fmt;
use thiserror::Error;

/// The base of a control: it makes commands, and proved code behind it chooses the next ones.
///
/// # Errors
///
/// Questions and intents fail as [`BackendFault`] says: if there is no such shard or server, or the store doesn't
/// answer.
pub trait Backend: Send {
    /// Returns the number of servers. They are numbered from 1 on.
    fn servers(&self) -> u16;

    /// Returns the number of shards. They are numbered from 0 on.
    fn shards(&self) -> u16;

    /// Returns whether work under way outlives this process, so that the next leader goes on with it. If it doesn't, a
    /// restart doesn't pause shards that fit on no other server: it is refused.
    fn lasts(&self) -> bool;

    /// Makes the command, or returns why it can't. If another thread holds a command back for now, the command may be
    /// tried again.
    ///
    /// # Errors
    ///
    /// As [`BackendFault`] says. If the error isn't about an unknown outcome in the store, nothing has changed.
    fn command(&mut self, command: ControlCommand) -> Result<(), BackendFault>;

    /// Returns the next step of the shard's migration.
    fn next_of_shard(&mut self, shard: u16) -> Result<Next, BackendFault>;

    /// Returns the next step of the server's restart.
    fn next_of_server(&mut self, server: u16) -> Result<Next, BackendFault>;

    /// Returns the next step of the drain of the server, or of the vacant shards if `server` is 0.
    fn next_of_drain(&mut self, server: u16) -> Result<Next, BackendFault>;

    /// Plans the moves of the server's shards, or of the vacant shards if `server` is 0. Nothing is moved.
    fn plan(&mut self, server: u16) -> Result<Plan, BackendFault>;

    /// Returns the shard's record, if there is such a shard.
    fn record(&mut self, shard: u16) -> Result<Option<Record>, BackendFault>;

    /// Returns how far the server's restart has come.
    fn state_of(&mut self, server: u16) -> Result<ServerState, BackendFault>;

    /// Returns whether the restart of the server is over if this process runs the server: the process began after the
    /// one that had to end.
    fn is_restarted_by(&mut self, _server: u16, _process: u64) -> Result<bool, BackendFault> {
        Ok(false)
    }

    /// Returns the settings in force, as a line, and their number. It is called if there are several processes.
    fn settings(&mut self) -> Result<(String, u64), BackendFault> {
        Err(Refused::OtherSettings.into())
    }

    /// Puts the settings of this line in force. It is called if there are several processes.
    fn resettle(&mut self, _line: &str) -> Result<(), BackendFault> {
        Err(Refused::OtherSettings.into())
    }

    /// Sets whether requests reach the server, by its state.
    fn show_state(&mut self, server: u16, state: ServerState);

    /// Begins to wait until everybody who sends requests has acted upon the states that were shown, such as this
    /// server's. Returns nothing if there is nobody to wait for. Each caller has its own wait.
    fn wait_for_state(&mut self, _server: u16) -> Option<Box<dyn StateWait>> {
        None
    }

    /// Returns the paused shards whose owners came back after the pause, with nothing under way.
    fn left_paused(&mut self) -> Result<Vec<u16>, BackendFault> {
        Ok(Vec::new())
    }

    /// Returns the first server to which requests go although it isn't there, if there is one.
    fn fallen(&mut self) -> Result<Option<u16>, BackendFault> {
        Ok(None)
    }

    /// Returns the loads of shards, as servers have told them: the server, the shard and its load.
    fn loads(&mut self) -> Result<Vec<(u16, u16, ShardLoad)>, BackendFault> {
        Ok(Vec::new())
    }

    /// Returns all intents that weren't withdrawn, if they outlive the process.
    fn intents(&mut self) -> Result<Vec<Intent>, BackendFault> {
        Ok(Vec::new())
    }

    /// Keeps the intents, if they must outlive the process. If that fails, none of them is kept, unless the outcome
    /// isn't known.
    fn intend(&mut self, _intents: &[Intent]) -> Result<(), BackendFault> {
        Ok(())
    }

    /// Withdraws the intents, because they are done, or nobody has them any more.
    fn withdraw(&mut self, _intents: &[Intent]) -> Result<(), BackendFault> {
        Ok(())
    }

    /// Begins to write all shards into the file with this name.
    ///
    /// # Errors
    ///
    /// If there are no such files here, or the file can't be written.
    fn dump(&mut self, _name: &[u8]) -> Result<Box<dyn FileWork>, Refusal> {
        Err(Refusal::not_durable("DUMP"))
    }

    /// Begins to replace the content and the stands of all shards by those in the file with this name.
    ///
    /// # Errors
    ///
    /// If there are no such files here, or the file can't be read.
    fn load(&mut self, _name: &[u8]) -> Result<Box<dyn FileWork>, Refusal> {
        Err(Refusal::not_durable("LOAD"))
    }

    /// Switches to the present state if a file replaced the earlier one. Returns whether one did since the last call.
    fn renew(&mut self) -> bool {
        false
    }
}

/// A wait until everybody who sends requests has acted upon the states that were shown before.
pub trait StateWait: fmt::Debug + Send {
    /// Returns whether it is over.
    ///
    /// # Errors
    ///
    /// If one of them hasn't acted for too long.
    fn is_over(&self) -> Result<bool, Refusal>;
}

/// Work on a file. Each call makes a step.
pub trait FileWork: Send {
    /// Makes the next step.
    ///
    /// # Errors
    ///
    /// The reason for which the work ends early.
    fn advance(&mut self) -> Result<Advance, Refusal>;
}

/// Why a backend doesn't do a command.
#[derive(Debug, Error)]
pub enum BackendFault {
    /// The board doesn't make the change.
    #[error("{0}")]
    Change(#[from] ChangeFault),
    /// The board doesn't make the step of a restart.
    #[error("{0}")]
    Restart(#[from] RestartFault),
    /// The board makes no plan.
    #[error("{0}")]
    Plan(#[from] PlanFault),
    /// The proved control refuses it, or the store doesn't let it go on.
    #[error("{0}")]
    Refused(#[from] Refused),
}

impl BackendFault {
    /// Returns whether the same command may succeed at once when it is tried again, because another thread has the
    /// shard.
    pub fn is_passing(&self) -> bool {
        matches!(self, BackendFault::Change(fault) if fault.is_transient())
    }

    /// Returns whether the outcome isn't known: the command may have been done.
    pub fn is_unknown(&self) -> bool {
        let BackendFault::Refused(refused) = self else {
            return false;
        };
        matches!(refused, Refused::Write(WriteError::Unknown(_)))
    }
}
