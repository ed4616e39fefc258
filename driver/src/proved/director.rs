use crate::command::{ControlCommand, Next};
use crate::{keys, CoreFault, ServerRun, ServerState};
use durkenzo_store::Revision;
use durkenzo_store_sys::{self as sys, Code, DirectorStep, SettingsRefusal, SettingsTransaction};

/// The compares and the writes of a command's transaction.
#[derive(Debug)]
pub(crate) struct CommandTransaction {
    pub(crate) elected: Revision,
    pub(crate) placed: Revision,
    /// The server whose key must be absent, if that is compared.
    pub(crate) absent: Option<u16>,
    /// The shard whose record is written, or the server whose state is written.
    pub(crate) number: u16,
    pub(crate) is_state: bool,
    pub(crate) written: Vec<u8>,
    pub(crate) commands: Vec<u8>,
}

impl CommandTransaction {
    /// Returns the key of the record or the state.
    pub(crate) fn key(&self) -> Vec<u8> {
        match self.is_state {
            true => keys::state(self.number),
            false => keys::record(self.number),
        }
    }
}

/// The generation up to which a server has acked a shard's records, as it was read.
#[derive(Clone, Copy, Debug)]
pub(crate) struct AckRead {
    pub(crate) shard: u16,
    pub(crate) server: u16,
    pub(crate) generation: u64,
}

/// A proved control of a store.
#[derive(Debug)]
pub(crate) struct Director {
    control: sys::Director,
}

impl Director {
    /// Makes the control of the store with this line of settings, for this process, which was elected at this revision.
    /// Its commands wait for acks.
    pub(crate) fn new(line: &str, process: u64, elected: Revision) -> Result<Director, CoreFault> {
        let control = sys::Director::new(line, process, elected.0)?;
        Ok(Director { control })
    }

    /// Does the same, for a process that has all servers of the store. Its commands wait for no ack.
    pub(crate) fn alone(
        line: &str,
        process: u64,
        elected: Revision,
    ) -> Result<Director, CoreFault> {
        let control = sys::Director::alone(line, process, elected.0)?;
        Ok(Director { control })
    }

    /// Returns how many shards the settings have.
    pub(crate) fn shards(&self) -> usize {
        usize::from(self.control.shards())
    }

    /// Returns the servers of the settings, by number, in the order of their rows.
    pub(crate) fn servers(&self) -> &[u16] {
        self.control.servers()
    }

    /// Adds the next shard's record.
    pub(crate) fn record(&mut self, bytes: &[u8], stood: Revision) -> Result<(), CoreFault> {
        Ok(self.control.record(bytes, stood.0)?)
    }

    /// Adds the next server's state.
    pub(crate) fn state(&mut self, bytes: &[u8]) -> Result<(), CoreFault> {
        Ok(self.control.state(bytes)?)
    }

    /// Notes that everything was read, at a moment when the key of commands had this revision.
    pub(crate) fn read(&mut self, placed: Revision) -> Result<(), CoreFault> {
        Ok(self.control.read(placed.0)?)
    }

    /// Judges the command. `runs` is the process that runs the server that it names, or 0 if none was seen. The command
    /// must then be sent, or is refused with the first fault that applies.
    pub(crate) fn command(&mut self, command: ControlCommand, runs: u64) -> Result<(), CoreFault> {
        let (kind, shard, server) = command.parts();
        let step = DirectorStep::of_shard(kind, shard, server);
        Ok(self.control.command(step, runs)?)
    }

    /// Returns the transaction to send.
    pub(crate) fn sending(&mut self) -> Result<CommandTransaction, CoreFault> {
        let sent = self.control.sending()?;
        Ok(CommandTransaction {
            elected: Revision(sent.elected),
            placed: Revision(sent.placed),
            absent: Some(sent.absent).filter(|it| *it > 0),
            number: sent.number,
            is_state: sent.is_state,
            written: sent.written,
            commands: sent.commands,
        })
    }

    /// Returns the compares and writes that replace this control's settings by those of the other control. Both must
    /// have read the same records and states.
    pub(crate) fn resettle(
        &mut self,
        other: &mut Director,
    ) -> Result<SettingsTransaction, SettingsRefusal> {
        self.control.resettle(&mut other.control)
    }

    /// Notes that the transaction was made at this revision.
    pub(crate) fn made(&mut self, revision: Revision) -> Result<(), CoreFault> {
        Ok(self.control.made(revision.0)?)
    }

    /// Notes that everything must be read again.
    pub(crate) fn lost(&mut self) -> Result<(), CoreFault> {
        Ok(self.control.lost()?)
    }

    /// Notes that these servers are there, and have each read the store up to that revision.
    pub(crate) fn follow(
        &mut self,
        servers: impl Iterator<Item = (u16, Revision)>,
    ) -> Result<(), CoreFault> {
        self.control.forget_followers()?;
        for (server, revision) in servers {
            self.control.follower(server, revision.0)?;
        }
        Ok(())
    }

    /// Notes the acks that were read. Earlier ones are forgotten.
    pub(crate) fn acked(&mut self, acks: impl Iterator<Item = AckRead>) -> Result<(), CoreFault> {
        self.control.forget_acks()?;
        for ack in acks {
            self.control.ack(ack.shard, ack.server, ack.generation)?;
        }
        Ok(())
    }

    /// Returns the next step of the shard.
    pub(crate) fn next_of_shard(&mut self, shard: u16) -> Result<Next, CoreFault> {
        next(self.control.next_of_shard(shard))
    }

    /// Returns the next step of the server's restart.
    pub(crate) fn next_of_server(&mut self, server: u16) -> Result<Next, CoreFault> {
        next(self.control.next_of_server(server))
    }

    /// Returns the next step of the drain of the server, or of the vacant shards if `server` is 0.
    pub(crate) fn next_of_drain(&mut self, server: u16) -> Result<Next, CoreFault> {
        next(self.control.next_of_drain(server))
    }

    /// Returns the first server to which requests go although it isn't among the followers.
    pub(crate) fn fallen(&mut self) -> Result<Option<u16>, CoreFault> {
        let server = self.control.fallen()?;
        Ok(Some(server).filter(|it| *it > 0))
    }

    /// Returns the shard's record, as its word.
    pub(crate) fn word_of(&mut self, shard: u16) -> Result<u64, CoreFault> {
        Ok(self.control.record_of(shard)?.0)
    }

    /// Returns how far the server's restart has come, and the process to which that applies.
    pub(crate) fn run_of(&mut self, server: u16) -> Result<ServerRun, CoreFault> {
        let (number, process) = self.control.state_of(server)?;
        let state = ServerState::of_number(number).ok_or(CoreFault(Code::BAD_ARGUMENT))?;
        Ok(ServerRun { state, process })
    }
}

fn next(step: Result<DirectorStep, Code>) -> Result<Next, CoreFault> {
    let DirectorStep {
        shard,
        server,
        kind,
    } = step?;
    Next::of(kind, shard, server).ok_or(CoreFault(Code::BAD_ARGUMENT))
}
