use durkenzo::{Change, RestartStep};
use durkenzo_store_sys::DirectorStep;

/// The steps of restarts are numbered after the changes.
const CHANGES: u8 = DirectorStep::REASSIGN;

/// A command for the control: the nine changes of a shard, and the five steps of a server's restart.
#[derive(Clone, Copy, Debug, PartialEq, Eq)]
pub enum ControlCommand {
    /// The vacant shard gets this owner.
    Assign(u16, u16),
    /// A migration of the shard to this server begins.
    PrepareAddShard(u16, u16),
    /// The shard's owner stops executing, and forwards to the next.
    PrepareDropShard(u16),
    /// The next owner becomes the owner.
    AddShard(u16),
    /// The migration ends.
    DropShard(u16),
    /// The migration is given up.
    Cancel(u16),
    /// No server executes the shard.
    Pause(u16),
    /// Its owner executes again.
    Resume(u16),
    /// The paused shard gets this owner.
    Reassign(u16, u16),
    /// A restart of the server is asked for.
    Ask(u16),
    /// It is approved.
    Approve(u16),
    /// The server is stopped.
    Stopped(u16),
    /// It is up again.
    Back(u16),
    /// It has failed.
    Fail(u16),
}

/// The subject of a command: what it changes.
#[derive(Clone, Copy, Debug, PartialEq, Eq)]
pub enum Subject {
    /// The record of this shard.
    Shard(u16),
    /// The state of this server.
    Server(u16),
}

/// The kinds of a command, by its subject.
#[derive(Clone, Copy, Debug, PartialEq, Eq)]
pub enum Given {
    /// A change of this shard.
    Shard(u16, Change),
    /// A step of this server's restart.
    Server(u16, RestartStep),
}

impl ControlCommand {
    /// Returns the command for this change of the shard.
    pub fn of_shard(shard: u16, change: Change) -> ControlCommand {
        match change {
            Change::Assign(server) => ControlCommand::Assign(shard, server),
            Change::PrepareAddShard(server) => ControlCommand::PrepareAddShard(shard, server),
            Change::PrepareDropShard => ControlCommand::PrepareDropShard(shard),
            Change::AddShard => ControlCommand::AddShard(shard),
            Change::DropShard => ControlCommand::DropShard(shard),
            Change::Cancel => ControlCommand::Cancel(shard),
            Change::Pause => ControlCommand::Pause(shard),
            Change::Resume => ControlCommand::Resume(shard),
            Change::Reassign(server) => ControlCommand::Reassign(shard, server),
        }
    }

    /// Returns the command for this step of the server's restart.
    pub fn of_server(server: u16, step: RestartStep) -> ControlCommand {
        match step {
            RestartStep::Ask => ControlCommand::Ask(server),
            RestartStep::Approve => ControlCommand::Approve(server),
            RestartStep::Stopped => ControlCommand::Stopped(server),
            RestartStep::Back => ControlCommand::Back(server),
            RestartStep::Fail => ControlCommand::Fail(server),
        }
    }

    /// Returns its change or its step.
    pub fn given(self) -> Given {
        match self {
            ControlCommand::Assign(shard, server) => Given::Shard(shard, Change::Assign(server)),
            ControlCommand::PrepareAddShard(shard, server) => {
                Given::Shard(shard, Change::PrepareAddShard(server))
            }
            ControlCommand::PrepareDropShard(shard) => {
                Given::Shard(shard, Change::PrepareDropShard)
            }
            ControlCommand::AddShard(shard) => Given::Shard(shard, Change::AddShard),
            ControlCommand::DropShard(shard) => Given::Shard(shard, Change::DropShard),
            ControlCommand::Cancel(shard) => Given::Shard(shard, Change::Cancel),
            ControlCommand::Pause(shard) => Given::Shard(shard, Change::Pause),
            ControlCommand::Resume(shard) => Given::Shard(shard, Change::Resume),
            ControlCommand::Reassign(shard, server) => {
                Given::Shard(shard, Change::Reassign(server))
            }
            ControlCommand::Ask(server) => Given::Server(server, RestartStep::Ask),
            ControlCommand::Approve(server) => Given::Server(server, RestartStep::Approve),
            ControlCommand::Stopped(server) => Given::Server(server, RestartStep::Stopped),
            ControlCommand::Back(server) => Given::Server(server, RestartStep::Back),
            ControlCommand::Fail(server) => Given::Server(server, RestartStep::Fail),
        }
    }

    /// Returns the shard or the server that it changes.
    pub fn subject(self) -> Subject {
        match self.given() {
            Given::Shard(shard, _) => Subject::Shard(shard),
            Given::Server(server, _) => Subject::Server(server),
        }
    }

    /// Returns the server to which it newly moves a shard, if it names one.
    pub fn taker(self) -> Option<u16> {
        match self.given() {
            Given::Shard(_, change) => change.server(),
            Given::Server(..) => None,
        }
    }

    /// Returns its word in scripts, in operators' commands and in metrics.
    pub fn word(self) -> &'static str {
        match self.given() {
            Given::Shard(_, change) => change.word(),
            Given::Server(_, step) => step.word(),
        }
    }

    /// Returns the words of all commands.
    pub fn words() -> impl Iterator<Item = &'static str> {
        let commands = (0..=u8::MAX).filter_map(|kind| ControlCommand::of(kind, 0, 1));
        commands.map(ControlCommand::word)
    }

    /// Returns its kind, its shard and its server, as the library numbers them. A part that it doesn't name is 0.
    pub(crate) fn parts(self) -> (u8, u16, u16) {
        match self.given() {
            Given::Shard(shard, change) => (change.number(), shard, change.server().unwrap_or(0)),
            Given::Server(server, step) => (CHANGES + step.number(), 0, server),
        }
    }

    /// Returns the command with these parts, if there is one.
    fn of(kind: u8, shard: u16, server: u16) -> Option<ControlCommand> {
        let change = Change::of_number(kind, server).map(|it| ControlCommand::of_shard(shard, it));
        let step = || RestartStep::of_number(kind.checked_sub(CHANGES)?);
        change.or_else(|| step().map(|it| ControlCommand::of_server(server, it)))
    }
}

/// The next step of a shard, a restart or a drain, as the proved control chooses it.
#[derive(Clone, Copy, Debug, PartialEq, Eq)]
pub enum Next {
    /// Nothing is under way.
    Nothing,
    /// This command.
    Command(ControlCommand),
    /// It waits until others have read further, or the command is allowed.
    Waits,
}

impl Next {
    /// Returns the next step with these parts, if there is one.
    pub(crate) fn of(kind: u8, shard: u16, server: u16) -> Option<Next> {
        match kind {
            DirectorStep::NOTHING => Some(Next::Nothing),
            DirectorStep::WAITS => Some(Next::Waits),
            kind => ControlCommand::of(kind, shard, server).map(Next::Command),
        }
    }
}

#[cfg(test)]
mod tests {
    use super::*;

    #[test]
    fn a_command_has_the_number_that_the_library_has_for_it() {
        for (kind, command) in [
            (DirectorStep::ASSIGN, ControlCommand::Assign(3, 2)),
            (
                DirectorStep::PREPARE_ADD_SHARD,
                ControlCommand::PrepareAddShard(3, 2),
            ),
            (
                DirectorStep::PREPARE_DROP_SHARD,
                ControlCommand::PrepareDropShard(3),
            ),
            (DirectorStep::ADD_SHARD, ControlCommand::AddShard(3)),
            (DirectorStep::DROP_SHARD, ControlCommand::DropShard(3)),
            (DirectorStep::CANCEL, ControlCommand::Cancel(3)),
            (DirectorStep::PAUSE, ControlCommand::Pause(3)),
            (DirectorStep::RESUME, ControlCommand::Resume(3)),
            (DirectorStep::REASSIGN, ControlCommand::Reassign(3, 2)),
            (DirectorStep::ASK, ControlCommand::Ask(2)),
            (DirectorStep::APPROVE, ControlCommand::Approve(2)),
            (DirectorStep::STOPPED, ControlCommand::Stopped(2)),
            (DirectorStep::BACK, ControlCommand::Back(2)),
            (DirectorStep::FAIL, ControlCommand::Fail(2)),
        ] {
            let (number, shard, server) = command.parts();
            assert_eq!(number, kind);
            assert_eq!(Next::of(kind, shard, server), Some(Next::Command(command)));
        }
        assert_eq!(Next::of(DirectorStep::NOTHING, 0, 0), Some(Next::Nothing));
        assert_eq!(
            (Next::of(DirectorStep::WAITS, 0, 0), Next::of(16, 0, 0)),
            (Some(Next::Waits), None)
        );
    }

    #[test]
    fn each_command_has_its_own_word() {
        let words: Vec<_> = ControlCommand::words().collect();
        let unlike: std::collections::BTreeSet<_> = words.iter().collect();
        assert_eq!((words.len(), unlike.len()), (14, 14), "{words:?}");
        assert!(unlike.contains(&"assign") && unlike.contains(&"fail"));
    }
}
