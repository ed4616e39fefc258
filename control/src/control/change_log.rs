//! The lines of the log about changes that the control has made.
use durkenzo::{Record, Stand};
use durkenzo_driver::ControlCommand;

/// Logs the change of a shard, whose record is this one since then. At INFO an operator reads which shards have moved,
/// and which ones nobody executes; at DEBUG the steps between. The host logs the states of servers.
pub(super) fn log_change(command: ControlCommand, record: impl FnOnce() -> Option<Record>) {
    match command {
        ControlCommand::AddShard(shard) => match record().map(|it| it.stand) {
            Some(Stand::Taken { owner, previous }) => {
                tracing::info!(shard, from = previous, to = owner, "the shard has moved");
            }
            _ => tracing::info!(shard, "the shard has moved"),
        },
        ControlCommand::Pause(shard) => tracing::info!(shard, "the shard is paused"),
        ControlCommand::Resume(shard) => tracing::info!(shard, "the shard is resumed"),
        ControlCommand::Reassign(shard, to) => tracing::info!(shard, to, "the shard is reassigned"),
        ControlCommand::Cancel(shard) => tracing::info!(shard, "the migration is given up"),
        ControlCommand::Assign(..)
        | ControlCommand::PrepareAddShard(..)
        | ControlCommand::PrepareDropShard(_)
        | ControlCommand::DropShard(_)
        | ControlCommand::Ask(_)
        | ControlCommand::Approve(_)
        | ControlCommand::Stopped(_)
        | ControlCommand::Back(_)
        | ControlCommand::Fail(_) => tracing::debug!(?command, "made"),
    }
}
