use super::ShardRequest;
use crate::resp::{Oversized, OwnedCommand};
use crate::wait::Wait;
use std::time::Duration;

/// Why the execution of a connection's commands stops for now.
#[derive(Debug)]
pub enum Stop {
    /// The rest of the input has no whole command until it has at least so many bytes.
    Incomplete(usize),
    /// The next command is too large, and must be read to its end.
    Oversized(Oversized),
    /// Much must be sent first, or the last command took so long that others have their turn first.
    Full,
    /// The connection must end once everything is sent.
    End,
    /// The next command isn't looked at for so long.
    PutOff(Duration),
    /// The next command waits.
    Wait(Wait),
    /// Shards whose data outlives the process answer this.
    Durable(ShardRequest),
    /// The control answers this command.
    Control(OwnedCommand),
}
