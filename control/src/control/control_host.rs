use super::progress::Doing;
use super::{Balance, ReplyTo};
use durkenzo_driver::{ControlCommand, ServerState};
use std::time::Duration;

/// The program around a control, which shows the control's work. Its calls must not wait.
pub trait ControlHost: Send + Sync {
    /// Returns whether the process ends.
    fn is_stopping(&self) -> bool;

    /// Returns the least time that a step of a migration takes.
    fn pace(&self) -> Duration;

    /// Notes how far the server's restart has come.
    fn note_state(&self, server: u16, state: ServerState);

    /// Notes the work under way at the server; nothing if there is none any more.
    fn note_progress(&self, server: u16, doing: Option<Doing>);

    /// Notes that the change of a shard was made.
    fn note_change(&self, command: ControlCommand);

    /// Notes that the content and the stands of shards were replaced by those of a file.
    fn note_load(&self);

    /// Returns how fast the leader evens out by itself how much servers have to do.
    fn balance(&self) -> Balance {
        Balance::Off
    }

    /// Returns how long nothing else may have changed before it does. A simulation, whose time is short, has it wait
    /// less.
    fn calm(&self) -> Duration {
        self.balance().calm()
    }

    /// Notes that the leader moves a shard to even out servers.
    fn note_balanced(&self) {}

    /// Returns a line about the shard, if there is such a shard.
    fn shard_line(&self, shard: u16) -> Option<String>;

    /// Returns a line about each shard, below the names of the columns.
    fn shard_lines(&self) -> Vec<String>;

    /// Returns a line about each server, below the names of the columns.
    fn server_lines(&self) -> Vec<String>;

    /// Returns lines about the program's configuration.
    fn settings_lines(&self) -> Vec<String>;

    /// Returns whether all processes adopt other settings as soon as these are in the store.
    fn follows_settings(&self) -> bool {
        false
    }

    /// Returns whether clients send commands with keys, as those of `./sm serve` do. If a service of the user's own
    /// answers them instead, the words about such commands don't exist.
    fn serves_texts(&self) -> bool {
        true
    }

    /// Returns the address at which clients reach each shard, in a cluster of several processes.
    fn route_lines(&self) -> Vec<String>;

    /// Makes a base of each shard of this process, so that room is returned, and then answers. It is called if data
    /// outlives the process.
    fn compact(&self, reply_to: Box<dyn ReplyTo>);
}
