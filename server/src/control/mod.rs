//! The control of this server: `durkenzo_control`, with the parts around it that a server for Redis clients needs.
mod cluster_host;
#[cfg(test)]
mod deaths;
mod dump;
mod load;
mod memory_backend;
mod notice;
mod others;
mod refusals;
mod reply;
mod routes;

pub use cluster_host::ClusterHost;
pub use durkenzo_control::control::{
    Again, Asked, Backend, Campaigner, Controller, Refusal, StoreBackend, Waiting, Words,
    MOST_ASKED,
};
pub use memory_backend::MemoryBackend;

use crate::io::ReplyAddress;
use crate::resp::{Command, OwnedCommand};
use durkenzo_control::control;

/// Returns whether every role may send this SM command.
pub fn is_of_all(command: Command<'_>) -> bool {
    control::is_of_all(command.get(1))
}

/// Returns the command in the form that the control takes.
pub fn asked(command: Command<'_>, reply_to: ReplyAddress) -> Asked {
    Asked {
        words: Words::of(command.iter()),
        reply_to: Box::new(reply_to),
    }
}

/// Returns the bytes of the command, as a client would send it.
pub fn spelled(words: &Words) -> Vec<u8> {
    let words: Vec<_> = words.iter().collect();
    OwnedCommand::of(&words).spell()
}
