//! How far servers' restarts have come.
use durkenzo_driver::ServerState;
use std::collections::BTreeMap;
use std::fmt;
use std::sync::{Mutex, MutexGuard, PoisonError};

/// The present step of a server's restart or drain.
#[derive(Clone, Copy, Debug, PartialEq, Eq)]
pub enum Doing {
    /// It waits until the caps let the server go. If a server is away, it waits for that one, with its state. A drain
    /// waits until another one ends.
    Waiting(Option<(u16, ServerState)>),
    /// Shards of the server go to others.
    Draining(Share),
    /// Other tasks that have shards of the server must end, and its process must ack those that are paused for it.
    LettingGo,
    /// All threads must give back their passes of the server.
    Stopping,
    /// Its process must be ended, and started again.
    Ended,
    /// The server's shards come home.
    Returning(Share),
    /// Nothing: it was drained, and gets no shard unless somebody asks for that.
    Drained,
}

/// So many shards of all that must move.
#[derive(Clone, Copy, Debug, PartialEq, Eq)]
pub struct Share {
    /// How many have moved.
    pub done: usize,
    /// How many must move.
    pub of: usize,
}

impl fmt::Display for Share {
    fn fmt(&self, f: &mut fmt::Formatter<'_>) -> fmt::Result {
        write!(f, "{} of {}", self.done, self.of)
    }
}

impl fmt::Display for Doing {
    fn fmt(&self, f: &mut fmt::Formatter<'_>) -> fmt::Result {
        match self {
            Doing::Waiting(None) => f.write_str("waiting"),
            Doing::Waiting(Some((server, state))) => {
                write!(f, "waiting for server {server}, {}", state.name())
            }
            Doing::Draining(share) => write!(f, "draining {share}"),
            Doing::LettingGo => f.write_str("waiting until its shards are let go"),
            Doing::Stopping => f.write_str("stopping"),
            Doing::Ended => f.write_str("waiting for its process to be ended and begun again"),
            Doing::Returning(share) => write!(f, "returning {share}"),
            Doing::Drained => f.write_str("drained"),
        }
    }
}

/// The work under way at each server. Only the control changes it.
#[derive(Debug, Default)]
pub struct Progress {
    rows: Mutex<BTreeMap<u16, Doing>>,
}

impl Progress {
    /// Notes the work under way at the server.
    pub fn set(&self, server: u16, doing: Doing) {
        self.rows().insert(server, doing);
    }

    /// Notes that there is none.
    pub fn clear(&self, server: u16) {
        self.rows().remove(&server);
    }

    /// Returns the work under way at the server, if there is any.
    pub fn of(&self, server: u16) -> Option<Doing> {
        self.rows().get(&server).copied()
    }

    fn rows(&self) -> MutexGuard<'_, BTreeMap<u16, Doing>> {
        self.rows.lock().unwrap_or_else(PoisonError::into_inner)
    }
}

/// Returns the first server except this one that is away for a restart, or may go for one, and its state. If there is
/// none, returns the first one that has failed.
pub(super) fn away(states: &[(u16, ServerState)], but: u16) -> Option<(u16, ServerState)> {
    let mut others = states.iter().copied().filter(|it| it.0 != but);
    let restarting = others.clone().find(|it| it.1.is_restarting());
    restarting.or_else(|| others.find(|it| it.1 == ServerState::Failed))
}

#[cfg(test)]
mod tests {
    use super::*;

    #[test]
    fn who_waits_is_told_for_whom() {
        let mut states = [1, 2, 3].map(|it| (it, ServerState::Up));
        states[0].1 = ServerState::Asked;
        assert_eq!(Doing::Waiting(away(&states, 1)).to_string(), "waiting");
        states[1].1 = ServerState::Failed;
        let told = Doing::Waiting(away(&states, 1)).to_string();
        assert_eq!(told, "waiting for server 2, failed");
        assert_eq!(away(&states, 2), None);
        // It may go once this one is back, even if others have failed.
        states[2].1 = ServerState::Stopped;
        assert_eq!(away(&states, 1), Some((3, ServerState::Stopped)));
    }
}
