use crate::ServerState;

/// How far a server's restart has come, and the process of the server to which that applies.
#[derive(Clone, Copy, Debug, PartialEq, Eq)]
pub struct ServerRun {
    /// How far it has come.
    pub state: ServerState,
    /// The process that ran the server when the state was written; 0 if the state names none.
    pub process: u64,
}

impl ServerRun {
    /// Returns whether the restart is over if this process runs the server: it began after the process that had to end.
    /// If the state names no process, this isn't known.
    pub fn is_restarted_by(self, process: u64) -> bool {
        let is_under_way = matches!(
            self.state,
            ServerState::Asked | ServerState::Approved | ServerState::Stopped
        );
        is_under_way && 0 < self.process && self.process < process
    }
}

#[cfg(test)]
mod tests {
    use super::*;

    #[test]
    fn a_restart_is_over_once_a_later_process_runs_the_server() {
        let stopped = |process| ServerRun {
            state: ServerState::Stopped,
            process,
        };
        assert!(stopped(5).is_restarted_by(6));
        assert!(!stopped(5).is_restarted_by(5) && !stopped(5).is_restarted_by(4));
        assert!(!stopped(0).is_restarted_by(6));
        let up = ServerRun {
            state: ServerState::Up,
            process: 5,
        };
        assert!(!up.is_restarted_by(6));
    }
}
