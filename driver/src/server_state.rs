/// How far a server's restart has come, or that the server has failed.
#[derive(Clone, Copy, Debug, PartialEq, Eq)]
#[repr(u8)]
pub enum ServerState {
    /// It is up.
    Up,
    /// It is up, and a restart was asked for.
    Asked,
    /// It is up, gets no further shards, and may be stopped.
    Approved,
    /// It was stopped for its restart.
    Stopped,
    /// It has failed.
    Failed,
}

impl ServerState {
    const ALL: [ServerState; 5] = [
        ServerState::Up,
        ServerState::Asked,
        ServerState::Approved,
        ServerState::Stopped,
        ServerState::Failed,
    ];

    /// Returns the state with this number, as in stores and in the proved library. Returns nothing if there is none.
    pub fn of_number(number: impl Into<u64>) -> Option<ServerState> {
        let number = usize::try_from(number.into()).ok()?;
        ServerState::ALL.get(number).copied()
    }

    /// Returns its number, from 0 for `Up` to 4 for `Failed`.
    pub fn number(self) -> u8 {
        self as u8
    }

    /// Returns its word.
    pub fn name(self) -> &'static str {
        match self {
            ServerState::Up => "up",
            ServerState::Asked => "asked",
            ServerState::Approved => "approved",
            ServerState::Stopped => "stopped",
            ServerState::Failed => "failed",
        }
    }

    /// Returns whether requests reach a server in this state.
    pub fn is_reached(self) -> bool {
        !matches!(self, ServerState::Stopped | ServerState::Failed)
    }

    /// Returns whether the server is up and may get shards.
    pub fn takes_shards(self) -> bool {
        matches!(self, ServerState::Up | ServerState::Asked)
    }

    /// Returns whether the server is away for a restart, or may leave for one.
    pub fn is_restarting(self) -> bool {
        matches!(self, ServerState::Approved | ServerState::Stopped)
    }
}

#[cfg(test)]
mod tests {
    use super::*;

    #[test]
    fn each_state_has_its_number() {
        for (number, state) in (0_u8..).zip(ServerState::ALL) {
            assert_eq!(state.number(), number);
            assert_eq!(ServerState::of_number(number), Some(state));
        }
        assert_eq!(ServerState::of_number(5_u8), None);
    }
}
