use super::replica_state::{ReplicaState, Revisions};
use crate::key_list::{Found, KeyList};
use crate::proved::Core;
use crate::work::Begin;
use crate::{Key, Range, ServerFault};

/// The server that executes, while it lists keys for the steps of a round. Its map is the one after all requests that
/// were made, up to the head at its revision.
pub(crate) struct Lister {
    server: u16,
    core: Core,
    at: Revisions,
    has_failed: bool,
}

impl Lister {
    /// Makes the lister with this server, if the server is ready. Otherwise gives its state back.
    pub(super) fn new(server: u16, state: ReplicaState) -> Result<Lister, ReplicaState> {
        match state {
            ReplicaState::Ready(core, at) => Ok(Lister {
                server,
                core,
                at,
                has_failed: false,
            }),
            ReplicaState::Unread(_)
            | ReplicaState::Behind(..)
            | ReplicaState::Reading(_)
            | ReplicaState::Sent(..) => Err(state),
        }
    }

    /// Returns the server, its state, and whether a call failed. If one failed, the server must read the shard again.
    pub(super) fn end(self) -> (u16, ReplicaState, bool) {
        let state = ReplicaState::Ready(self.core, self.at);
        (self.server, state, self.has_failed)
    }

    /// Returns the list for a step that begins like this. Returns nothing if the step lists no keys, or if a call
    /// failed.
    pub(crate) fn list(&mut self, begin: &Begin) -> Option<KeyList> {
        let found = match begin {
            Begin::Scan(range) => self.keys(range).map(Found::Pairs),
            Begin::Keys(range) => self.keys(range).map(Found::Keys),
            Begin::Count => self.core.count().map(Found::Count),
            Begin::Read(_)
            | Begin::Change(_)
            | Begin::Write(_)
            | Begin::Numbered(..)
            | Begin::Opaque(_) => return None,
        };
        self.has_failed |= found.is_err();
        let logged = self.at.logged;
        Some(KeyList::new(self.server, logged, found.ok()?))
    }

    fn keys(&mut self, range: &Range) -> Result<Vec<Key>, ServerFault> {
        let Range { low, high, most } = range;
        self.core
            .scan(low, high.as_deref(), (*most).min(Range::MOST))
    }
}
