use super::folder_state::FolderState;
use durkenzo_store::{LeaseId, Outcome, Sync, Transaction, WriteError};
use std::collections::{BTreeMap, BTreeSet};
use std::time::Duration;

/// All contents that the store may have, by the requests that it got and the answers that it gave.
pub struct Model {
    sync: Sync,
    states: Vec<FolderState>,
    /// The states since the disk last had everything. They are needed if the store answers before the disk has the
    /// data.
    since: Vec<FolderState>,
    /// The leases that go on, and the time at which each ends.
    leases: BTreeMap<LeaseId, Duration>,
}

/// A law that is broken.
pub type Unkept = &'static str;

impl Model {
    /// Returns the model of an empty folder.
    pub fn new(sync: Sync) -> Model {
        Model {
            sync,
            states: vec![FolderState::default()],
            since: vec![FolderState::default()],
            leases: BTreeMap::new(),
        }
    }

    /// Returns one of the states that the store may have.
    pub fn first(&self) -> &FolderState {
        &self.states[0]
    }

    pub fn states(&self) -> &[FolderState] {
        &self.states
    }

    fn become_of(&mut self, states: impl IntoIterator<Item = FolderState>) {
        self.states.clear();
        states.into_iter().for_each(|it| self.add(it));
    }

    fn add(&mut self, state: FolderState) {
        if self.sync == Sync::Second && !self.since.contains(&state) {
            self.since.push(state.clone());
        }
        if !self.states.contains(&state) {
            self.states.push(state);
        }
    }

    /// Follows the store as it serves. First, the store deletes the keys of leases that have ended, if it has room.
    pub fn serve(&mut self, now: Duration) {
        let ended = self.leases.iter().filter(|it| *it.1 <= now);
        let ended: Vec<LeaseId> = ended.map(|it| *it.0).collect();
        for lease in ended {
            self.leases.remove(&lease);
            self.states.iter_mut().for_each(|it| it.end_lease(lease));
        }
        let without = self.states.iter().filter_map(FolderState::without_due);
        let without: Vec<FolderState> = without.collect();
        without.into_iter().for_each(|it| self.add(it));
    }

    /// Notes the outcome of a transaction. If it isn't known, the states don't change here: `doubt_all` changes them.
    ///
    /// # Errors
    ///
    /// Fails if no state that the store may have explains the outcome, or if a folder must not have such an outcome.
    pub fn note(
        &mut self,
        transaction: &Transaction,
        told: &Result<Outcome, WriteError>,
    ) -> Result<(), Unkept> {
        let leases = self.leases.keys().copied().collect();
        let is_such = |it: &Result<Outcome, WriteError>| match (it, told) {
            (Ok(it), Ok(told)) => it == told,
            (Err(WriteError::LeaseEnded), Err(WriteError::LeaseEnded)) => true,
            _ => false,
        };
        match told {
            Ok(_) | Err(WriteError::LeaseEnded) => {
                let after = self.states.iter().map(|it| it.after(transaction, &leases));
                let after: Vec<_> = after.filter(|it| is_such(&it.1)).map(|it| it.0).collect();
                if after.is_empty() {
                    return Err("what is told of a transaction is what became of it");
                }
                self.become_of(after);
                Ok(())
            }
            Err(WriteError::Unknown(_)) => Ok(()),
            Err(
                WriteError::Full(_)
                | WriteError::Unreachable(_)
                | WriteError::Unavailable(_)
                | WriteError::Stopped,
            ) => Ok(()),
            Err(WriteError::Damaged(_) | WriteError::TooLarge(_) | WriteError::Denied(_)) => {
                Err("a folder isn't told as damaged")
            }
        }
    }

    /// Notes that one commit may have made all of these, or none of them.
    pub fn doubt_all(&mut self, transactions: &[Transaction]) {
        let leases: BTreeSet<LeaseId> = self.leases.keys().copied().collect();
        for state in self.states.clone() {
            let made = |state: FolderState, it: &Transaction| state.after(it, &leases).0;
            let after = transactions.iter().fold(state, made);
            self.add(after);
        }
    }

    /// Notes that the process may have made the first of these, or more of them in their order, before it ended.
    pub fn doubt_each(&mut self, transactions: &[Transaction]) {
        (1..=transactions.len()).for_each(|it| self.doubt_all(&transactions[..it]));
    }

    /// Keeps only the states that fit a reading. Returns whether any does. If none fits, all are kept.
    pub fn see(&mut self, is_so: impl Fn(&FolderState) -> bool) -> bool {
        let seen: Vec<FolderState> = self.states.iter().filter(|it| is_so(it)).cloned().collect();
        let is_seen = !seen.is_empty();
        if is_seen {
            self.become_of(seen);
        }
        is_seen
    }

    pub fn grant(&mut self, lease: LeaseId, until: Duration) {
        self.leases.insert(lease, until);
    }

    /// Makes a lease end at this time, if it goes on. Returns whether it does.
    pub fn end_lease_at(&mut self, lease: LeaseId, until: Duration) -> bool {
        let end = self.leases.get_mut(&lease);
        end.map(|it| *it = until).is_some()
    }

    /// Notes that a process has opened the folder, or may have.
    pub fn reopen(&mut self, has: bool) {
        self.leases.clear();
        let reopened: Vec<FolderState> = self.states.iter().map(FolderState::reopened).collect();
        if has {
            self.states.clear();
        }
        reopened.into_iter().for_each(|it| self.add(it));
    }

    /// Notes that the disk has all data of which the store has told.
    pub fn sync_all(&mut self) {
        self.since.clone_from(&self.states);
    }

    /// Notes that power is lost. If the store syncs only each second, it may have any state since the last sync.
    pub fn lose_power(&mut self) {
        if self.sync == Sync::Second {
            self.states.clone_from(&self.since);
        }
    }
}
