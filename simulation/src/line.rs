use crate::bug::Bug;
use crate::fault::Fault;
use crate::simulated_store::{locked, SharedStore, SimulatedStore};
use crate::timeline::Column;
use crate::told;
use durkenzo_store::Outcome;
use durkenzo_store::{
    CompactError, Done, LeaseError, LeaseId, ReadError, Reading, Store, StoreSize, Transaction,
    Watch, Watcher, WriteError,
};
use std::sync::MutexGuard;
use std::time::Duration;

/// How many bytes of room are usually left.
const ROOM: u64 = 1 << 30;
/// How much room each revision takes that isn't compacted, so that a leader compacts history within a schedule.
const REVISION: u64 = 4 << 20;

/// A process's way to the store. [`Store::make`] returns the outcome at once, but a transaction of another sender may
/// be made before. A transaction that was given to [`Store::submit`] is made when the schedule says so.
pub struct Line {
    shared: SharedStore,
    /// The number of its route to the members.
    route: usize,
}

impl Line {
    /// Returns a line for the process at this place, with its own route.
    pub fn of(shared: &SharedStore, place: usize) -> Line {
        Line {
            shared: shared.clone(),
            route: locked(shared).new_route(Column::Process(place)),
        }
    }

    fn store(&self) -> MutexGuard<'_, SimulatedStore> {
        locked(&self.shared)
    }

    /// Returns the store for a read. A transaction of another sender may be made before. Fails if the read is lost, or
    /// if no member answers.
    fn reached(&self) -> Result<MutexGuard<'_, SimulatedStore>, ReadError> {
        let mut store = self.store();
        store.let_others_write();
        let column = store.column_of(self.route);
        let is_lost = store.fails(Fault::ReadLost, 60, column);
        match is_lost || !store.answers(self.route) {
            true => Err(ReadError::Unavailable("by chance".to_owned())),
            false => Ok(store),
        }
    }

    fn leases(&self) -> Result<MutexGuard<'_, SimulatedStore>, LeaseError> {
        let mut store = self.store();
        let column = store.column_of(self.route);
        let is_lost = store.fails(Fault::LeaseCallLost, 20, column);
        match is_lost || !store.answers(self.route) {
            true => Err(LeaseError::Unavailable("by chance".to_owned())),
            false => Ok(store),
        }
    }
}

impl Store for Line {
    fn submit(&self, transaction: Transaction, done: Done) {
        let mut store = self.store();
        let transaction = store.spoilt(transaction, self.route);
        let column = store.column_of(self.route);
        let sends = || format!("sends {}", told::summary(&transaction));
        store.timeline.note(column, sends);
        store.send(transaction, self.route, Some(done));
    }

    fn make(&self, transaction: Transaction) -> Result<Outcome, WriteError> {
        let mut store = self.store();
        let transaction = store.spoilt(transaction, self.route);
        let column = store.column_of(self.route);
        let calls = || format!("calls {}", told::summary(&transaction));
        store.timeline.note(column, calls);
        let became = match store.refused(&transaction) {
            Some(error) => Err(error),
            None => store.called(transaction, self.route),
        };
        store
            .timeline
            .note(column, || format!("is told {}", told::became(&became)));
        became
    }

    fn read(&self, keys: &[&[u8]]) -> Result<Reading, ReadError> {
        let mut store = self.reached()?;
        let reading = store.reading(keys.iter().copied());
        Ok(store.misread(keys, reading))
    }

    fn read_all(&self, prefix: &[u8]) -> Result<Reading, ReadError> {
        let store = self.reached()?;
        let mut reading = store.range(prefix, |it| it.starts_with(prefix), usize::MAX);
        reading.pairs.extend(store.gone(prefix));
        reading.pairs.sort_by(|one, other| one.key.cmp(&other.key));
        if store.bug == Some(Bug::EarlyDrop) && prefix == b"server/" {
            let read = store.revision().to_be_bytes();
            let told = reading
                .pairs
                .iter_mut()
                .filter_map(|it| it.value.get_mut(9..17));
            told.for_each(|it| it.copy_from_slice(&read));
        }
        Ok(reading)
    }

    fn read_range(&self, from: &[u8], end: &[u8], most: usize) -> Result<Reading, ReadError> {
        let store = self.reached()?;
        Ok(store.range(from, |it| it < end, most))
    }

    fn watch(&self, prefix: &[u8], watcher: Watcher) -> Result<Watch, ReadError> {
        let number = self.store().watch(prefix, watcher, self.route);
        let shared = self.shared.clone();
        Ok(Watch::ended_by(move || locked(&shared).unwatch(number)))
    }

    fn grant(&self, length: Duration) -> Result<LeaseId, LeaseError> {
        let granted = self.leases()?.grant(length);
        granted.ok_or_else(|| LeaseError::Unavailable("no room".to_owned()))
    }

    fn keep(&self, lease: LeaseId) -> Result<(), LeaseError> {
        let is_kept = self.leases()?.keep(lease);
        is_kept.then_some(()).ok_or(LeaseError::Ended(lease))
    }

    fn revoke(&self, lease: LeaseId) -> Result<(), LeaseError> {
        let went_on = self.leases()?.revoke(lease);
        went_on.then_some(()).ok_or(LeaseError::Ended(lease))
    }

    fn left(&self) -> Option<u64> {
        let mut store = self.store();
        let column = store.column_of(self.route);
        let is_scarce = store.fails(Fault::RoomScarce, 10, column);
        Some(if is_scarce { 0 } else { ROOM })
    }

    fn size(&self) -> Result<Option<StoreSize>, ReadError> {
        let store = self.reached()?;
        let used = REVISION * (store.revision() - store.keyspace.compacted());
        let quota = None;
        let file = used;
        Ok(Some(StoreSize { file, used, quota }))
    }

    fn compact_history(&self) -> Result<(), CompactError> {
        let revision = self.reached()?.revision();
        // A transaction of another sender may be made between the two calls.
        let mut store = self.reached()?;
        let column = store.column_of(self.route);
        store.compact_by(revision, column);
        match store.fails(Fault::CallLost, 20, column) {
            true => Err(CompactError::Unavailable("by chance".to_owned())),
            false => Ok(()),
        }
    }

    fn compact(&self) -> Result<(), CompactError> {
        Ok(())
    }
}
