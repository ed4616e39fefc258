//! A store that withholds one transaction, and the readings after it, until somebody changes a record.
use super::handing::{Handed, Handing};
use durkenzo_store::{Done, ReadError, Reading, Store, Transaction, WriteError};
use std::sync::atomic::{AtomicBool, Ordering};
use std::sync::{Arc, Condvar, Mutex};
use std::time::Duration;

/// A store that doesn't tell the outcome of the next transaction to a log, and makes it as late as possible: just
/// before a record changes.
pub struct Withheld {
    store: Arc<dyn Store>,
    /// Whether the next transaction to a log is withheld.
    pub is_armed: Arc<AtomicBool>,
    withheld: Mutex<Option<Transaction>>,
    reading: Arc<Blocked>,
}

/// A reading that comes late.
#[derive(Default)]
pub struct Blocked {
    state: Mutex<Delay>,
    changed: Condvar,
}

#[derive(Clone, Copy, Default, PartialEq, Eq)]
enum Delay {
    #[default]
    None,
    /// The next reading waits.
    Next,
    /// A reading waits now.
    Waits,
}

impl Blocked {
    fn set(&self, state: Delay) {
        *self.state.lock().unwrap() = state;
        self.changed.notify_all();
    }

    /// Waits until the state is another one.
    fn wait_while(&self, is_so: impl Fn(Delay) -> bool) {
        let state = self.state.lock().unwrap();
        let patience = Duration::from_secs(60);
        let waited = self
            .changed
            .wait_timeout_while(state, patience, |it| is_so(*it));
        assert!(!waited.unwrap().1.timed_out());
    }

    /// Waits until a shard was read, as it was before the transaction.
    pub fn await_reading(&self) {
        self.wait_while(|it| it != Delay::Waits);
    }

    /// Releases the reading.
    pub fn release(&self) {
        self.set(Delay::None);
    }
}

impl Withheld {
    pub fn new(store: impl Store + 'static) -> Handed<Withheld> {
        Handed(Withheld {
            store: Arc::new(store),
            is_armed: Arc::default(),
            withheld: Mutex::default(),
            reading: Arc::default(),
        })
    }

    /// Returns the reading that comes late.
    pub fn reading(&self) -> Arc<Blocked> {
        self.reading.clone()
    }
}

impl Handing for Withheld {
    fn store(&self) -> &dyn Store {
        &*self.store
    }

    fn submit(&self, transaction: Transaction, done: Done) {
        let writes = |prefix: &[u8]| transaction.puts.iter().any(|it| it.key.starts_with(prefix));
        if writes(b"head/") && self.is_armed.swap(false, Ordering::AcqRel) {
            *self.withheld.lock().unwrap() = Some(transaction);
            self.reading.set(Delay::Next);
            return done(Err(WriteError::Unknown("a test".to_owned())));
        }
        let is_change = writes(b"record/");
        if let Some(withheld) = self.withheld.lock().unwrap().take_if(|_| is_change) {
            self.store.submit(withheld, Box::new(|_| {}));
        }
        self.store.submit(transaction, done);
    }

    fn read(&self, keys: &[&[u8]]) -> Result<Reading, ReadError> {
        let reading = self.store.read(keys);
        let is_shard = keys.iter().any(|it| it.starts_with(b"head/"));
        if is_shard && *self.reading.state.lock().unwrap() == Delay::Next {
            self.reading.set(Delay::Waits);
            self.reading.wait_while(|it| it == Delay::Waits);
        }
        reading
    }
}
