//! A store that makes a transaction late, twice or never if it doesn't tell its outcome.
use super::cluster::Dice;
use super::handing::{Handed, Handing};
use durkenzo_store::{Done, ReadError, Reading, Store, Transaction, WriteError};
use std::sync::{Arc, Mutex};
use std::thread;
use std::time::Duration;

/// Within how many milliseconds a copy comes.
const LATEST: u64 = 12;
/// The most milliseconds that a reading is on its way.
const SLOWEST: u64 = 6;

/// A store that doesn't tell the outcome of each third transaction that writes to a log. It makes that transaction
/// later, now and again later, or never. A reading may be old when it comes.
pub struct Late {
    store: Arc<dyn Store>,
    dice: Mutex<Dice>,
}

impl Late {
    pub fn new(store: impl Store + 'static, seed: u64) -> Handed<Late> {
        Handed(Late {
            store: Arc::new(store),
            dice: Mutex::new(Dice(seed)),
        })
    }

    fn below(&self, bound: u64) -> u64 {
        self.dice.lock().unwrap().below(bound)
    }

    /// Makes a copy later. If its compares fail then, nothing happens.
    fn send_late(&self, transaction: Transaction) {
        let (store, pause) = (self.store.clone(), self.below(LATEST));
        thread::spawn(move || {
            thread::sleep(Duration::from_millis(pause));
            store.submit(transaction, Box::new(|_| {}));
        });
    }
}

impl Handing for Late {
    fn store(&self) -> &dyn Store {
        &*self.store
    }

    fn submit(&self, transaction: Transaction, done: Done) {
        let mut puts = transaction.puts.iter();
        let is_batch = puts.any(|it| it.key.starts_with(b"head/"));
        if !is_batch || self.below(3) > 0 {
            return self.store.submit(transaction, done);
        }
        let unknown = || Err(WriteError::Unknown("a test".to_owned()));
        match self.below(3) {
            0 => {}
            1 => self.send_late(transaction),
            _ => {
                self.send_late(transaction.clone());
                let tells = move |_| done(unknown());
                return self.store.submit(transaction, Box::new(tells));
            }
        }
        thread::spawn(move || done(unknown()));
    }

    fn read(&self, keys: &[&[u8]]) -> Result<Reading, ReadError> {
        let reading = self.store.read(keys);
        if keys.iter().any(|it| it.starts_with(b"head/")) {
            thread::sleep(Duration::from_millis(self.below(SLOWEST)));
        }
        reading
    }
}
