//! A store that counts readings, takes its time for them, and may lose the outcome of a batch.
use super::handing::{Handed, Handing};
use durkenzo_store::{Done, ReadError, Reading, Store, Transaction, WriteError};
use std::sync::atomic::{AtomicBool, AtomicUsize, Ordering};
use std::sync::{Arc, Mutex};
use std::thread;
use std::time::Duration;

/// The fate of the next batch, whose outcome isn't told.
#[derive(Clone, Copy, Debug, PartialEq, Eq)]
pub enum Loss {
    Made,
    NotMade,
}

/// The readings so far, and the fate of batches.
#[derive(Default)]
pub struct Counts {
    /// How many parts of bases, and how many batches, were read.
    pub parts: AtomicUsize,
    pub batches: AtomicUsize,
    /// How often heads were read.
    pub heads: AtomicUsize,
    loss: Mutex<Option<Loss>>,
    /// Whether nothing can be read for now.
    pub is_down: AtomicBool,
}

impl Counts {
    /// Returns how many parts of bases were read so far.
    pub fn parts(&self) -> usize {
        self.parts.load(Ordering::Acquire)
    }

    /// Returns how many batches were read so far.
    pub fn batches(&self) -> usize {
        self.batches.load(Ordering::Acquire)
    }

    /// Returns how often heads were read so far.
    pub fn heads(&self) -> usize {
        self.heads.load(Ordering::Acquire)
    }

    /// Makes the outcome of the next batch be lost.
    pub fn lose(&self, loss: Loss) {
        *self.loss.lock().unwrap() = Some(loss);
    }
}

pub struct Counting {
    store: Arc<dyn Store>,
    counts: Arc<Counts>,
    /// How long the reading of each page takes.
    page: Duration,
}

impl Counting {
    pub fn over(
        store: impl Store + 'static,
        counts: &Arc<Counts>,
        page: Duration,
    ) -> Handed<Counting> {
        Handed(Counting {
            store: Arc::new(store),
            counts: counts.clone(),
            page,
        })
    }

    fn read_error(&self) -> Option<ReadError> {
        let is_down = self.counts.is_down.load(Ordering::Acquire);
        is_down.then(|| ReadError::Unavailable("a test".to_owned()))
    }
}

impl Handing for Counting {
    fn store(&self) -> &dyn Store {
        &*self.store
    }

    fn submit(&self, transaction: Transaction, done: Done) {
        let mut puts = transaction.puts.iter();
        let is_batch = puts.any(|it| it.key.starts_with(b"batch/"));
        let loss = match is_batch {
            true => self.counts.loss.lock().unwrap().take(),
            false => None,
        };
        let unknown = || Err(WriteError::Unknown("a test".to_owned()));
        match loss {
            None => self.store.submit(transaction, done),
            Some(Loss::Made) => {
                let tells = move |_| done(unknown());
                self.store.submit(transaction, Box::new(tells));
            }
            Some(Loss::NotMade) => drop(thread::spawn(move || done(unknown()))),
        }
    }

    fn read(&self, keys: &[&[u8]]) -> Result<Reading, ReadError> {
        let heads = keys.iter().filter(|it| it.starts_with(b"head/")).count();
        self.counts.heads.fetch_add(heads, Ordering::AcqRel);
        self.read_error().map_or_else(|| self.store.read(keys), Err)
    }

    fn read_range(&self, from: &[u8], end: &[u8], most: usize) -> Result<Reading, ReadError> {
        if let Some(error) = self.read_error() {
            return Err(error);
        }
        thread::sleep(self.page);
        let reading = self.store.read_range(from, end, most)?;
        let count = |prefix: &[u8]| {
            let keys = reading.pairs.iter().map(|it| &it.key);
            keys.filter(|it| it.starts_with(prefix)).count()
        };
        self.counts
            .parts
            .fetch_add(count(b"base/"), Ordering::AcqRel);
        let batches = count(b"batch/");
        self.counts.batches.fetch_add(batches, Ordering::AcqRel);
        Ok(reading)
    }
}
