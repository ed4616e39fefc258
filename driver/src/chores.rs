use crate::durable::{DurableInner, ReadBack, ReaderJob};
use std::fmt;
use std::sync::mpsc::Receiver;
use std::sync::Arc;

/// The work of a process's threads, if the process was opened by [`Durable::open_without_threads`]. Whoever simulates
/// the process does it, one piece after another.
///
/// [`Durable::open_without_threads`]: crate::Durable::open_without_threads
pub struct Chores {
    inner: Arc<DurableInner>,
    handed: Receiver<ReaderJob>,
    /// The readings that are due, in the order in which they were asked for.
    jobs: Vec<ReaderJob>,
}

impl Chores {
    pub(crate) fn new(inner: Arc<DurableInner>, handed: Receiver<ReaderJob>) -> Chores {
        Chores {
            inner,
            handed,
            jobs: Vec::new(),
        }
    }

    /// Returns how many readings of the store are due.
    pub fn readings(&mut self) -> usize {
        self.jobs.extend(self.handed.try_iter());
        self.jobs.len()
    }

    /// Reads the store for the due reading at this place. Returns the call that tells the process the result. The call
    /// may come later, because four threads read at once. Returns nothing if no reading is due at this place.
    pub fn read(&mut self, place: usize) -> Option<ReadBack> {
        let is_due = place < self.readings();
        is_due.then(|| self.inner.read(self.jobs.remove(place)))
    }

    /// Makes each shard refuse the work that has waited in vain, and begin the base that is due. A process does so
    /// every 10 ms.
    pub fn tick(&self) {
        self.inner.tick_shards();
    }

    /// Takes another number for the process, if many others have begun since. A process does so every second.
    pub fn keep_number(&self) {
        self.inner.keep_number();
    }

    /// Tells the leader the loads of the process's shards, if they were measured. A process does so every second.
    pub fn tell_loads(&self) {
        self.inner.tell_loads();
    }
}

impl fmt::Debug for Chores {
    fn fmt(&self, f: &mut fmt::Formatter<'_>) -> fmt::Result {
        f.debug_struct("Chores").finish_non_exhaustive()
    }
}
