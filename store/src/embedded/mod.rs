//! A store inside the process. Its own thread makes the transactions, all waiting ones together.
mod checksum;
mod disk;
mod engine;
mod engine_server;
mod job;
mod job_queue;
mod leases;
mod memory;
mod open_error;
mod reserve;
mod sqlite;
#[cfg(feature = "simulated")]
mod stepped;
mod sync;
mod system_room_file;
mod tables;
mod unsynced_log;
mod watchers;

#[cfg(feature = "simulated")]
pub use disk::{Disk, FileLength, RoomFile};
pub use open_error::OpenError;
pub use sync::Sync;

use crate::{
    CompactError, LeaseError, LeaseId, Outcome, ReadError, Reading, Store, Transaction, Watch,
    Watcher, WriteError,
};
use disk::SystemDisk;
use engine::Engine;
use engine_server::EngineServer;
use job::{Completion, Job};
use job_queue::JobQueue;
use memory::MemoryTables;
use sqlite::Sqlite;
use std::fmt;
use std::path::Path;
use std::sync::atomic::{AtomicU64, Ordering};
use std::sync::mpsc::{self, Sender};
use std::thread::{self, JoinHandle};
use std::time::{Duration, Instant};
#[cfg(feature = "simulated")]
use stepped::Stepped;
use tables::Tables;

/// A store in this process, or in a folder that only this process uses.
///
/// Dropping it first makes the transactions that were sent before.
pub struct Embedded {
    jobs: Sender<Job>,
    watches: AtomicU64,
    /// Its thread; nothing if nobody waits for the thread's end.
    thread: Option<JoinHandle<()>>,
    #[cfg(feature = "simulated")]
    stepped: Option<Stepped>,
}

impl Embedded {
    /// Makes a store in memory, which is empty, and gone with the process.
    pub fn in_memory() -> Embedded {
        Embedded::over(MemoryTables::default())
    }

    /// Opens the store in this folder, which is made if it doesn't exist. Keys under a lease are gone.
    ///
    /// # Errors
    ///
    /// As [`OpenError`] says. Then the folder stays as it was.
    pub fn in_folder(folder: &Path, sync: Sync) -> Result<Embedded, OpenError> {
        let tables = Sqlite::open(&SystemDisk, folder, sync)?;
        Ok(Embedded::over(tables))
    }

    fn over<T: Tables + Send + 'static>(tables: T) -> Embedded {
        let (jobs, asked) = mpsc::channel();
        let engine = Engine::new(tables, Box::new(Instant::now));
        let serving = EngineServer::new(engine, JobQueue::new(asked));
        Embedded {
            jobs,
            watches: AtomicU64::new(0),
            thread: Some(thread::spawn(move || serving.run())),
            #[cfg(feature = "simulated")]
            stepped: None,
        }
    }

    /// Sends a job and waits for its answer. Returns nothing if the thread has ended.
    fn ask<A>(&self, job: impl FnOnce(Sender<A>) -> Job) -> Option<A> {
        let (tell, told) = mpsc::channel();
        self.jobs.send(job(tell)).ok()?;
        #[cfg(feature = "simulated")]
        self.step();
        told.recv().ok()
    }
}

impl Store for Embedded {
    fn submit(
        &self,
        transaction: Transaction,
        done: Box<dyn FnOnce(Result<Outcome, WriteError>) + Send>,
    ) {
        // If the thread has ended, the completion tells that.
        let _ = self
            .jobs
            .send(Job::Make(transaction, Completion::new(done)));
    }

    /// A store without a thread does it here.
    #[cfg(feature = "simulated")]
    fn make(&self, transaction: Transaction) -> Result<Outcome, WriteError> {
        let (tell, told) = mpsc::channel();
        let done = move |outcome| {
            // The caller waits until it is told.
            let _ = tell.send(outcome);
        };
        self.submit(transaction, Box::new(done));
        self.step();
        told.recv().unwrap_or(Err(WriteError::Stopped))
    }

    fn read(&self, keys: &[&[u8]]) -> Result<Reading, ReadError> {
        let keys = keys.iter().map(|it| it.to_vec()).collect();
        self.ask(|tell| Job::Read(keys, tell))
            .unwrap_or(Err(ReadError::Stopped))
    }

    fn read_all(&self, prefix: &[u8]) -> Result<Reading, ReadError> {
        self.ask(|tell| Job::ReadAll(prefix.to_vec(), tell))
            .unwrap_or(Err(ReadError::Stopped))
    }

    fn read_range(&self, from: &[u8], end: &[u8], most: usize) -> Result<Reading, ReadError> {
        self.ask(|tell| Job::ReadRange(from.to_vec(), end.to_vec(), most, tell))
            .unwrap_or(Err(ReadError::Stopped))
    }

    fn read_keys(&self, from: &[u8], end: &[u8]) -> Result<Vec<Vec<u8>>, ReadError> {
        self.ask(|tell| Job::ReadKeys(from.to_vec(), end.to_vec(), tell))
            .unwrap_or(Err(ReadError::Stopped))
    }

    fn watch(&self, prefix: &[u8], watcher: Watcher) -> Result<Watch, ReadError> {
        let number = self.watches.fetch_add(1, Ordering::Relaxed);
        self.ask(|tell| Job::Watch(number, prefix.to_vec(), watcher, tell))
            .unwrap_or(Err(ReadError::Stopped))?;
        let jobs = self.jobs.clone();
        Ok(Watch::ended_by(move || {
            let _ = jobs.send(Job::Unwatch(number));
        }))
    }

    fn grant(&self, length: Duration) -> Result<LeaseId, LeaseError> {
        self.ask(|tell| Job::Grant(length, tell))
            .ok_or(LeaseError::Stopped)
    }

    fn keep(&self, lease: LeaseId) -> Result<(), LeaseError> {
        self.ask(|tell| Job::Keep(lease, tell))
            .unwrap_or(Err(LeaseError::Stopped))
    }

    fn revoke(&self, lease: LeaseId) -> Result<(), LeaseError> {
        self.ask(|tell| Job::Revoke(lease, tell))
            .unwrap_or(Err(LeaseError::Stopped))
    }

    fn left(&self) -> Option<u64> {
        self.ask(Job::Left)?
    }

    fn compact(&self) -> Result<(), CompactError> {
        self.ask(Job::Compact).unwrap_or(Err(CompactError::Stopped))
    }
}

impl Drop for Embedded {
    fn drop(&mut self) {
        let _ = self.jobs.send(Job::End);
        #[cfg(feature = "simulated")]
        self.step();
        // A callback on the thread may be the last owner of the store, and a thread can't join itself.
        let is_own = |it: &JoinHandle<()>| it.thread().id() == thread::current().id();
        if let Some(thread) = self.thread.take().filter(|it| !is_own(it)) {
            // A thread that panicked has logged that.
            let _ = thread.join();
        }
    }
}

impl fmt::Debug for Embedded {
    fn fmt(&self, f: &mut fmt::Formatter<'_>) -> fmt::Result {
        f.debug_struct("Embedded").finish_non_exhaustive()
    }
}
