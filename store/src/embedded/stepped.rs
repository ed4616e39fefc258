use super::engine::Engine;
use super::engine_server::EngineServer;
use super::job_queue::JobQueue;
use super::sqlite::Sqlite;
use super::{Disk, Embedded, OpenError, Sync};
use std::path::Path;
use std::sync::atomic::AtomicU64;
use std::sync::{mpsc, Mutex, PoisonError};
use std::time::Instant;

/// The server of a store without a thread, until it ends.
pub(super) struct Stepped(Mutex<Option<EngineServer<Sqlite>>>);

impl Embedded {
    /// Opens a store in this folder of this disk, without a thread and with this clock. It does the sent transactions
    /// as soon as it is asked something else, or by [`Embedded::step`].
    ///
    /// # Errors
    ///
    /// As [`OpenError`] says. Then the folder stays as it was.
    pub fn stepped(
        disk: &dyn Disk,
        folder: &Path,
        sync: Sync,
        clock: impl Fn() -> Instant + Send + 'static,
    ) -> Result<Embedded, OpenError> {
        let tables = Sqlite::open(disk, folder, sync)?;
        let (jobs, asked) = mpsc::channel();
        let engine = Engine::new(tables, Box::new(clock));
        let serving = EngineServer::new(engine, JobQueue::new(asked));
        Ok(Embedded {
            jobs,
            watches: AtomicU64::new(0),
            thread: None,
            stepped: Some(Stepped(Mutex::new(Some(serving)))),
        })
    }

    /// Returns whether its server hasn't ended, for a store without a thread.
    pub fn goes_on(&self) -> bool {
        self.stepped.as_ref().is_none_or(|Stepped(serving)| {
            let serving = serving.lock().unwrap_or_else(PoisonError::into_inner);
            serving.is_some()
        })
    }

    /// Does everything that was sent, for a store without a thread. Returns whether it goes on after that.
    pub fn step(&self) -> bool {
        let Some(Stepped(serving)) = &self.stepped else {
            return true;
        };
        let mut serving = serving.lock().unwrap_or_else(PoisonError::into_inner);
        let goes_on = serving.as_mut().is_some_and(EngineServer::step);
        if !goes_on {
            *serving = None;
        }
        goes_on
    }
}
