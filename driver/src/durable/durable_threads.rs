//! The threads of a process's shards. Only here do shards wait for work, or for time to pass.
use super::durable_inner::DurableInner;
use super::reader_job::ReaderJob;
use crate::OpenFault;
use std::sync::mpsc::Receiver;
use std::sync::{Arc, Mutex, PoisonError};
use std::thread::{self, JoinHandle};
use std::time::{Duration, Instant};

/// How many threads read shards.
const READERS: usize = 4;
/// How often threads look for work that has waited in vain.
const TICK: Duration = Duration::from_millis(10);
/// How often a thread checks whether the process must take another number, or has measured loads to tell.
const NUMBERING: Duration = Duration::from_secs(1);
/// How often a thread checks whether its wait is over.
const LOOK: Duration = Duration::from_millis(1);

impl DurableInner {
    /// Does the readers' jobs, until the process ends.
    fn run_jobs(self: Arc<DurableInner>, jobs: &Mutex<Receiver<ReaderJob>>) {
        loop {
            let next = jobs.lock().unwrap_or_else(PoisonError::into_inner).recv();
            match next {
                Ok(next) => self.read(next)(),
                Err(_) => return,
            }
        }
    }

    /// Refuses work that has waited in vain, until the process ends.
    fn tick_all(self: Arc<DurableInner>) {
        let mut numbered = self.now();
        while !self.is_stopping() {
            thread::sleep(TICK);
            let now = self.now();
            if now.duration_since(numbered) >= NUMBERING {
                self.keep_number();
                self.tell_loads();
                numbered = now;
            }
            self.tick_shards();
        }
    }

    /// Blocks until the condition holds, or until that time.
    pub(crate) fn block_until(&self, end: Instant, is_so: impl Fn() -> bool) {
        while !is_so() && self.now() < end {
            thread::sleep(LOOK);
        }
    }
}

/// Returns the threads that read shards, and the one that looks for work that has waited in vain.
pub(crate) fn threads(
    inner: &Arc<DurableInner>,
    jobs: Receiver<ReaderJob>,
) -> Result<Vec<JoinHandle<()>>, OpenFault> {
    let jobs = Arc::new(Mutex::new(jobs));
    let mut threads = Vec::new();
    for number in 0..READERS {
        let (inner, jobs) = (inner.clone(), jobs.clone());
        let reads = move || inner.run_jobs(&jobs);
        threads.push(spawn(&format!("reader-{number}"), reads)?);
    }
    let ticking = inner.clone();
    threads.push(spawn("waits", move || ticking.tick_all())?);
    Ok(threads)
}

/// Blocks until it is told. A control waits like this, on its own thread.
pub(super) fn wait_for(told: &Receiver<()>) {
    // If the sender is dropped, the process ends.
    let _ = told.recv();
}

fn spawn(name: &str, work: impl FnOnce() + Send + 'static) -> Result<JoinHandle<()>, OpenFault> {
    let thread = thread::Builder::new().name(name.to_owned());
    thread.spawn(work).map_err(OpenFault::Thread)
}
