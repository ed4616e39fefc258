use super::job::Job;
use std::sync::mpsc::{Receiver, RecvTimeoutError};
use std::time::Instant;

/// The most jobs that are taken together.
const MOST_JOBS: usize = 1_024;

/// After so many written bytes no more jobs are taken.
const MOST_BYTES: usize = 1 << 20;

/// Jobs that are taken together.
pub(super) struct Batch {
    pub(super) jobs: Vec<Job>,
    pub(super) is_last: bool,
}

/// The waiting jobs of an embedded store.
pub(super) struct JobQueue(Receiver<Job>);

impl JobQueue {
    pub(super) fn new(jobs: Receiver<Job>) -> JobQueue {
        JobQueue(jobs)
    }

    /// Waits for a job, at most until then, and takes all that are there.
    pub(super) fn wait_until(&self, end: Instant) -> Batch {
        let waits = end.saturating_duration_since(Instant::now());
        match self.0.recv_timeout(waits) {
            Ok(first) => self.taken(Some(first)),
            Err(why) => Batch {
                jobs: Vec::new(),
                is_last: why == RecvTimeoutError::Disconnected,
            },
        }
    }

    /// Takes all jobs that are there, with a first one that was taken already.
    pub(super) fn taken(&self, first: Option<Job>) -> Batch {
        let (mut jobs, mut bytes) = (Vec::new(), 0);
        let waiting = first.into_iter().chain(self.0.try_iter());
        for job in waiting.take(MOST_JOBS) {
            if matches!(job, Job::End) {
                let is_last = true;
                return Batch { jobs, is_last };
            }
            bytes += job.bytes();
            jobs.push(job);
            if bytes >= MOST_BYTES {
                break;
            }
        }
        let is_last = false;
        Batch { jobs, is_last }
    }
}
