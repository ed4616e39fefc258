use crate::chance::Chance;
use std::future::Future;
use std::pin::Pin;
use std::sync::atomic::{AtomicBool, Ordering};
use std::sync::Arc;
use std::task::{Context, Poll, Wake, Waker};

/// A task. It runs on the only thread until it waits.
struct Task {
    work: Pin<Box<dyn Future<Output = ()>>>,
    woken: Arc<Woken>,
    waker: Waker,
}

/// Whether a task has something to do.
struct Woken(AtomicBool);

impl Wake for Woken {
    fn wake(self: Arc<Woken>) {
        self.0.store(true, Ordering::Relaxed);
    }

    fn wake_by_ref(self: &Arc<Woken>) {
        self.0.store(true, Ordering::Relaxed);
    }
}

/// Tasks. If a task is woken, it can run again.
#[derive(Default)]
pub struct Tasks(Vec<Option<Task>>);

impl Tasks {
    /// Adds a task, and returns its place.
    pub fn add(&mut self, work: impl Future<Output = ()> + 'static) -> usize {
        let woken = Arc::new(Woken(AtomicBool::new(true)));
        let task = Task {
            work: Box::pin(work),
            waker: Waker::from(woken.clone()),
            woken,
        };
        self.0.push(Some(task));
        self.0.len() - 1
    }

    /// Forgets the places of finished tasks. The places of later tasks change.
    pub fn tidy(&mut self) {
        self.0.retain(Option::is_some);
    }

    /// Drops the task at this place, even if it isn't finished.
    pub fn drop_at(&mut self, place: usize) {
        self.0[place] = None;
    }

    /// Returns how many tasks aren't finished.
    pub fn count(&self) -> usize {
        self.0.iter().flatten().count()
    }

    /// Runs all woken tasks in their order, until each of them waits. Returns whether any task was woken.
    pub fn run(&mut self) -> bool {
        let mut has_run = false;
        while self.run_round() {
            has_run = true;
        }
        has_run
    }

    /// Runs one random woken task until it waits. If no task is woken, does nothing.
    pub fn run_one(&mut self, chance: &mut Chance) {
        let first = chance.below(self.0.len().max(1) as u64) as usize;
        let mut places = (first..self.0.len()).chain(0..first.min(self.0.len()));
        places.find(|it| self.has_run(*it));
    }

    fn run_round(&mut self) -> bool {
        let mut has_run = false;
        for place in 0..self.0.len() {
            has_run |= self.has_run(place);
        }
        has_run
    }

    fn has_run(&mut self, place: usize) -> bool {
        let Some(task) = &mut self.0[place] else {
            return false;
        };
        if !task.woken.0.swap(false, Ordering::Relaxed) {
            return false;
        }
        let mut context = Context::from_waker(&task.waker);
        if task.work.as_mut().poll(&mut context) == Poll::Ready(()) {
            self.0[place] = None;
        }
        true
    }
}
