use std::collections::BTreeMap;
use std::future::poll_fn;
use std::ops::{Deref, DerefMut};
use std::sync::{Mutex, MutexGuard, PoisonError};
use std::task::{Context, Poll, Waker};
use std::thread;

/// A shard's body, which only one call at a time uses. A task that uses it may move from thread to thread in the
/// meantime.
///
/// If the body is free, a call of [`BodyLock::lock`] gets it, even if tasks wait already. So a waiting task holds up
/// nobody.
pub(crate) struct BodyLock<B> {
    state: Mutex<State<B>>,
}

struct State<B> {
    /// The body, or nothing while it is in use.
    kept: Option<Box<Option<B>>>,
    /// Whether its last user has panicked, so that the body was dropped.
    is_lost: bool,
    /// The tasks that wait, in the order in which they came.
    tasks: BTreeMap<u64, Waker>,
    next: u64,
}

/// The body in use.
pub(crate) struct BodyInUse<'a, B> {
    lock: &'a BodyLock<B>,
    /// The body. There is none only while this is dropped.
    body: Option<Box<Option<B>>>,
    was_panicking: bool,
}

/// A task that waits for the body. If this is dropped, the task waits no more.
struct WaitingTask<'a, B> {
    lock: &'a BodyLock<B>,
    number: Option<u64>,
}

impl<B> BodyLock<B> {
    pub(crate) fn new() -> BodyLock<B> {
        let state = State {
            kept: Some(Box::new(None)),
            is_lost: false,
            tasks: BTreeMap::new(),
            next: 0,
        };
        BodyLock {
            state: Mutex::new(state),
        }
    }

    /// Waits until nobody uses the body. Returns the body, and whether it was lost since the last time. If the future
    /// is dropped, it waits no more.
    pub(crate) async fn lock(&self) -> (BodyInUse<'_, B>, bool) {
        let mut waiting = WaitingTask {
            lock: self,
            number: None,
        };
        poll_fn(|context| waiting.poll(context)).await
    }

    /// Returns the body as [`BodyLock::lock`] does, if nobody uses it or waits for it.
    pub(crate) fn try_lock(&self) -> Option<(BodyInUse<'_, B>, bool)> {
        let mut state = self.state();
        if !state.tasks.is_empty() {
            return None;
        }
        let body = state.kept.take()?;
        Some(self.used(body, state))
    }

    fn used<'a>(
        &'a self,
        body: Box<Option<B>>,
        mut state: MutexGuard<'_, State<B>>,
    ) -> (BodyInUse<'a, B>, bool) {
        let is_lost = std::mem::take(&mut state.is_lost);
        let body = BodyInUse {
            lock: self,
            body: Some(body),
            was_panicking: thread::panicking(),
        };
        (body, is_lost)
    }

    /// Returns whether somebody uses the body.
    pub(crate) fn is_in_use(&self) -> bool {
        self.state().kept.is_none()
    }

    /// Returns whether nobody uses the body, and no task waits for it.
    #[cfg(any(feature = "simulated", all(test, feature = "tokio")))]
    pub(crate) fn is_free(&self) -> bool {
        let state = self.state();
        state.kept.is_some() && state.tasks.is_empty()
    }

    /// Returns whether a task waits for the body.
    #[cfg(all(test, feature = "tokio"))]
    pub(crate) fn has_task(&self) -> bool {
        !self.state().tasks.is_empty()
    }

    fn state(&self) -> MutexGuard<'_, State<B>> {
        self.state.lock().unwrap_or_else(PoisonError::into_inner)
    }
}

impl<'a, B> WaitingTask<'a, B> {
    fn poll(&mut self, context: &mut Context<'_>) -> Poll<(BodyInUse<'a, B>, bool)> {
        let mut state = self.lock.state();
        if let Some(body) = state.kept.take() {
            if let Some(number) = self.number.take() {
                state.tasks.remove(&number);
            }
            return Poll::Ready(self.lock.used(body, state));
        }
        let number = *self.number.get_or_insert(state.next);
        state.next = state.next.max(number + 1);
        state.tasks.insert(number, context.waker().clone());
        Poll::Pending
    }
}

impl<B> Drop for WaitingTask<'_, B> {
    fn drop(&mut self) {
        let Some(number) = self.number else { return };
        let mut state = self.lock.state();
        state.tasks.remove(&number);
        // This task may have been woken to take the body. If so, the next task must be woken.
        let next = state.kept.is_some().then(|| state.tasks.pop_first());
        drop(state);
        if let Some((_, waker)) = next.flatten() {
            waker.wake();
        }
    }
}

impl<B> Drop for BodyInUse<'_, B> {
    fn drop(&mut self) {
        let Some(mut body) = self.body.take() else {
            return;
        };
        let has_panicked = thread::panicking() && !self.was_panicking;
        // A body that a callback has half changed is of no use.
        let half_changed = if has_panicked { body.take() } else { None };
        let mut state = self.lock.state();
        state.is_lost |= has_panicked;
        state.kept = Some(body);
        let task = state.tasks.pop_first();
        drop(state);
        if let Some((_, waker)) = task {
            waker.wake();
        }
        drop(half_changed);
    }
}

impl<B> Deref for BodyInUse<'_, B> {
    type Target = Option<B>;

    fn deref(&self) -> &Option<B> {
        self.body.as_ref().expect("it is there until it is dropped")
    }
}

impl<B> DerefMut for BodyInUse<'_, B> {
    fn deref_mut(&mut self) -> &mut Option<B> {
        self.body.as_mut().expect("it is there until it is dropped")
    }
}

#[cfg(test)]
mod tests {
    use super::*;
    use crate::threads::block_on;
    use std::sync::atomic::{AtomicUsize, Ordering};
    use std::sync::Arc;
    use std::task::Wake;

    /// Counts how often a task is woken.
    #[derive(Default)]
    struct Counted(AtomicUsize);

    impl Wake for Counted {
        fn wake(self: Arc<Counted>) {
            self.0.fetch_add(1, Ordering::SeqCst);
        }
    }

    fn poll<'a, B>(
        task: &mut WaitingTask<'a, B>,
        counted: &Arc<Counted>,
    ) -> Option<BodyInUse<'a, B>> {
        let waker = Waker::from(counted.clone());
        match task.poll(&mut Context::from_waker(&waker)) {
            Poll::Ready((body, _)) => Some(body),
            Poll::Pending => None,
        }
    }

    fn task<B>(lock: &BodyLock<B>) -> (WaitingTask<'_, B>, Arc<Counted>) {
        (WaitingTask { lock, number: None }, Arc::default())
    }

    fn woken(counted: &Arc<Counted>) -> usize {
        counted.0.load(Ordering::SeqCst)
    }

    #[test]
    fn tasks_are_woken_in_their_order_and_who_is_dropped_wakes_the_next() {
        let lock = BodyLock::<u8>::new();
        let used = block_on(lock.lock()).0;
        let ((mut one, first), (mut two, second), (mut three, third)) =
            (task(&lock), task(&lock), task(&lock));
        assert!(poll(&mut one, &first).is_none() && poll(&mut two, &second).is_none());
        assert!(poll(&mut three, &third).is_none());
        drop(used);
        assert_eq!([&first, &second, &third].map(woken), [1, 0, 0]);
        // The task was woken, and is dropped before it takes the body.
        drop(one);
        assert_eq!([&first, &second, &third].map(woken), [1, 1, 0]);
        let mut used = poll(&mut two, &second).unwrap();
        *used = Some(7);
        // A task that waits no more wakes nobody.
        drop(three);
        drop(used);
        assert_eq!([&first, &second, &third].map(woken), [1, 1, 0]);
        let (used, is_lost) = block_on(lock.lock());
        assert!(*used == Some(7) && !is_lost && lock.state().tasks.is_empty());
    }

    #[test]
    fn who_waits_for_nothing_gets_it_only_as_it_is_free() {
        let lock = BodyLock::<u8>::new();
        let (used, is_lost) = lock.try_lock().unwrap();
        assert!(lock.try_lock().is_none() && !is_lost);
        let (mut waits, woken_once) = task(&lock);
        assert!(poll(&mut waits, &woken_once).is_none());
        drop(used);
        assert_eq!(woken(&woken_once), 1);
        assert!(poll(&mut waits, &woken_once).is_some() && lock.try_lock().is_some());
    }

    #[test]
    fn threads_and_tasks_use_it_one_at_a_time_and_a_panic_loses_it() {
        let lock = BodyLock::<usize>::new();
        *block_on(lock.lock()).0 = Some(0);
        thread::scope(|scope| {
            for _ in 0..4 {
                scope.spawn(|| {
                    for _ in 0..1_000 {
                        let mut used = block_on(lock.lock()).0;
                        *used = used.map(|it| it + 1);
                    }
                });
            }
        });
        assert_eq!(*block_on(lock.lock()).0, Some(4_000));
        let panics = || {
            let _used = block_on(lock.lock());
            panic!("a callback");
        };
        assert!(std::panic::catch_unwind(std::panic::AssertUnwindSafe(panics)).is_err());
        let (used, is_lost) = block_on(lock.lock());
        assert!(used.is_none() && is_lost);
        drop(used);
        assert!(!block_on(lock.lock()).1);
    }
}
