use std::collections::VecDeque;
use std::future::{poll_fn, Future};
use std::pin::pin;
use std::sync::{Mutex, MutexGuard, PoisonError};
use std::task::{Poll, Waker};
use std::time::Duration;

/// The longest time that a call sleeps before it looks again, if nobody wakes it.
pub(crate) const LOOK: Duration = Duration::from_millis(10);

/// Calls that wait for a shard, in the order in which they came.
#[derive(Default)]
pub(crate) struct Queue {
    waiting: Mutex<Waiting>,
}

#[derive(Default)]
struct Waiting {
    next: u64,
    calls: VecDeque<Waiter>,
}

/// A call that waits to look again.
struct Waiter {
    number: u64,
    /// How to wake the call. There is none if it hasn't waited yet.
    waker: Option<Waker>,
    /// Whether the call was woken since it looked last.
    is_woken: bool,
}

/// A place in the queue. The place is given back when this is dropped.
pub(crate) struct Turn<'a> {
    queue: &'a Queue,
    number: u64,
}

impl Queue {
    /// Returns a place behind all others, if fewer than this many calls wait.
    pub(crate) fn enter(&self, most: usize) -> Option<Turn<'_>> {
        let mut waiting = self.waiting();
        if waiting.calls.len() >= most {
            return None;
        }
        let number = waiting.next;
        waiting.next += 1;
        waiting.calls.push_back(Waiter {
            number,
            waker: None,
            is_woken: false,
        });
        Some(Turn {
            queue: self,
            number,
        })
    }

    /// Returns whether nobody waits.
    pub(crate) fn is_empty(&self) -> bool {
        self.waiting().calls.is_empty()
    }

    /// Returns the number of calls that wait.
    #[cfg(any(feature = "simulated", all(test, feature = "tokio")))]
    pub(crate) fn count(&self) -> usize {
        self.waiting().calls.len()
    }

    /// Makes the first call look again.
    pub(crate) fn wake(&self) {
        if let Some(first) = self.waiting().calls.front_mut() {
            first.is_woken = true;
            if let Some(waker) = first.waker.take() {
                waker.wake();
            }
        }
    }

    fn waiting(&self) -> MutexGuard<'_, Waiting> {
        self.waiting.lock().unwrap_or_else(PoisonError::into_inner)
    }
}

impl Turn<'_> {
    /// Returns whether all calls that came before have left.
    pub(crate) fn is_first(&self) -> bool {
        let waiting = self.queue.waiting();
        waiting
            .calls
            .front()
            .is_some_and(|it| it.number == self.number)
    }

    /// Waits until somebody wakes the call, or until that future ends.
    pub(crate) async fn woken(&self, end: impl Future<Output = ()>) {
        let mut end = pin!(end);
        poll_fn(|context| {
            let mut waiting = self.queue.waiting();
            let mut own = waiting
                .calls
                .iter_mut()
                .filter(|it| it.number == self.number);
            if let Some(own) = own.next() {
                if std::mem::take(&mut own.is_woken) {
                    return Poll::Ready(());
                }
                own.waker = Some(context.waker().clone());
            }
            drop(waiting);
            end.as_mut().poll(context)
        })
        .await;
    }
}

impl Drop for Turn<'_> {
    fn drop(&mut self) {
        self.queue
            .waiting()
            .calls
            .retain(|it| it.number != self.number);
        self.queue.wake();
    }
}

#[cfg(test)]
mod tests {
    use super::*;

    #[test]
    fn calls_wait_in_the_order_in_which_they_came() {
        let queue = Queue::default();
        assert!(queue.is_empty());
        let (first, second) = (queue.enter(2).unwrap(), queue.enter(2).unwrap());
        assert!(queue.enter(2).is_none());
        assert!(first.is_first() && !second.is_first());
        drop(first);
        assert!(second.is_first() && !queue.is_empty());
        let third = queue.enter(2).unwrap();
        assert!(!third.is_first());
        drop(second);
        assert!(third.is_first());
    }
}
