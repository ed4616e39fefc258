//! The callers that wait until a shard's admission ends.
use crate::shard_id::ShardId;
use std::collections::VecDeque;
use std::fmt;
use std::sync::atomic::{AtomicUsize, Ordering};
use std::sync::{Arc, Mutex, PoisonError};
use std::task::{Context, Poll, Waker};

/// What an attempt has come to.
pub(crate) enum Attempt<R> {
    /// It succeeded, or was refused for a reason that waiting doesn't mend.
    Ended(R),
    /// Another thread was first. The next attempt may succeed at once.
    Raced,
    /// The shard is admitted.
    Held,
}

/// A caller that waits, by its number.
struct Waiter {
    number: u64,
    waker: Waker,
}

/// The waiting callers of one shard, in order.
#[derive(Default)]
struct Queue {
    last: u64,
    waiting: VecDeque<Waiter>,
}

/// The queue of one shard.
#[derive(Default)]
struct ShardQueue {
    /// How many callers wait. It changes under the lock. Whoever ends an admission reads it without the lock.
    count: AtomicUsize,
    queue: Mutex<Queue>,
}

impl ShardQueue {
    /// Runs the closure on the queue, and then notes how many callers wait. Poison can be ignored, because no holder
    /// can panic in the middle of a change.
    fn change<R>(&self, work: impl FnOnce(&mut Queue) -> R) -> R {
        let mut queue = self.queue.lock().unwrap_or_else(PoisonError::into_inner);
        let done = work(&mut queue);
        self.count.store(queue.waiting.len(), Ordering::SeqCst);
        done
    }

    // Kept out of `Waiters::wake`, which runs at each end of an admission.
    #[cold]
    #[inline(never)]
    fn wake_first(&self) {
        let first = self.change(|queue| queue.waiting.pop_front());
        if let Some(first) = first {
            first.waker.wake();
        }
    }
}

/// The queues of a board's shards. A clone is a handle to the same queues.
///
/// Each end of an admission wakes the first caller in the shard's queue. That caller tries again. If it is admitted, it
/// wakes the next one at its end. If it goes away in another way, it wakes the next one at once.
#[derive(Clone)]
pub(crate) struct Waiters(Arc<[ShardQueue]>);

impl Waiters {
    /// Makes the queues of this many shards.
    pub(crate) fn new(shards: usize) -> Waiters {
        Waiters((0..shards).map(|_| ShardQueue::default()).collect())
    }

    /// Wakes the first caller that waits for the shard. Call this after each end of an admission.
    // The library ends an admission by an atomic exchange, and a caller enters the queue by another one before it looks
    // at the shard again. Both are full barriers on x86-64, which is the only target. So either this read sees the
    // caller, or the caller sees that the admission ended.
    #[inline(always)]
    pub(crate) fn wake(&self, shard: ShardId) {
        let queue = self.0.get(shard.index());
        if let Some(queue) = queue.filter(|it| it.count.load(Ordering::SeqCst) > 0) {
            queue.wake_first();
        }
    }

    /// Wakes the first caller of each shard's queue.
    pub(crate) fn wake_all(&self) {
        let shards = self.0.iter();
        shards
            .filter(|it| it.count.load(Ordering::SeqCst) > 0)
            .for_each(ShardQueue::wake_first);
    }
}

/// A caller's place in the queue of a shard. If it is dropped, the caller leaves the queue. If the caller was woken
/// before that and isn't admitted, it wakes the next one.
struct Place {
    waiters: Waiters,
    shard: usize,
    /// The caller's number in the queue, or 0 before it first enters.
    number: u64,
    is_admitted: bool,
}

impl Place {
    fn new(waiters: &Waiters, shard: ShardId) -> Place {
        Place {
            waiters: waiters.clone(),
            shard: shard.index(),
            number: 0,
            is_admitted: false,
        }
    }

    /// Enters the queue, or notes the new waker if the caller is in it. A caller that was woken goes to the front.
    /// Returns whether there was memory for it.
    fn enter(&mut self, waker: &Waker) -> bool {
        let number = &mut self.number;
        self.waiters.0[self.shard].change(|queue| {
            let mut waiting = queue.waiting.iter_mut();
            if let Some(here) = waiting.find(|it| it.number == *number) {
                here.waker.clone_from(waker);
                return true;
            }
            if queue.waiting.try_reserve(1).is_err() {
                return false;
            }
            let (is_new, waker) = (*number == 0, waker.clone());
            if is_new {
                queue.last += 1;
                *number = queue.last;
                let number = *number;
                queue.waiting.push_back(Waiter { number, waker });
            } else {
                let number = *number;
                queue.waiting.push_front(Waiter { number, waker });
            }
            true
        })
    }
}

impl Drop for Place {
    fn drop(&mut self) {
        let queue = &self.waiters.0[self.shard];
        let left = queue.change(|queue| {
            let mut waiting = queue.waiting.iter();
            let at = waiting.position(|it| it.number == self.number);
            at.and_then(|at| queue.waiting.remove(at))
        });
        if left.is_none() && !self.is_admitted {
            queue.wake_first();
        }
    }
}

/// A caller that may have to wait for a shard.
#[derive(Default)]
pub(crate) struct Wait {
    place: Option<Place>,
}

impl Wait {
    /// Attempts until an attempt ends. While the shard is admitted, the caller waits in the shard's queue. The last
    /// closure tells whether the end is an admission, whose own end wakes the next caller.
    pub(crate) fn poll<R>(
        &mut self,
        context: &mut Context<'_>,
        (waiters, shard): (&Waiters, ShardId),
        mut attempt: impl FnMut() -> Attempt<R>,
        is_admission: impl FnOnce(&R) -> bool,
    ) -> Poll<R> {
        let mut is_queued = false;
        loop {
            match attempt() {
                Attempt::Ended(end) => {
                    if let Some(mut place) = self.place.take() {
                        place.is_admitted = is_admission(&end);
                    }
                    return Poll::Ready(end);
                }
                Attempt::Raced => std::hint::spin_loop(),
                Attempt::Held if is_queued => return Poll::Pending,
                Attempt::Held => {
                    let new = || Place::new(waiters, shard);
                    is_queued = self.place.get_or_insert_with(new).enter(context.waker());
                    if !is_queued {
                        // There is no memory for the queue. So the caller has to be polled again.
                        context.waker().wake_by_ref();
                        return Poll::Pending;
                    }
                }
            }
        }
    }
}

impl fmt::Debug for Waiters {
    fn fmt(&self, f: &mut fmt::Formatter<'_>) -> fmt::Result {
        f.debug_struct("Waiters").finish_non_exhaustive()
    }
}
