//! Threads that wait for a shard.
use std::future::Future;
use std::pin::pin;
use std::sync::Arc;
use std::task::{Context, Poll, Wake, Waker};
use std::thread::{self, Thread};
use std::time::{Duration, Instant};

/// How often a thread polls before it parks. Most admissions are shorter than the way into the kernel and back.
const SPINS: u32 = 6;

/// Unparks the thread.
struct Parked(Thread);

impl Wake for Parked {
    fn wake(self: Arc<Parked>) {
        self.0.unpark();
    }

    fn wake_by_ref(self: &Arc<Parked>) {
        self.0.unpark();
    }
}

/// Returns when the time is over, or `None` if the clock doesn't reach so far.
pub(crate) fn end_of(time: Duration) -> Option<Instant> {
    Instant::now().checked_add(time)
}

/// Tries the closure for a short while without parking. Returns its first answer.
pub(crate) fn spin<R>(mut attempt: impl FnMut() -> Option<R>) -> Option<R> {
    (0..SPINS).find_map(|turn| {
        for _ in 0..1 << turn {
            std::hint::spin_loop();
        }
        attempt()
    })
}

/// Runs the future on this thread, which is parked while the future waits. Returns `None` if the time is over first.
pub(crate) fn wait_for<F: Future>(future: F, until: Option<Instant>) -> Option<F::Output> {
    let mut future = pin!(future);
    let waker = Waker::from(Arc::new(Parked(thread::current())));
    let mut context = Context::from_waker(&waker);
    loop {
        if let Poll::Ready(output) = future.as_mut().poll(&mut context) {
            return Some(output);
        }
        match until {
            None => thread::park(),
            Some(until) => match until.checked_duration_since(Instant::now()) {
                Some(left) if !left.is_zero() => thread::park_timeout(left),
                _ => return None,
            },
        }
    }
}
