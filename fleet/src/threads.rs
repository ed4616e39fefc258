//! Threads as the environment of a process and of its clients.
use crate::connections::Connections;
use crate::environment::{Environment, Later, NotAnswered};
use crate::introduction::Introduction;
use crate::JoinError;
use durkenzo_driver::OpenFault;
use std::cell::Cell;
use std::future::{poll_fn, Future};
use std::io::{self, Write};
use std::pin::{pin, Pin};
use std::sync::Arc;
use std::task::{Context, Poll, Wake, Waker};
use std::thread::{self, Thread};
use std::time::Instant;

/// An environment for threads. A thread does one work at a time, and is blocked while it waits.
pub(crate) struct Threads {
    connections: Connections,
}

impl Threads {
    /// Returns an environment that asks processes over these connections.
    pub(crate) fn new(connections: Connections) -> Threads {
        Threads { connections }
    }

    /// Returns the connections to other processes.
    pub(crate) fn connections(&self) -> &Connections {
        &self.connections
    }

    /// Returns the introduction of this side.
    pub(crate) fn introduction(&self) -> &Introduction {
        self.connections.introduction()
    }
}

impl Environment for Threads {
    fn now(&self) -> Instant {
        Instant::now()
    }

    fn wait_until(&self, moment: Instant) -> Later<'static, ()> {
        Box::pin(poll_fn(move |_| match Instant::now() >= moment {
            true => Poll::Ready(()),
            false => {
                let due = DUE.get();
                DUE.set(Some(due.map_or(moment, |it| it.min(moment))));
                Poll::Pending
            }
        }))
    }

    fn ask<'a>(
        &'a self,
        address: &'a str,
        request: Vec<u8>,
        end: Instant,
    ) -> Later<'a, Result<Vec<u8>, NotAnswered>> {
        Box::pin(async move { self.connections.ask_bytes(address, request, end) })
    }

    fn tell(&self, line: &str) {
        match tracing::dispatcher::has_been_set() {
            true => tracing::warn!("{line}"),
            // Perhaps nobody reads it any more.
            false => drop(writeln!(io::stderr(), "{line}")),
        }
    }
}

/// Wakes the thread that waits.
struct Unparked(Thread);

impl Wake for Unparked {
    fn wake(self: Arc<Unparked>) {
        self.0.unpark();
    }

    fn wake_by_ref(self: &Arc<Unparked>) {
        self.0.unpark();
    }
}

thread_local! {
    static WAKER: Waker = Waker::from(Arc::new(Unparked(thread::current())));
    /// The earliest moment for which the work of this thread waits.
    static DUE: Cell<Option<Instant>> = const { Cell::new(None) };
}

/// Does the work on this thread, which is blocked while the work waits.
pub(crate) fn block_on<T>(work: impl Future<Output = T>) -> T {
    WAKER.with(|waker| polled(pin!(work), &mut Context::from_waker(waker)))
}

fn polled<T>(mut work: Pin<&mut impl Future<Output = T>>, context: &mut Context<'_>) -> T {
    loop {
        DUE.set(None);
        if let Poll::Ready(done) = work.as_mut().poll(context) {
            return done;
        }
        match DUE.get() {
            Some(due) => thread::park_timeout(due.saturating_duration_since(Instant::now())),
            None => thread::park(),
        }
    }
}

/// Begins a thread.
pub(crate) fn spawn(name: String, run: impl FnOnce() + Send + 'static) -> Result<(), JoinError> {
    let spawned = thread::Builder::new().name(name).spawn(run);
    spawned
        .map(drop)
        .map_err(|error| OpenFault::Thread(error).into())
}

#[cfg(test)]
mod tests {
    use super::*;
    use crate::environment::before;
    use crate::Safety;
    use std::future::pending;
    use std::time::Duration;

    fn threads() -> Arc<dyn Environment> {
        let introduction = Introduction::of_client(&Safety::default(), 7);
        Arc::new(Threads::new(Connections::new(introduction)))
    }

    #[test]
    fn the_longest_time_has_an_end() {
        let threads = threads();
        assert!(threads.end_of(Duration::MAX) > Instant::now());
        assert!(threads.end_of(Duration::ZERO) <= Instant::now());
    }

    #[test]
    fn work_is_done_by_a_thread_that_somebody_wakes_or_whose_time_has_come() {
        let (tell, told) = tokio::sync::oneshot::channel();
        let telling = thread::spawn(move || {
            thread::sleep(Duration::from_millis(20));
            tell.send(7).unwrap();
        });
        assert_eq!(block_on(told), Ok(7));
        telling.join().unwrap();
        let threads = threads();
        let (began, brief) = (Instant::now(), Duration::from_millis(20));
        let (soon, late) = (began + brief, began + 1_000 * brief);
        let waits = before(threads.wait_until(late), threads.wait_until(soon));
        assert_eq!(block_on(waits), None);
        assert_eq!(
            block_on(before(pending::<()>(), threads.wait_until(began))),
            None
        );
        assert!(began.elapsed() >= brief && Instant::now() < late);
    }
}
