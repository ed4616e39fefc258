use super::arrived::Arrived;
use super::inlet::wake;
use mio::net::TcpStream;
use mio::Waker;
use std::collections::VecDeque;
use std::sync::atomic::{AtomicBool, Ordering};
use std::sync::{Mutex, MutexGuard, PoisonError};

/// The queue of connections that wait for the thread that does their handshakes.
#[derive(Debug)]
pub(super) struct Door {
    newcomers: Mutex<VecDeque<Arrived<TcpStream>>>,
    waker: Waker,
    is_open: AtomicBool,
}

impl Door {
    /// Makes the queue of the thread that this wakes.
    pub(super) fn new(waker: Waker) -> Door {
        Door {
            newcomers: Mutex::default(),
            waker,
            is_open: AtomicBool::new(true),
        }
    }

    /// Queues a connection, and wakes the thread. If more than `most` would wait, returns the first one, which gives
    /// way.
    pub(super) fn bring(
        &self,
        newcomer: Arrived<TcpStream>,
        most: Option<usize>,
    ) -> Option<Arrived<TcpStream>> {
        let first = newcomer.wait_in(&mut self.newcomers(), most);
        self.wake();
        first
    }

    /// Returns how many connections wait.
    pub(super) fn len(&self) -> usize {
        self.newcomers().len()
    }

    /// Takes the connection that has waited longest.
    pub(super) fn take(&self) -> Option<Arrived<TcpStream>> {
        self.newcomers().pop_front()
    }

    /// Wakes the thread, so that it looks at the queue.
    pub(super) fn wake(&self) {
        wake(&self.waker);
    }

    /// Notes that no more connections are handed on. If a thread sees this note, it also sees every connection that was
    /// handed on.
    pub(super) fn close(&self) {
        self.is_open.store(false, Ordering::Release);
    }

    /// Returns whether connections may still be handed on after their handshakes.
    pub(super) fn is_open(&self) -> bool {
        self.is_open.load(Ordering::Acquire)
    }

    fn newcomers(&self) -> MutexGuard<'_, VecDeque<Arrived<TcpStream>>> {
        self.newcomers
            .lock()
            .unwrap_or_else(PoisonError::into_inner)
    }
}
