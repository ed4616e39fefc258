//! The environment that the decisions of a process and of a client need: time, and other processes that answer.
use crate::MeetError;
use std::future::{poll_fn, Future};
use std::io;
use std::pin::{pin, Pin};
use std::task::Poll;
use std::time::{Duration, Instant};
use thiserror::Error;

/// The longest time for any wait, because a clock can't express a time that is much later.
const LONGEST: Duration = Duration::from_secs(365 * 24 * 60 * 60);

/// A result that comes later.
pub type Later<'a, T> = Pin<Box<dyn Future<Output = T> + Send + 'a>>;

/// Tells the time, waits, and asks processes. A program does that with threads or tasks, and with sockets. A simulation
/// does it with its own state.
pub trait Environment: Send + Sync + 'static {
    /// Returns this moment.
    fn now(&self) -> Instant;

    /// Waits until this moment.
    fn wait_until(&self, moment: Instant) -> Later<'static, ()>;

    /// Sends these bytes of a request to the process at this address. Waits until this time for the response, and
    /// returns it without its length.
    fn ask<'a>(
        &'a self,
        address: &'a str,
        request: Vec<u8>,
        end: Instant,
    ) -> Later<'a, Result<Vec<u8>, NotAnswered>>;

    /// Tells the operator of the process this line, which needs attention.
    fn tell(&self, _line: &str) {}
}

/// Why there is no response.
#[derive(Debug, Error)]
pub enum NotAnswered {
    /// The server didn't get the request, so nothing was done.
    #[error("{0} isn't reached: {1}")]
    Unreached(String, MeetError),
    /// The server may have got the request.
    #[error("{0} didn't answer: {1}")]
    Lost(String, io::Error),
}

impl dyn Environment {
    /// Returns the time that is this long from now.
    pub(crate) fn end_of(&self, length: Duration) -> Instant {
        self.now() + length.min(LONGEST)
    }

    /// Returns the time that is left.
    pub(crate) fn left(&self, end: Instant) -> Duration {
        end.saturating_duration_since(self.now())
    }

    /// Returns whether that time has come.
    pub(crate) fn is_past(&self, end: Instant) -> bool {
        self.now() >= end
    }

    /// Waits for this long, but not beyond that time.
    pub(crate) async fn wait(&self, length: Duration, end: Instant) {
        self.wait_until(end.min(self.end_of(length))).await;
    }
}

/// Waits for the result of this work. Returns nothing if the other future ends first.
pub(crate) async fn before<T>(
    work: impl Future<Output = T>,
    end: impl Future<Output = ()>,
) -> Option<T> {
    let (mut work, mut end) = (pin!(work), pin!(end));
    poll_fn(|context| match work.as_mut().poll(context) {
        Poll::Ready(came) => Poll::Ready(Some(came)),
        Poll::Pending => end.as_mut().poll(context).map(|()| None),
    })
    .await
}
