use super::frames::{locked, wait_until, Asker, SharedFrames, TO_ASKER, TO_SERVER};
use crate::machine_clock::MachineClock;
use durkenzo_fleet::simulated::{Environment, Later, NotAnswered};
use std::future::{poll_fn, Future};
use std::io::{self, ErrorKind};
use std::pin::pin;
use std::task::Poll;
use std::time::{Duration, Instant};

/// How long it may take at most until both sides know each other.
const MEET: Duration = Duration::from_secs(5);
/// How many bytes state the length of a frame. That length counts only the bytes behind them.
const LENGTH: usize = 4;

/// The environment of a process or a client of a fleet: the clock of its machine, and connections that fail by chance.
#[derive(Clone)]
pub struct FleetEnvironment {
    pub frames: SharedFrames,
    pub asker: Asker,
    pub clock: MachineClock,
}

/// A connection, on the side that asks. When this is dropped, the connection is closed, unless it is to be kept.
struct Asking {
    number: u64,
    frames: SharedFrames,
    is_kept: bool,
}

impl Drop for Asking {
    fn drop(&mut self) {
        let mut frames = locked(&self.frames);
        match self.is_kept {
            true => frames.keep(self.number),
            false => frames.close(self.number, TO_SERVER),
        }
    }
}

impl Environment for FleetEnvironment {
    fn now(&self) -> Instant {
        self.clock.now()
    }

    fn wait_until(&self, moment: Instant) -> Later<'static, ()> {
        wait_until(&self.frames, &self.clock, moment)
    }

    fn ask<'a>(
        &'a self,
        address: &'a str,
        request: Vec<u8>,
        end: Instant,
    ) -> Later<'a, Result<Vec<u8>, NotAnswered>> {
        Box::pin(self.asked(address, request, end))
    }
}

impl FleetEnvironment {
    async fn asked(
        &self,
        address: &str,
        request: Vec<u8>,
        end: Instant,
    ) -> Result<Vec<u8>, NotAnswered> {
        let unreached = |error: io::Error| NotAnswered::Unreached(address.to_owned(), error.into());
        let soon = end.min(self.now() + MEET);
        let mut asking = self.connection(address, soon).await.map_err(unreached)?;
        let sent = locked(&self.frames).send(asking.number, TO_SERVER, request);
        sent.map_err(unreached)?;
        let received =
            poll_fn(|context| locked(&self.frames).received(asking.number, TO_ASKER, context));
        let received = self.within(received, end).await;
        let frame = received.map_err(|error| NotAnswered::Lost(address.to_owned(), error))?;
        asking.is_kept = true;
        Ok(frame[LENGTH..].to_vec())
    }

    /// Returns a connection to this address: one that was used before, or a new one. Fails if there is none by `end`.
    async fn connection(&self, address: &str, end: Instant) -> io::Result<Asking> {
        let number = self.begun(address);
        let asking = Asking {
            number,
            frames: self.frames.clone(),
            is_kept: false,
        };
        let reached = poll_fn(|context| locked(&self.frames).reached(number, context));
        self.within(reached, end).await.map(|()| asking)
    }

    /// Returns the number of a connection to this address that was used before. If there is none, begins a new one.
    fn begun(&self, address: &str) -> u64 {
        let (mut frames, asker) = (locked(&self.frames), self.asker);
        let idle = frames.take_idle(asker, address);
        idle.unwrap_or_else(|| frames.dial(asker, address))
    }

    /// Waits for this until `end`. Fails if it doesn't come by then.
    async fn within<T>(
        &self,
        comes: impl Future<Output = io::Result<T>>,
        end: Instant,
    ) -> io::Result<T> {
        let (mut comes, mut over) = (pin!(comes), self.wait_until(end));
        poll_fn(|context| match comes.as_mut().poll(context) {
            Poll::Ready(came) => Poll::Ready(came),
            Poll::Pending => {
                let over = over.as_mut().poll(context);
                over.map(|()| Err(ErrorKind::TimedOut.into()))
            }
        })
        .await
    }
}
