//! Tasks of tokio as the environment of a client.
use crate::async_stream::AsyncStream;
use crate::connections::MEET;
use crate::environment::{Environment, Later, NotAnswered};
use crate::idle_connections::{IdleConnections, Quiet};
use crate::introduction::Introduction;
use crate::MeetError;
use std::io::{self, ErrorKind};
use std::sync::{Mutex, MutexGuard, PoisonError};
use std::time::Instant;
use tokio::time::{sleep_until, timeout_at};

/// An environment for tasks. A task blocks no thread while it waits. It must run in a runtime whose drivers of IO and
/// of time are enabled.
pub(crate) struct Tasks {
    introduction: Introduction,
    idle: Mutex<IdleConnections<AsyncStream>>,
}

impl Environment for Tasks {
    fn now(&self) -> Instant {
        Instant::now()
    }

    fn wait_until(&self, moment: Instant) -> Later<'static, ()> {
        Box::pin(sleep_until(moment.into()))
    }

    fn ask<'a>(
        &'a self,
        address: &'a str,
        request: Vec<u8>,
        end: Instant,
    ) -> Later<'a, Result<Vec<u8>, NotAnswered>> {
        Box::pin(async move { self.asked(address, &request, end).await })
    }
}

impl Tasks {
    /// Returns an environment that connects to processes with this introduction.
    pub(crate) fn new(introduction: Introduction) -> Tasks {
        Tasks {
            introduction,
            idle: Mutex::default(),
        }
    }

    /// Sends these bytes, and waits until this time for the response.
    async fn asked(
        &self,
        address: &str,
        bytes: &[u8],
        end: Instant,
    ) -> Result<Vec<u8>, NotAnswered> {
        let unreached = |error| NotAnswered::Unreached(address.to_owned(), error);
        let lost = |error| NotAnswered::Lost(address.to_owned(), error);
        let late = || io::Error::from(ErrorKind::TimedOut);
        let mut stream = match self.kept(address) {
            Some(stream) => stream,
            None => {
                let met = AsyncStream::connect(address, &self.introduction);
                let met = timeout_at(end.min(Instant::now() + MEET).into(), met).await;
                met.unwrap_or_else(|_| Err(MeetError::Unreached(late())))
                    .map_err(unreached)?
            }
        };
        // If a server gets only a part of a frame, it does nothing.
        let written = timeout_at(end.into(), stream.write_all(bytes)).await;
        written
            .unwrap_or_else(|_| Err(late()))
            .map_err(|error| unreached(error.into()))?;
        let received = timeout_at(end.into(), stream.read_frame()).await;
        let response = received.unwrap_or_else(|_| Err(late())).map_err(lost)?;
        self.idle().keep(address, stream);
        Ok(response)
    }

    fn idle(&self) -> MutexGuard<'_, IdleConnections<AsyncStream>> {
        self.idle.lock().unwrap_or_else(PoisonError::into_inner)
    }

    /// Returns a connection that was used before, and that the server hasn't closed since.
    fn kept(&self, address: &str) -> Option<AsyncStream> {
        let mut idle = self.idle();
        std::iter::from_fn(|| idle.take(address)).find(AsyncStream::is_quiet)
    }
}
