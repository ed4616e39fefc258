use super::stream::Stream;
use crate::keep_alive;
use mio::{Interest, Registry, Token};
use std::fmt;
use std::io;

/// Where events of streams come from.
pub(super) trait Sockets: fmt::Debug + Send {
    /// Makes the stream's events come with this place from now on.
    ///
    /// # Errors
    ///
    /// If the system refuses that.
    fn begin(&self, stream: &mut Stream, place: usize) -> io::Result<()>;

    /// Makes no more events of the stream come.
    fn end(&self, stream: &mut Stream);
}

/// Streams of a simulation, which notes their events itself.
#[cfg(feature = "simulated")]
#[derive(Debug)]
pub(super) struct SimulatedSockets;

#[cfg(feature = "simulated")]
impl Sockets for SimulatedSockets {
    fn begin(&self, stream: &mut Stream, place: usize) -> io::Result<()> {
        if let Stream::Simulated(stream) = stream {
            stream.begin(place);
        }
        Ok(())
    }

    fn end(&self, _stream: &mut Stream) {}
}

/// Sockets whose events a poll tells.
#[derive(Debug)]
pub(super) struct PolledSockets(pub(super) Registry);

impl Sockets for PolledSockets {
    fn begin(&self, stream: &mut Stream, place: usize) -> io::Result<()> {
        let Some(socket) = stream.socket() else {
            return Ok(());
        };
        socket.set_nodelay(true)?;
        keep_alive::of_client(socket)?;
        let interest = Interest::READABLE | Interest::WRITABLE;
        self.0.register(socket, Token(place), interest)
    }

    fn end(&self, stream: &mut Stream) {
        if let Some(socket) = stream.socket() {
            let _ = self.0.deregister(socket);
        }
    }
}
