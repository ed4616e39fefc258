#[cfg(feature = "simulated")]
use super::client_stream::ClientStream;
use super::tls_stream::TlsStream;
use mio::net::TcpStream;
use std::io::{self, Read, Write};

/// The answer to a client for which there is no place, as from Redis.
const FULL: &[u8] = b"-ERR max number of clients reached\r\n";

/// The stream of a client's bytes.
#[derive(Debug)]
pub(super) enum Stream {
    Plain(TcpStream),
    Tls(Box<TlsStream>),
    /// A stream without a socket.
    #[cfg(feature = "simulated")]
    Simulated(Box<dyn ClientStream>),
}

impl Stream {
    /// Returns its socket, if it has one.
    pub(super) fn socket(&mut self) -> Option<&mut TcpStream> {
        match self {
            Stream::Plain(socket) => Some(socket),
            Stream::Tls(tls) => Some(tls.socket()),
            #[cfg(feature = "simulated")]
            Stream::Simulated(_) => None,
        }
    }

    /// Tells the client that there is no place. The connection ends whether the client reads that or not.
    pub(super) fn refuse(&mut self) {
        self.refuse_for(FULL);
    }

    /// Does the same for another reason.
    pub(super) fn refuse_for(&mut self, why: &[u8]) {
        let _ = self.write(why);
    }

    /// Returns whether bytes may have come for which there will be no event, because they came with the handshake.
    pub(super) fn may_have_come(&self) -> bool {
        matches!(self, Stream::Tls(_))
    }

    /// Returns whether bytes that were written wait for the socket.
    pub(super) fn has_unsent(&self) -> bool {
        matches!(self, Stream::Tls(tls) if tls.has_unsent())
    }

    /// Returns whether there may be more to read, after a read returned so many of so many bytes. If not, the socket
    /// tells when more has come.
    pub(super) fn may_have_more(&self, count: usize, room: usize) -> bool {
        match self {
            // A short read took all that was there.
            Stream::Plain(_) => count == room,
            #[cfg(feature = "simulated")]
            Stream::Simulated(_) => count == room,
            Stream::Tls(tls) => count == room || tls.may_have_more(),
        }
    }

    /// Reads the bytes that are there, as a socket does.
    pub(super) fn read(&mut self, buffer: &mut [u8]) -> io::Result<usize> {
        match self {
            Stream::Plain(socket) => socket.read(buffer),
            #[cfg(feature = "simulated")]
            Stream::Simulated(stream) => stream.read(buffer),
            Stream::Tls(tls) => tls.read(buffer),
        }
    }

    /// Takes bytes to send, as a socket does.
    pub(super) fn write(&mut self, bytes: &[u8]) -> io::Result<usize> {
        match self {
            Stream::Plain(socket) => socket.write(bytes),
            #[cfg(feature = "simulated")]
            Stream::Simulated(stream) => stream.write(bytes),
            Stream::Tls(tls) => tls.write(bytes),
        }
    }

    /// Gives waiting bytes to the socket, as many as it takes.
    pub(super) fn flush(&mut self) -> io::Result<()> {
        match self {
            Stream::Plain(_) => Ok(()),
            #[cfg(feature = "simulated")]
            Stream::Simulated(_) => Ok(()),
            Stream::Tls(tls) => tls.flush(),
        }
    }
}
