use std::fmt;
use std::io;

/// The stream of a client's bytes without a socket, which a simulation gives. It reads and writes as a nonblocking
/// socket does.
pub trait ClientStream: fmt::Debug + Send {
    /// Notes the place at which events of this stream are noted from now on.
    fn begin(&mut self, place: usize);

    /// Reads the bytes that are there. Returns 0 at the end, and `WouldBlock` if none have come.
    ///
    /// # Errors
    ///
    /// As a socket's.
    fn read(&mut self, buffer: &mut [u8]) -> io::Result<usize>;

    /// Takes bytes to send, and returns how many. Returns `WouldBlock` if there is no room.
    ///
    /// # Errors
    ///
    /// As a socket's.
    fn write(&mut self, bytes: &[u8]) -> io::Result<usize>;
}
