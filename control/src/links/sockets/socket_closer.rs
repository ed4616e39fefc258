use super::super::Closer;
use std::io;
use std::net::{Shutdown, TcpStream};

/// Ends the connection of a socket.
pub(super) struct SocketCloser(TcpStream);

impl SocketCloser {
    /// Returns the closer of this connection.
    pub(super) fn of(stream: &TcpStream) -> io::Result<SocketCloser> {
        stream.try_clone().map(SocketCloser)
    }

    /// Returns its socket.
    pub(super) fn socket(&self) -> &TcpStream {
        &self.0
    }
}

impl Closer for SocketCloser {
    fn end(&self) {
        // If it has ended already, there is nothing to do.
        let _ = self.0.shutdown(Shutdown::Both);
    }
}
