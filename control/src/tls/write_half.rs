use super::shared_connection::SharedConnection;
use std::io::{self, ErrorKind, Write};
use std::net::{Shutdown, TcpStream};
use std::sync::Arc;
use std::time::Duration;

/// How long the announcement of the end may take.
const LAST: Duration = Duration::from_millis(10);

/// Sends bytes to a peer. It may have its own thread. Bytes are sent by the time that `write` returns, so a caller that
/// sends much should put a buffer before it. If `write` fails, the peer reads none of its bytes. When it is dropped, it
/// announces the end to the peer.
#[derive(Debug)]
pub struct WriteHalf {
    socket: TcpStream,
    tls: Option<Arc<SharedConnection>>,
    /// Bytes of TLS on their way.
    sealed: Vec<u8>,
    /// Whether some of them may be missing. Then the peer can't read anything that follows.
    is_broken: bool,
}

impl WriteHalf {
    /// Makes the writer of a connection without TLS.
    pub fn plain(socket: TcpStream) -> WriteHalf {
        WriteHalf::of(socket, None)
    }

    pub(super) fn new(socket: TcpStream, shared: Arc<SharedConnection>) -> WriteHalf {
        WriteHalf::of(socket, Some(shared))
    }

    fn of(socket: TcpStream, tls: Option<Arc<SharedConnection>>) -> WriteHalf {
        let sealed = Vec::new();
        WriteHalf {
            socket,
            tls,
            sealed,
            is_broken: false,
        }
    }

    /// Makes a write end with `WouldBlock` or `TimedOut` after so long in which the peer took nothing. Without a time,
    /// it never does. After that the connection is useless.
    ///
    /// # Errors
    ///
    /// If the system refuses that, for instance a time of zero.
    pub fn set_timeout(&self, most: Option<Duration>) -> io::Result<()> {
        self.socket.set_write_timeout(most)
    }

    /// Ends the connection in both directions, so that the other half notices, too.
    pub fn end(&self) {
        // If the peer was faster, it is done already.
        let _ = self.socket.shutdown(Shutdown::Both);
    }

    /// Seals the first of these bytes, in at most one record, behind the bytes that the connection itself must send.
    /// Returns how many. The record is the last thing: if the socket doesn't take all of it, the peer can't open it.
    fn seal(&mut self, shared: &SharedConnection, bytes: &[u8]) -> io::Result<usize> {
        self.sealed.clear();
        let mut connection = shared.lock();
        let count = connection.seal(bytes)?;
        self.sealed.extend_from_slice(connection.unsent());
        connection.note_sent(self.sealed.len());
        Ok(count)
    }

    /// Sends the sealed bytes. If some bytes are missing, nothing is sent behind them.
    fn send(&mut self) -> io::Result<()> {
        if self.is_broken {
            return Err(ErrorKind::BrokenPipe.into());
        }
        let sent = self.socket.write_all(&self.sealed);
        self.is_broken = sent.is_err();
        sent
    }
}

impl Write for WriteHalf {
    /// Sends these bytes, or the first of them. Returns how many.
    ///
    /// # Errors
    ///
    /// The socket's errors. Then the peer reads none of these bytes, and the connection is useless.
    fn write(&mut self, bytes: &[u8]) -> io::Result<usize> {
        let Some(shared) = self.tls.clone() else {
            return self.socket.write(bytes);
        };
        let count = self.seal(&shared, bytes)?;
        if count == 0 && !bytes.is_empty() {
            return Err(ErrorKind::WriteZero.into());
        }
        self.send().map(|()| count)
    }

    fn flush(&mut self) -> io::Result<()> {
        Ok(())
    }
}

impl Drop for WriteHalf {
    fn drop(&mut self) {
        if let Some(shared) = self.tls.take() {
            shared.lock().close();
            // It doesn't wait for a peer that takes no bytes: the socket's end tells that peer.
            if self.socket.set_write_timeout(Some(LAST)).is_ok() {
                let _ = self.seal(&shared, &[]).and_then(|_| self.send());
            }
        }
        let _ = self.socket.shutdown(Shutdown::Write);
    }
}
