use super::shared_connection::SharedConnection;
use std::io::{self, ErrorKind, Read};
use std::net::{Shutdown, TcpStream};
use std::sync::Arc;
use std::time::{Duration, Instant};

/// How many bytes are taken from the socket at once.
const ROOM: usize = 16 << 10;

/// Reads a peer's bytes. It may have its own thread.
#[derive(Debug)]
pub struct ReadHalf {
    socket: TcpStream,
    tls: Option<Received>,
}

/// The bytes that came by TLS.
#[derive(Debug)]
struct Received {
    shared: Arc<SharedConnection>,
    buffer: Box<[u8]>,
}

impl ReadHalf {
    /// Makes the reader of a connection without TLS.
    pub fn plain(socket: TcpStream) -> ReadHalf {
        ReadHalf { socket, tls: None }
    }

    pub(super) fn new(socket: TcpStream, shared: Arc<SharedConnection>) -> ReadHalf {
        let tls = Some(Received {
            shared,
            buffer: vec![0; ROOM].into(),
        });
        ReadHalf { socket, tls }
    }

    /// Makes a read end with `WouldBlock` or `TimedOut` after so long in which nothing came. Without a time, it never
    /// does.
    ///
    /// # Errors
    ///
    /// If the system refuses that, for instance a time of zero.
    pub fn set_timeout(&self, most: Option<Duration>) -> io::Result<()> {
        self.socket.set_read_timeout(most)
    }

    /// Reads as [`Read::read`] does, but takes nothing from the socket after this time. With TLS, one read may take
    /// many pieces of a record from the socket, and the time of [`ReadHalf::set_timeout`] applies to each of them.
    ///
    /// # Errors
    ///
    /// Those of [`Read::read`], and `TimedOut` if the time is over.
    pub fn read_before(&mut self, end: Instant, bytes: &mut [u8]) -> io::Result<usize> {
        self.read_while(bytes, || Instant::now() < end)
    }

    fn read_while(&mut self, bytes: &mut [u8], goes_on: impl Fn() -> bool) -> io::Result<usize> {
        let Some(tls) = &mut self.tls else {
            return match goes_on() {
                true => self.socket.read(bytes),
                false => Err(ErrorKind::TimedOut.into()),
            };
        };
        loop {
            // If OpenSSL must answer something, the answer waits until the other half writes.
            match tls.shared.lock().open(bytes) {
                Err(error) if error.kind() == ErrorKind::WouldBlock => {}
                opened => return opened,
            }
            if !goes_on() {
                return Err(ErrorKind::TimedOut.into());
            }
            let count = self.socket.read(&mut tls.buffer)?;
            let mut connection = tls.shared.lock();
            match count {
                0 => connection.note_end(),
                _ => connection.feed(&tls.buffer[..count]),
            }
        }
    }

    /// Ends the connection in both directions, so that the other half notices, too.
    pub fn end(&self) {
        // If the peer was faster, it is done already.
        let _ = self.socket.shutdown(Shutdown::Both);
    }
}

impl Read for ReadHalf {
    /// Returns the next bytes. 0 is the end that the peer announced.
    ///
    /// # Errors
    ///
    /// `UnexpectedEof` if a TLS connection ends unannounced, `InvalidData` if bytes aren't the peer's; and the socket's
    /// errors.
    fn read(&mut self, bytes: &mut [u8]) -> io::Result<usize> {
        self.read_while(bytes, || true)
    }
}
