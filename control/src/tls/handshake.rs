use super::TlsConnection;
use std::io::{self, ErrorKind, Read, Write};
use std::net::TcpStream;
use std::time::{Duration, Instant};

/// How many bytes are taken from the socket at once.
const ROOM: usize = 4 << 10;

/// A socket each of whose calls ends by a deadline, so that a peer that sends byte by byte delays nobody.
struct Hurried<'a> {
    socket: &'a TcpStream,
    deadline: Instant,
}

impl Hurried<'_> {
    fn left(&self) -> io::Result<Duration> {
        let left = self.deadline.saturating_duration_since(Instant::now());
        match left.is_zero() {
            true => Err(ErrorKind::TimedOut.into()),
            false => Ok(left),
        }
    }
}

impl Read for Hurried<'_> {
    fn read(&mut self, buffer: &mut [u8]) -> io::Result<usize> {
        loop {
            self.socket.set_read_timeout(Some(self.left()?))?;
            match self.socket.read(buffer) {
                // This process was stopped, and goes on.
                Err(error) if error.kind() == ErrorKind::Interrupted => {}
                found => return found,
            }
        }
    }
}

impl Write for Hurried<'_> {
    fn write(&mut self, bytes: &[u8]) -> io::Result<usize> {
        self.socket.set_write_timeout(Some(self.left()?))?;
        self.socket.write(bytes)
    }

    fn flush(&mut self) -> io::Result<()> {
        Ok(())
    }
}

/// Does the handshake within this time in all, and leaves the socket without a timeout. Each turn of the loop takes
/// bytes or is the last one, and the bytes of a handshake are bounded.
pub(super) fn shake(
    connection: &mut TlsConnection,
    socket: &TcpStream,
    within: Duration,
) -> io::Result<()> {
    let deadline = Instant::now() + within;
    let (mut hurried, mut room) = (Hurried { socket, deadline }, [0; ROOM]);
    loop {
        let shaken = connection.shake();
        let sent = hurried.write_all(connection.unsent());
        connection.note_sent(connection.unsent().len());
        let is_over = shaken?;
        sent?;
        if is_over {
            break;
        }
        match hurried.read(&mut room)? {
            0 => return Err(ErrorKind::UnexpectedEof.into()),
            count => connection.feed(&room[..count]),
        }
    }
    socket.set_read_timeout(None)?;
    socket.set_write_timeout(None)
}
