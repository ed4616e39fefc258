use super::super::handshake::{Greeter, Heard, Welcomer};
use super::super::{Identity, Terms};
use std::fmt;
use std::io::{self, ErrorKind, Read, Write};
use std::net::TcpStream;
use std::time::Instant;

/// How many bytes of a greeting are read at once.
const ROOM: usize = 512;

/// The handshake of both sides of a connection: the caller greets, and the other side welcomes it.
pub struct SocketHandshake<'a> {
    reader: &'a mut dyn Read,
    writer: &'a mut dyn Write,
    socket: &'a TcpStream,
    deadline: Instant,
}

impl<'a> SocketHandshake<'a> {
    /// Makes the handshake at this socket, with this reader and this writer, until this time.
    pub fn new(
        (reader, writer): (&'a mut dyn Read, &'a mut dyn Write),
        socket: &'a TcpStream,
        deadline: Instant,
    ) -> SocketHandshake<'a> {
        SocketHandshake {
            reader,
            writer,
            socket,
            deadline,
        }
    }

    /// Greets the process that was reached, in this version. It must run this server. Returns its identity, and leaves
    /// the socket without a timeout for reads.
    ///
    /// # Errors
    ///
    /// If the process refuses, isn't the wanted one, or doesn't answer in time; and the socket's errors.
    pub fn greet(&mut self, terms: &Terms, server: u16, version: u8) -> io::Result<Identity> {
        let (mut greeter, hello) = Greeter::new(terms, server, version);
        self.say(&hello)?;
        let mut room = [0; ROOM];
        loop {
            let count = self.hear(&mut room)?;
            if let Some(identity) = greeter.receive(&room[..count])? {
                self.socket.set_read_timeout(None)?;
                return Ok(identity);
            }
        }
    }

    /// Welcomes the process that has connected, if there is a place for it, or tells it why not. Returns its identity
    /// and its place, and leaves the socket without a timeout for reads.
    ///
    /// # Errors
    ///
    /// If it isn't welcome, which it is told; if it doesn't greet in time; and the socket's errors.
    pub fn welcome<T>(
        &mut self,
        terms: &Terms,
        place: impl Fn() -> Option<T>,
    ) -> io::Result<(Identity, T)> {
        let (mut welcomer, mut room) = (Welcomer::default(), [0; ROOM]);
        loop {
            let count = self.hear(&mut room)?;
            match welcomer.receive(&room[..count], terms, &place) {
                Heard::Nobody => {}
                Heard::Welcome(identity, place, welcome) => {
                    self.say(&welcome)?;
                    self.socket.set_read_timeout(None)?;
                    return Ok((identity, place));
                }
                Heard::Rejected(told, error) => {
                    told.map_or(Ok(()), |it| self.say(&it))?;
                    return Err(error);
                }
            }
        }
    }

    fn say(&mut self, greeting: &[u8]) -> io::Result<()> {
        self.writer.write_all(greeting)?;
        self.writer.flush()
    }

    /// Waits for bytes of a greeting, until the deadline. Returns how many came.
    fn hear(&mut self, room: &mut [u8]) -> io::Result<usize> {
        loop {
            self.hurry()?;
            match self.reader.read(room) {
                // This process was stopped, and goes on.
                Err(error) if error.kind() == ErrorKind::Interrupted => {}
                Ok(0) => return Err(ErrorKind::UnexpectedEof.into()),
                found => return found,
            }
        }
    }

    /// Makes the next read end by the deadline.
    fn hurry(&self) -> io::Result<()> {
        let left = self.deadline.saturating_duration_since(Instant::now());
        match left.is_zero() {
            true => Err(ErrorKind::TimedOut.into()),
            false => self.socket.set_read_timeout(Some(left)),
        }
    }
}

impl fmt::Debug for SocketHandshake<'_> {
    fn fmt(&self, f: &mut fmt::Formatter<'_>) -> fmt::Result {
        f.debug_struct("SocketHandshake")
            .field("socket", &self.socket)
            .finish_non_exhaustive()
    }
}
