use durkenzo_control::tls::TlsConnection;
use mio::net::TcpStream;
use std::cell::RefCell;
use std::io::{self, ErrorKind, Read, Write};

/// How many bytes are read from the socket at once.
const ROOM: usize = 32 << 10;
/// How often one read may read the socket. The bound keeps a client that sends parts of records from delaying others.
const MOST_READS: usize = 8;
/// The most bytes of records that may wait for the socket.
const MOST_SEALED: usize = 64 << 10;

thread_local! {
    /// The buffer into which a thread reads its sockets.
    static CAME: RefCell<Box<[u8]>> = RefCell::new(vec![0; ROOM].into());
}

/// A client's bytes through TLS, over a nonblocking socket.
#[derive(Debug)]
pub(super) struct TlsStream {
    socket: TcpStream,
    connection: TlsConnection,
    /// Whether the last read of the socket left nothing there.
    is_drained: bool,
}

impl TlsStream {
    /// Makes a connection before its handshake.
    pub(super) fn new(socket: TcpStream, connection: TlsConnection) -> TlsStream {
        TlsStream {
            socket,
            connection,
            is_drained: false,
        }
    }

    pub(super) fn socket(&mut self) -> &mut TcpStream {
        &mut self.socket
    }

    /// Continues the handshake with the bytes that are there, and returns whether it is over. The bytes of a handshake
    /// are bounded, so this ends however quickly they come.
    pub(super) fn shake(&mut self) -> io::Result<bool> {
        loop {
            let shaken = self.connection.shake();
            // If the handshake fails, this tells the client why.
            let sent = self.flush();
            let is_over = shaken?;
            sent?;
            if is_over {
                return Ok(true);
            }
            match self.take() {
                Ok(0) => return Err(ErrorKind::UnexpectedEof.into()),
                Ok(_) => {}
                Err(error) if error.kind() == ErrorKind::WouldBlock => return Ok(false),
                Err(error) => return Err(error),
            }
        }
    }

    pub(super) fn has_unsent(&self) -> bool {
        !self.connection.unsent().is_empty()
    }

    pub(super) fn may_have_more(&self) -> bool {
        !self.is_drained || self.connection.has_input()
    }

    /// Reads the bytes that are there. 0 is the end, whether the client announced it or not: a command says how long it
    /// is, so none can be cut short unnoticed.
    pub(super) fn read(&mut self, buffer: &mut [u8]) -> io::Result<usize> {
        for _ in 0..MOST_READS {
            match self.open(buffer) {
                Ok(count) => return Ok(count),
                Err(error) if error.kind() == ErrorKind::UnexpectedEof => return Ok(0),
                Err(error) if error.kind() != ErrorKind::WouldBlock => {
                    // This tells the client why, if its socket has room.
                    let _ = self.flush();
                    return Err(error);
                }
                Err(_) => drop(self.take()?),
            }
        }
        // The next turn continues.
        Err(ErrorKind::Interrupted.into())
    }

    /// Opens the records that came, up to the first one that had records without data before it.
    fn open(&mut self, buffer: &mut [u8]) -> io::Result<usize> {
        let mut count = self.connection.open(buffer)?;
        let mut is_last = count == 0;
        while count < buffer.len() && !is_last && !self.connection.was_in_vain() {
            // If this fails or is the end, so does the next read.
            let more = self.connection.open(&mut buffer[count..]).unwrap_or(0);
            is_last = more == 0;
            count += more;
        }
        Ok(count)
    }

    /// Reads bytes from the socket, and returns how many. 0 is the socket's end.
    fn take(&mut self) -> io::Result<usize> {
        CAME.with_borrow_mut(|room| {
            let count = loop {
                match self.socket.read(room) {
                    Err(error) if error.kind() == ErrorKind::Interrupted => {}
                    taken => break taken?,
                }
            };
            self.is_drained = count < room.len();
            match count {
                0 => self.connection.note_end(),
                _ => self.connection.feed(&room[..count]),
            }
            Ok(count)
        })
    }

    /// Takes bytes to send, if none wait.
    pub(super) fn write(&mut self, bytes: &[u8]) -> io::Result<usize> {
        self.flush()?;
        if self.has_unsent() {
            return Err(ErrorKind::WouldBlock.into());
        }
        let mut count = 0;
        while count < bytes.len() && self.connection.unsent().len() < MOST_SEALED {
            count += self.connection.seal(&bytes[count..])?;
        }
        self.flush().map(|()| count)
    }

    /// Gives the socket as many bytes as it takes.
    pub(super) fn flush(&mut self) -> io::Result<()> {
        while self.has_unsent() {
            match self.socket.write(self.connection.unsent()) {
                Ok(0) => return Err(ErrorKind::WriteZero.into()),
                Ok(count) => self.connection.note_sent(count),
                Err(error) if error.kind() == ErrorKind::WouldBlock => break,
                Err(error) if error.kind() == ErrorKind::Interrupted => {}
                Err(error) => return Err(error),
            }
        }
        Ok(())
    }
}

impl Drop for TlsStream {
    fn drop(&mut self) {
        // Tells the client about the end, if the socket takes that.
        self.connection.close();
        let _ = self.flush();
    }
}
