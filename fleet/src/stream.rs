//! Blocking connections between servers and clients of a fleet. Only this module and `async_stream` make connections
//! that can send requests, and only this one accepts them.
use crate::frame::WRITTEN;
use crate::introduction::{Guest, Introduction};
use crate::meet_error::{MeetError, SPEAKS_TLS};
use durkenzo_control::links::{Greeting, SocketHandshake, NO_SERVER, VERSION};
use durkenzo_control::tls::{Caller, ReadHalf, WriteHalf};
use rustix::io::{poll, PollFd, PollFlags};
use std::io::{self, ErrorKind, Read, Write};
use std::net::{TcpStream, ToSocketAddrs};
use std::sync::Arc;
use std::time::{Duration, Instant};

/// The longest time for reaching one address of a server.
const REACH: Duration = Duration::from_millis(500);
/// The first byte of each connection with TLS: the type of a record with a handshake.
const HANDSHAKE: u8 = 0x16;

/// A connection whose sides know each other.
pub(crate) struct Stream {
    socket: Arc<TcpStream>,
    tls: Option<(ReadHalf, WriteHalf)>,
}

impl Stream {
    /// Connects to the server at this address, in at most this time in all.
    pub(crate) fn connect(
        address: &str,
        introduction: &Introduction,
        within: Duration,
    ) -> Result<Stream, MeetError> {
        let end = Instant::now() + within;
        let socket = reach(address, end)?;
        socket.set_nodelay(true)?;
        let tls = match &introduction.tls {
            Some(tls) => Some(
                tls.connect(socket.try_clone()?, left(end))
                    .map_err(MeetError::of_tls)?,
            ),
            None => None,
        };
        let (is_by_tls, socket) = (tls.is_some(), Arc::new(socket));
        let mut stream = Stream { socket, tls };
        stream.set_write_timeout(left(end).min(WRITTEN))?;
        let greeted = stream.meet(end, |it| it.greet(&introduction.terms, NO_SERVER, VERSION));
        greeted.map_err(|error| MeetError::of_greeting(error, is_by_tls))?;
        Ok(stream)
    }

    /// Accepts a connection, if its other side introduces itself in this time and there is a place for it. Returns the
    /// guest too.
    pub(crate) fn accept<T>(
        socket: Arc<TcpStream>,
        introduction: &Introduction,
        within: Duration,
        place: impl Fn() -> Option<T>,
    ) -> io::Result<(Stream, Guest, T)> {
        let end = Instant::now() + within;
        socket.set_nodelay(true)?;
        let (caller, tls) = match &introduction.tls {
            Some(tls) => {
                refuse_plain(&socket, within)?;
                let (caller, halves) = tls.accept(socket.try_clone()?, left(end))?;
                (Some(caller), Some(halves))
            }
            None => (None::<Caller>, None),
        };
        let mut stream = Stream { socket, tls };
        stream.set_write_timeout(WRITTEN)?;
        let (identity, place) = stream.meet(end, |it| it.welcome(&introduction.terms, place))?;
        Ok((stream, Guest::of(identity, caller), place))
    }

    fn meet<T>(
        &mut self,
        end: Instant,
        meet: impl FnOnce(&mut SocketHandshake<'_>) -> io::Result<T>,
    ) -> io::Result<T> {
        let socket = &*self.socket;
        match &mut self.tls {
            Some((reader, writer)) => {
                meet(&mut SocketHandshake::new((reader, writer), socket, end))
            }
            None => meet(&mut SocketHandshake::new(
                (&mut &*socket, &mut &*socket),
                socket,
                end,
            )),
        }
    }

    /// Makes each read end after this time.
    pub(crate) fn set_read_timeout(&self, within: Duration) -> io::Result<()> {
        self.socket.set_read_timeout(Some(within))
    }

    /// Reads as [`Read::read`] does, but takes nothing from the socket after this time.
    pub(crate) fn read_before(&mut self, end: Instant, room: &mut [u8]) -> io::Result<usize> {
        match &mut self.tls {
            Some((reader, _)) => reader.read_before(end, room),
            None => (&*self.socket).read(room),
        }
    }

    /// Makes each write end after this time.
    pub(crate) fn set_write_timeout(&self, within: Duration) -> io::Result<()> {
        self.socket.set_write_timeout(Some(within))
    }

    /// Returns whether no unread bytes have come, and the connection hasn't ended.
    pub(crate) fn is_quiet(&self) -> bool {
        is_quiet(&self.socket)
    }
}

impl Read for Stream {
    fn read(&mut self, room: &mut [u8]) -> io::Result<usize> {
        match &mut self.tls {
            Some((reader, _)) => reader.read(room),
            None => (&*self.socket).read(room),
        }
    }
}

impl Write for Stream {
    fn write(&mut self, bytes: &[u8]) -> io::Result<usize> {
        match &mut self.tls {
            Some((_, writer)) => writer.write(bytes),
            None => (&*self.socket).write(bytes),
        }
    }

    fn flush(&mut self) -> io::Result<()> {
        Ok(())
    }
}

/// Returns the time that is left, which is never zero, because a socket refuses a timeout of zero.
pub(crate) fn left(end: Instant) -> Duration {
    let left = end.saturating_duration_since(Instant::now());
    left.max(Duration::from_millis(1))
}

/// Returns whether the other side hasn't closed the connection. With TLS, the other side says so first in bytes that
/// nobody has read yet. So this doesn't look for unread bytes.
pub(crate) fn is_open(socket: &TcpStream) -> bool {
    polled(socket, PollFlags::RDHUP).is_empty()
}

/// Returns whether no unread bytes have come, and the connection hasn't ended.
pub(crate) fn is_quiet(socket: &TcpStream) -> bool {
    polled(socket, PollFlags::IN | PollFlags::RDHUP).is_empty()
}

fn polled(socket: &TcpStream, asked: PollFlags) -> PollFlags {
    let mut sockets = [PollFd::new(socket, asked)];
    match poll(&mut sockets, 0) {
        Ok(_) => sockets[0].revents(),
        Err(_) => PollFlags::ERR,
    }
}

fn reach(address: &str, end: Instant) -> io::Result<TcpStream> {
    let mut last = io::Error::from(ErrorKind::AddrNotAvailable);
    for place in address.to_socket_addrs()? {
        match TcpStream::connect_timeout(&place, left(end).min(REACH)) {
            Ok(socket) => return Ok(socket),
            Err(error) => last = error,
        }
    }
    Err(last)
}

/// Tells the other side that it must speak TLS, if it doesn't.
fn refuse_plain(socket: &TcpStream, within: Duration) -> io::Result<()> {
    socket.set_read_timeout(Some(within))?;
    let mut first = [HANDSHAKE];
    socket.peek(&mut first)?;
    if first == [HANDSHAKE] {
        return Ok(());
    }
    let mut told = Vec::new();
    Greeting::Refusal(SPEAKS_TLS.to_owned()).write(VERSION, &mut told);
    socket.set_write_timeout(Some(within))?;
    let mut socket = socket;
    socket.write_all(&told)?;
    // This reads the bytes that the other side has sent. Unread bytes could end the connection before the other side
    // gets the message.
    let _ = socket.read(&mut [0; 1 << 10]);
    Err(io::Error::new(
        ErrorKind::InvalidData,
        "it doesn't speak TLS",
    ))
}
