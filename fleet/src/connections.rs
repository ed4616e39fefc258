use crate::environment::NotAnswered;
use crate::frame::{self, Request, WRITTEN};
use crate::idle_connections::{IdleConnections, Quiet};
use crate::introduction::Introduction;
use crate::stream::{left, Stream};
use crate::MeetError;
use std::collections::HashSet;
use std::io::{self, Read, Write};
use std::sync::{Mutex, MutexGuard, PoisonError};
use std::time::{Duration, Instant};

/// The longest time until both sides know each other.
pub(crate) const MEET: Duration = Duration::from_secs(5);
/// A connection that was used less than this time ago isn't checked, because the server could also close it just after
/// the check.
const MOMENT: Duration = Duration::from_micros(100);
/// The longest request that a connection takes at once, if nothing else is on its way there.
const SHORT: usize = 4 << 10;
/// A response may take longer than its time by this part of it, so that the timeout needn't be set for each response.
const LATER: u32 = 16;
/// The most addresses of refusing servers that are kept.
const REFUSING: usize = 4_096;

/// Connections to the servers of a fleet. Each call has a connection for itself.
pub(crate) struct Connections {
    introduction: Introduction,
    idle: Mutex<IdleConnections<Connection>>,
    /// The addresses of the servers that refuse this process. The log tells of each of them once.
    refusing: Mutex<HashSet<String>>,
}

/// A connection with only one request under way at a time.
struct Connection {
    stream: Stream,
    /// The longest time to wait for a response.
    within: Duration,
    /// When the last response came.
    used: Instant,
}

impl Connections {
    /// Returns connections that are made with this introduction.
    pub(crate) fn new(introduction: Introduction) -> Connections {
        Connections {
            introduction,
            idle: Mutex::default(),
            refusing: Mutex::default(),
        }
    }

    /// Returns the introduction of this side.
    pub(crate) fn introduction(&self) -> &Introduction {
        &self.introduction
    }

    /// Sends the request, and waits at most this long for the bytes of the response.
    pub(crate) fn ask(
        &self,
        address: &str,
        request: &Request<'_>,
        within: Duration,
    ) -> Result<Vec<u8>, NotAnswered> {
        self.ask_bytes(address, request.written(), Instant::now() + within)
    }

    /// Sends these bytes of a request as [`Connections::ask`] does, and waits until this time.
    pub(crate) fn ask_bytes(
        &self,
        address: &str,
        mut bytes: Vec<u8>,
        end: Instant,
    ) -> Result<Vec<u8>, NotAnswered> {
        let unreached = |error| NotAnswered::Unreached(address.to_owned(), error);
        let mut connection = match self.kept(address) {
            Some(connection) => connection,
            None => Connection::new(self.connect(address, left(end)).map_err(unreached)?),
        };
        // If a server gets only a part of a frame, it does nothing.
        let sent = connection.send(&bytes, end);
        sent.map_err(|error| unreached(error.into()))?;
        let received = connection.receive(&mut bytes, end);
        let is_alone = received.map_err(|error| NotAnswered::Lost(address.to_owned(), error))?;
        // If a server says more than its answer, it ends the connection.
        if is_alone {
            self.idle().keep(address, connection);
        }
        Ok(bytes)
    }

    fn idle(&self) -> MutexGuard<'_, IdleConnections<Connection>> {
        self.idle.lock().unwrap_or_else(PoisonError::into_inner)
    }

    /// Returns a connection that was used before, and that the server hasn't closed since.
    fn kept(&self, address: &str) -> Option<Connection> {
        loop {
            let connection = self.idle().take(address)?;
            if connection.used.elapsed() < MOMENT || connection.is_quiet() {
                return Some(connection);
            }
        }
    }

    /// Connects to the server at this address, and introduces this side.
    pub(crate) fn connect(&self, address: &str, within: Duration) -> Result<Stream, MeetError> {
        let met = Stream::connect(address, &self.introduction, within.min(MEET));
        let mut refusing = self.refusing.lock().unwrap_or_else(PoisonError::into_inner);
        match &met {
            Ok(_) => drop(refusing.remove(address)),
            Err(error) if error.is_refusal() && refusing.len() < REFUSING => {
                if refusing.insert(address.to_owned()) {
                    tracing::warn!(address, %error, "a server of the fleet isn't met");
                }
            }
            Err(_) => {}
        }
        met
    }
}

impl Connection {
    fn new(stream: Stream) -> Connection {
        Connection {
            stream,
            within: Duration::ZERO,
            used: Instant::now(),
        }
    }

    /// Sends a request, until this time. A short request needs no timeout of its own, because the connection takes it
    /// at once.
    fn send(&mut self, bytes: &[u8], end: Instant) -> io::Result<()> {
        if bytes.len() > SHORT {
            self.stream.set_write_timeout(left(end).min(WRITTEN))?;
        }
        self.stream.write_all(bytes)
    }

    /// Waits for all of a response, until this time or a little longer. Returns whether nothing came behind it.
    fn receive(&mut self, room: &mut Vec<u8>, end: Instant) -> io::Result<bool> {
        let is_alone = frame::receive_last(&mut Incoming(self, end), room)?;
        self.used = Instant::now();
        Ok(is_alone)
    }

    /// Makes each read end after this time, or a little later.
    fn wait_within(&mut self, within: Duration) -> io::Result<()> {
        if self.within < within || self.within > within + within / LATER {
            self.stream.set_read_timeout(within)?;
            self.within = within;
        }
        Ok(())
    }
}

impl Quiet for Connection {
    fn is_quiet(&self) -> bool {
        self.stream.is_quiet()
    }
}

/// Reads from a connection until this time.
struct Incoming<'a>(&'a mut Connection, Instant);

impl Read for Incoming<'_> {
    fn read(&mut self, room: &mut [u8]) -> io::Result<usize> {
        let Incoming(connection, end) = self;
        let left = end.saturating_duration_since(Instant::now());
        if left.is_zero() {
            return Err(io::ErrorKind::TimedOut.into());
        }
        connection.wait_within(left)?;
        connection.stream.read_before(*end, room)
    }
}

#[cfg(test)]
mod tests {
    use super::*;
    use crate::frame::Response;
    use crate::Safety;
    use std::net::TcpListener;
    use std::sync::Arc;
    use std::thread::{self, JoinHandle};

    /// The longest wait for an event that must come, on a machine that may be busy.
    const SOON: Duration = Duration::from_secs(60);

    fn introduction() -> Introduction {
        Introduction::of_client(&Safety::default(), 7)
    }

    /// Starts a server that takes this many connections in turn, and calls `serve` with each.
    fn serving(
        count: usize,
        serve: impl Fn(&mut Stream) + Send + 'static,
    ) -> (String, JoinHandle<()>) {
        let listener = TcpListener::bind("127.0.0.1:0").unwrap();
        let address = listener.local_addr().unwrap().to_string();
        let served = thread::spawn(move || {
            for _ in 0..count {
                let socket = Arc::new(listener.accept().unwrap().0);
                let met = Stream::accept(socket, &introduction(), SOON, || Some(()));
                serve(&mut met.unwrap().0);
            }
        });
        (address, served)
    }

    /// Waits for a request, and writes these bytes.
    fn answer(stream: &mut Stream, bytes: &[u8]) {
        frame::receive(stream, &mut Vec::new()).unwrap();
        stream.write_all(bytes).unwrap();
    }

    #[test]
    fn an_answer_that_a_farewell_follows_at_once_is_taken_and_its_connection_isnt_kept() {
        let mut out = Vec::new();
        Response::Text(b"short").write(&mut out);
        Response::Again("it leaves").write(&mut out);
        let (address, served) = serving(2, move |stream| answer(stream, &out));
        let connections = Connections::new(introduction());
        for _ in 0..2 {
            let answered = connections.ask(&address, &Request::Routes, SOON).unwrap();
            let text = Response::read(&answered);
            assert_eq!(text, Ok(Response::Text(b"short")));
        }
        served.join().unwrap();
    }

    #[test]
    fn a_time_is_for_all_of_an_answer_however_slowly_its_bytes_come() {
        let mut out = Vec::new();
        Response::Text(&[7; 1 << 20]).write(&mut out);
        let (address, served) = serving(1, move |stream| {
            let mut first = Vec::new();
            Response::Taken.write(&mut first);
            answer(stream, &first);
            answer(stream, &out[..4]);
            // Once the client has gone, nothing more is written.
            let _ = out[4..].chunks(1).try_for_each(|byte| {
                thread::sleep(Duration::from_millis(10));
                stream.write_all(byte)
            });
        });
        let connections = Connections::new(introduction());
        connections.ask(&address, &Request::Routes, SOON).unwrap();
        let began = Instant::now();
        let brief = Duration::from_millis(300);
        let late = connections.ask(&address, &Request::Routes, brief);
        assert!(matches!(late, Err(NotAnswered::Lost(..))), "{late:?}");
        assert!(began.elapsed() < SOON);
        served.join().unwrap();
    }
}
