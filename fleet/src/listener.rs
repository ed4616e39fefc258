//! The listener of this process. Each connection to its socket has a thread of its own.
use crate::conversation::{Conversation, Talk};
use crate::fleet_inner::FleetInner;
use crate::frame;
use crate::guests::{EndOfRequests, GuestConnection, Guests};
use crate::stream::{is_open, Stream};
use crate::threads::{block_on, spawn, Threads};
use crate::{JoinError, Service};
use durkenzo_control::links::{Closer, PendingHandshake, PendingHandshakes};
use std::io::{self, BufReader, Write};
use std::net::{Shutdown, SocketAddr, TcpListener, TcpStream};
use std::sync::{Arc, Mutex, PoisonError};
use std::time::{Duration, Instant};

/// The longest time that a connection may take to show that it belongs to the fleet.
const GREETING: Duration = Duration::from_secs(5);
/// The most connections that haven't shown yet that they belong to the fleet: `STRANGERS`, or one for each `CLIENTS`
/// clients if that is more.
const STRANGERS: usize = 64;
const CLIENTS: usize = 4;
/// The longest time that a process that leaves waits until each connection was told so.
const FAREWELL: Duration = Duration::from_millis(500);
/// How often it looks whether all connections were told.
const LOOK: Duration = Duration::from_millis(2);
/// The shortest time between two log lines about connections that aren't served.
const TELL: Duration = Duration::from_secs(10);

/// The socket at which this process listens, and its connections.
pub(crate) struct Listener {
    /// The socket. There is none after `begin`, because the listener's thread has it then, and closes it.
    socket: Mutex<Option<TcpListener>>,
    shared: Arc<Shared>,
}

struct Shared {
    began: Instant,
    /// The connections that haven't shown yet that they belong to the fleet.
    strangers: Arc<PendingHandshakes>,
    guests: Arc<Guests>,
}

/// The state that the threads of connections share.
struct Serving<S: Service> {
    fleet: Arc<FleetInner<S>>,
    threads: Arc<Threads>,
    shared: Arc<Shared>,
}

/// The socket of a connection.
struct Socket(Arc<TcpStream>);

/// The socket of a connection, and the stream that reads and writes it.
struct SocketTalk {
    socket: Arc<TcpStream>,
    stream: BufReader<Stream>,
}

impl Closer for Socket {
    fn end(&self) {
        // If the connection has ended already, there is nothing to do.
        let _ = self.0.shutdown(Shutdown::Both);
    }
}

impl EndOfRequests for Socket {
    fn end_reading(&self) {
        // If the connection has ended already, there is nothing to do.
        let _ = self.0.shutdown(Shutdown::Read);
    }
}

impl Talk for SocketTalk {
    async fn read_frame(&mut self, room: &mut Vec<u8>) -> io::Result<()> {
        frame::receive(&mut self.stream, room)
    }

    async fn write(&mut self, bytes: &[u8]) -> io::Result<()> {
        self.stream.get_mut().write_all(bytes)
    }

    fn is_open(&self) -> bool {
        is_open(&self.socket)
    }
}

impl Listener {
    /// Binds a socket at this address, for this many clients at once.
    pub(crate) fn bind(
        address: SocketAddr,
        clients: usize,
    ) -> Result<(Listener, SocketAddr), JoinError> {
        let bound = TcpListener::bind(address).and_then(|it| Ok((it.local_addr()?, it)));
        let (at, socket) = bound.map_err(|error| JoinError::Address(address.to_string(), error))?;
        let strangers = PendingHandshakes::new(STRANGERS.max(clients / CLIENTS));
        let shared = Arc::new(Shared {
            began: Instant::now(),
            strangers: Arc::new(strangers),
            guests: Arc::default(),
        });
        let socket = Mutex::new(Some(socket));
        Ok((Listener { socket, shared }, at))
    }

    /// Begins to answer.
    pub(crate) fn begin<S: Service>(
        &self,
        fleet: &Arc<FleetInner<S>>,
        threads: &Arc<Threads>,
    ) -> Result<(), JoinError> {
        let socket = self
            .socket
            .lock()
            .unwrap_or_else(PoisonError::into_inner)
            .take();
        let Some(socket) = socket else {
            return Ok(());
        };
        let serving = Serving {
            fleet: fleet.clone(),
            threads: threads.clone(),
            shared: self.shared.clone(),
        };
        spawn("listener".to_owned(), move || {
            serving.accept(&socket);
        })
    }

    /// Stops taking connections and requests. Calls that are under way are still answered. A guest that asks in the
    /// meantime is told that nothing was done, and this waits a little until all guests were told. The address is that
    /// of this listener.
    pub(crate) fn end(&self, address: SocketAddr) {
        self.shared.guests.end();
        // The listener's thread waits for the next connection, so this one wakes it.
        drop(TcpStream::connect_timeout(&address, GREETING));
        let end = Instant::now() + FAREWELL;
        while !self.shared.guests.is_empty() && Instant::now() < end {
            std::thread::sleep(LOOK);
        }
    }
}

impl<S: Service> Clone for Serving<S> {
    fn clone(&self) -> Serving<S> {
        Serving {
            fleet: self.fleet.clone(),
            threads: self.threads.clone(),
            shared: self.shared.clone(),
        }
    }
}

impl<S: Service> Serving<S> {
    fn accept(&self, socket: &TcpListener) {
        let (mut too_many, mut no_thread) = (Occasion::default(), Occasion::default());
        for stream in socket.incoming() {
            if self.shared.guests.is_over() {
                return;
            }
            // The process may be short of file descriptors for a while.
            let Ok(stream) = stream else {
                std::thread::sleep(Duration::from_millis(10));
                continue;
            };
            let stream = Arc::new(stream);
            let socket = Arc::new(Socket(stream.clone()));
            let Some(stranger) = self.shared.strangers.take(socket) else {
                if too_many.is_due() {
                    tracing::warn!("as many who aren't known yet are waited for as may be");
                }
                continue;
            };
            let serving = self.clone();
            let serve = move || {
                // It fails if the other side doesn't belong to the fleet, ends the connection, or sends bytes that
                // can't be read.
                if let Err(error) = serving.serve(stream, stranger) {
                    tracing::debug!(%error, "a connection ends");
                }
            };
            if let Err(error) = spawn("connection".to_owned(), serve) {
                if no_thread.is_due() {
                    tracing::warn!(%error, "a connection isn't served");
                }
            }
        }
    }

    /// Makes the other side show that it belongs to the fleet, and answers it until the connection ends.
    fn serve(&self, socket: Arc<TcpStream>, stranger: PendingHandshake) -> io::Result<()> {
        let end = Box::new(Socket(socket.clone()));
        let (connection, shared) = (Arc::new(GuestConnection::new(end)), &self.shared);
        let most = self.fleet.options.connections;
        let place = || {
            let now = shared.began.elapsed().as_millis() as u64;
            shared.guests.admit(&connection, most, now)
        };
        let introduction = self.threads.introduction();
        let met = Stream::accept(socket.clone(), introduction, GREETING, place)?;
        let (stream, guest, place) = met;
        drop(stranger);
        let conversation = Conversation {
            place,
            guest,
            talk: SocketTalk {
                socket,
                stream: BufReader::new(stream),
            },
            began: shared.began,
        };
        block_on(conversation.answer_all(&self.fleet))
    }
}

/// An event that the log tells only once in a while, however often it happens.
#[derive(Default)]
struct Occasion {
    told: Option<Instant>,
}

impl Occasion {
    /// Returns whether the log must tell it now.
    fn is_due(&mut self) -> bool {
        let is_due = self.told.is_none_or(|it| it.elapsed() >= TELL);
        if is_due {
            self.told = Some(Instant::now());
        }
        is_due
    }
}

#[cfg(test)]
mod tests {
    use super::*;

    #[test]
    fn the_log_tells_of_a_crowd_once_in_a_while() {
        let mut occasion = Occasion::default();
        assert!(occasion.is_due() && !occasion.is_due());
        occasion.told = Instant::now().checked_sub(TELL);
        assert!(occasion.told.is_none() || occasion.is_due());
    }
}
