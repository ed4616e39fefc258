use super::arrived::Arrived;
use super::inlet::{Inlet, WAKE};
use super::strangers::Whereabouts;
use super::stream::Stream;
use super::tls_stream::TlsStream;
use crate::cluster::Cluster;
use mio::net::TcpStream;
use mio::{Events, Interest, Poll, Token, Waker};
use slab::Slab;
use std::io::{self, ErrorKind};
use std::sync::Arc;
use std::time::{Duration, Instant};

/// How many events are taken at once.
const EVENTS: usize = 64;
/// How often it looks for handshakes that take too long.
const SWEEP: Duration = Duration::from_millis(500);
/// How long it waits for events at a stop.
const TICK: Duration = Duration::from_millis(5);

/// Does the TLS handshakes of clients for a thread that owns connections, so that no handshake delays the clients of
/// that thread. A handshake that waits for its client costs only memory, and its bytes are bounded. A client in a
/// handshake is a stranger, and strangers are bounded: the one that came first gives way, wherever it is.
#[derive(Debug)]
pub struct Handshaker {
    cluster: Arc<Cluster>,
    inlet: Arc<Inlet>,
    poll: Poll,
    /// The handshakes under way.
    begun: Slab<Arrived<TlsStream>>,
    swept: Instant,
}

impl Handshaker {
    /// Makes the handshaker of the thread with this inlet, which gets its connections through it from now on.
    pub fn new(cluster: Arc<Cluster>, inlet: Arc<Inlet>) -> io::Result<Handshaker> {
        let poll = Poll::new()?;
        inlet.set_door(Waker::new(poll.registry(), WAKE)?);
        Ok(Handshaker {
            cluster,
            inlet,
            poll,
            begun: Slab::new(),
            swept: Instant::now(),
        })
    }

    /// Does handshakes until the cluster stops. Then it finishes those whose bytes have come, within the grace period.
    pub fn run(mut self) -> io::Result<()> {
        let mut events = Events::with_capacity(EVENTS);
        let mut end = None;
        loop {
            match self.poll.poll(&mut events, self.patience()) {
                Err(error) if error.kind() != ErrorKind::Interrupted => return Err(error),
                _ => {}
            }
            // This must be read first. Then everything that the acceptor brought before it ended is among the
            // newcomers.
            let is_accepting = self.cluster.is_accepting();
            let is_quiet = !is_accepting && self.inlet.newcomers() == 0 && events.is_empty();
            if end.is_some_and(|it| is_quiet || Instant::now() >= it) {
                return Ok(());
            }
            self.take_newcomers();
            for event in events.iter().filter(|it| it.token() != WAKE) {
                self.go_on(event.token().0);
            }
            self.close_late();
            if end.is_none() && self.cluster.is_stopping() {
                end = Some(Instant::now() + self.cluster.configuration.grace);
            }
        }
    }

    /// Returns the longest time to wait for events.
    fn patience(&self) -> Option<Duration> {
        match self.cluster.is_stopping() {
            true => Some(TICK),
            false => (!self.begun.is_empty()).then_some(SWEEP),
        }
    }

    /// Begins the handshakes of the connections that wait now. Those that come meanwhile wait, so that other handshakes
    /// go on in between.
    fn take_newcomers(&mut self) {
        for _ in 0..self.inlet.newcomers() {
            let Some(newcomer) = self.inlet.take_newcomer() else {
                return;
            };
            self.make_room();
            self.begin(newcomer);
        }
    }

    /// Makes the strangers that came first give way to one more, so that nobody can keep others out with many
    /// connections that say nothing.
    fn make_room(&mut self) {
        while let Some((id, at)) = self.inlet.give_way() {
            match at {
                Whereabouts::Handshake(place) => self.close(place),
                // It is refused when the other thread takes it.
                Whereabouts::Between => {}
                Whereabouts::Connection(place) => self.inlet.have_closed(place, id),
            }
        }
    }

    fn begin(&mut self, newcomer: Arrived<TcpStream>) {
        let id = newcomer.id;
        match self.opened(newcomer) {
            Ok(place) => self.go_on(place),
            Err(error) => {
                self.inlet.note_lost(id);
                tracing::warn!(%error, "a connection isn't served");
            }
        }
    }

    /// Gives the connection a place, which identifies its events.
    fn opened(&mut self, newcomer: Arrived<TcpStream>) -> io::Result<usize> {
        let Some(tls) = &self.cluster.configuration.safety.tls else {
            return Err(io::Error::other("clients aren't met by TLS"));
        };
        let connection = tls.connection().map_err(io::Error::other)?;
        let mut handshake = newcomer.by(|it| TlsStream::new(it, connection));
        let entry = self.begun.vacant_entry();
        let (place, interest) = (entry.key(), Interest::READABLE | Interest::WRITABLE);
        let (registry, socket) = (self.poll.registry(), handshake.stream.socket());
        registry.register(socket, Token(place), interest)?;
        self.inlet
            .note_met(handshake.id, Whereabouts::Handshake(place));
        entry.insert(handshake);
        Ok(place)
    }

    /// Continues the handshake at this place, and hands the connection on once it is over.
    fn go_on(&mut self, place: usize) {
        let Some(handshake) = self.begun.get_mut(place) else {
            return;
        };
        let shaken = handshake.stream.shake();
        if matches!(shaken, Ok(false)) {
            return;
        }
        let mut handshake = self.begun.remove(place);
        let left = self.poll.registry().deregister(handshake.stream.socket());
        match shaken.and(left) {
            Ok(()) => {
                let by_tls = handshake.by(|it| Stream::Tls(Box::new(it)));
                self.inlet.hand_on(by_tls);
            }
            Err(error) => {
                self.inlet.note_lost(handshake.id);
                tracing::debug!(%error, "a client isn't met by TLS");
            }
        }
    }

    /// From time to time closes the connections whose handshakes take too long.
    fn close_late(&mut self) {
        if self.begun.is_empty() || self.swept.elapsed() < SWEEP {
            return;
        }
        self.swept = Instant::now();
        let most = self.cluster.configuration.safety.login_time;
        let late = self.begun.iter().filter(|it| it.1.since.elapsed() >= most);
        for place in late.map(|it| it.0).collect::<Vec<_>>() {
            self.close(place);
        }
    }

    fn close(&mut self, place: usize) {
        // Dropping it closes and deregisters it.
        let handshake = self.begun.remove(place);
        self.inlet.note_lost(handshake.id);
    }
}

impl Drop for Handshaker {
    fn drop(&mut self) {
        self.begun
            .iter()
            .for_each(|it| self.inlet.note_lost(it.1.id));
        self.inlet.close_door();
    }
}
