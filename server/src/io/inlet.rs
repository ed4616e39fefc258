use super::arrived::Arrived;
use super::door::Door;
use super::strangers::{Strangers, Whereabouts};
use super::stream::Stream;
use crate::stats::Stats;
use mio::net::TcpStream;
use mio::{Poll, Token, Waker};
use std::collections::VecDeque;
use std::fmt;
use std::io;
use std::net::SocketAddr;
use std::sync::atomic::{AtomicU64, AtomicUsize, Ordering};
use std::sync::{Arc, Mutex, MutexGuard, OnceLock, PoisonError};
use std::time::Instant;

/// The token of the event that wakes a thread.
pub(super) const WAKE: Token = Token(usize::MAX);

/// One in so many of a thread's strangers may be brought before it looks, and at most this many.
const WAITING: usize = 4;
const MOST_WAITING: usize = 256;

/// The most connections that are brought to a thread before it looks, if clients needn't log in.
const MOST_BROUGHT: usize = 32;

/// Wakes the thread.
type Wake = Box<dyn Fn() + Send + Sync>;

/// The number of the last connection.
static LAST_ID: AtomicU64 = AtomicU64::new(0);

/// The inlet through which other threads reach a thread.
pub struct Inlet {
    brought: Mutex<Brought>,
    wake: Wake,
    stats: Arc<Stats>,
    version: AtomicU64,
    turns: AtomicU64,
    /// How many connections the thread has whose clients haven't logged in, wherever they are.
    strangers: AtomicUsize,
    /// The strangers that were met.
    met: Mutex<Strangers>,
    /// The most strangers that the thread may have, if clients must log in.
    most_strangers: Option<usize>,
    /// The queue of connections that wait for their handshakes, if clients speak TLS.
    door: OnceLock<Door>,
}

/// The things that other threads brought since the thread looked last.
#[derive(Debug, Default)]
pub(super) struct Brought {
    pub(super) streams: VecDeque<Arrived<Stream>>,
    /// Strangers that must give way, by their places and the numbers of their connections.
    pub(super) leaving: Vec<(usize, u64)>,
    pub(super) answers: Vec<Delivery>,
}

impl Brought {
    fn is_empty(&self) -> bool {
        self.streams.is_empty() && self.leaving.is_empty() && self.answers.is_empty()
    }
}

/// An answer of the control or of shards, to a connection.
#[derive(Debug)]
pub(super) struct Delivery {
    pub(super) place: usize,
    pub(super) id: u64,
    pub(super) bytes: Vec<u8>,
    /// How many commands it answers that weren't counted yet.
    pub(super) commands: u64,
}

impl Inlet {
    /// Makes the inlet of the thread with this poll.
    ///
    /// # Errors
    ///
    /// If the system refuses that.
    pub fn new(poll: &Poll, servers: u16) -> io::Result<Inlet> {
        let waker = Waker::new(poll.registry(), WAKE)?;
        Ok(Inlet::by(Box::new(move || wake(&waker)), servers))
    }

    /// Makes the inlet of a thread that this function wakes.
    pub fn by(wake: Wake, servers: u16) -> Inlet {
        Inlet {
            brought: Mutex::default(),
            wake,
            stats: Arc::new(Stats::new(servers)),
            version: AtomicU64::new(0),
            turns: AtomicU64::new(0),
            strangers: AtomicUsize::new(0),
            met: Mutex::default(),
            most_strangers: None,
            door: OnceLock::new(),
        }
    }

    /// Returns the inlet, of a thread that has at most so many strangers if there is a bound.
    pub fn with_most_strangers(self, most_strangers: Option<usize>) -> Inlet {
        Inlet {
            most_strangers,
            ..self
        }
    }

    /// Returns how many strangers may be brought before they are met.
    fn most_waiting(&self) -> Option<usize> {
        let most = self.most_strangers?;
        Some((most / WAITING).clamp(1, MOST_WAITING))
    }

    /// Returns how many strangers it may have met, if there is a bound. If another thread meets them, as many as may
    /// wait may also have given way without being closed yet.
    fn most_met(&self) -> Option<usize> {
        let threads = 1 + usize::from(self.has_door());
        let kept = threads * self.most_waiting()?;
        Some(self.most_strangers?.saturating_sub(kept).max(1))
    }

    /// Gives the thread a connection that came then from this address, and that is a stranger's at first. If clients
    /// speak TLS, the handshake comes first. If too many wait, returns the one that gives way. Before a handshake it
    /// returns none, because nothing can be told to such a client.
    pub(super) fn bring(
        &self,
        socket: TcpStream,
        from: SocketAddr,
        since: Instant,
    ) -> Option<Stream> {
        let Some(door) = self.door.get() else {
            return self.bring_met(Stream::Plain(socket), from, since);
        };
        let newcomer = self.newcomer(socket, from, since);
        let first = door.bring(newcomer, self.most_waiting())?;
        self.note_lost(first.id);
        None
    }

    /// Gives the thread a connection that needs no handshake. If too many wait, returns the one that gives way.
    fn bring_met(&self, stream: Stream, from: SocketAddr, since: Instant) -> Option<Stream> {
        let (newcomer, most) = (self.newcomer(stream, from, since), self.most_waiting());
        let first = self.change(|it| newcomer.wait_in(&mut it.streams, most))?;
        self.note_lost(first.id);
        Some(first.stream)
    }

    /// Counts a connection as a stranger's, and gives it a number.
    fn newcomer<S>(&self, stream: S, from: SocketAddr, since: Instant) -> Arrived<S> {
        self.stats.open.note_more();
        self.strangers.fetch_add(1, Ordering::Relaxed);
        Arrived {
            stream,
            from,
            since,
            id: LAST_ID.fetch_add(1, Ordering::Relaxed) + 1,
        }
    }

    /// Gives the thread a simulated connection. If another one gives way, tells its client so.
    #[cfg(feature = "simulated")]
    pub fn bring_simulated(
        &self,
        stream: Box<dyn super::ClientStream>,
        from: SocketAddr,
        since: Instant,
    ) {
        if let Some(mut first) = self.bring_met(Stream::Simulated(stream), from, since) {
            first.refuse();
        }
    }

    /// Returns whether the thread must first look at the connections that it was given, before more are accepted.
    /// Strangers have their own bound, by which the first ones give way.
    pub(super) fn is_full(&self) -> bool {
        self.most_strangers.is_none() && self.brought().streams.len() >= MOST_BROUGHT
    }

    /// Sets the queue in which connections wait for the handshake thread. This waker wakes that thread.
    pub(super) fn set_door(&self, waker: Waker) {
        // It is set once, before the first connection.
        let _ = self.door.set(Door::new(waker));
    }

    /// Returns whether another thread does handshakes for this one, and meets its strangers.
    pub(super) fn has_door(&self) -> bool {
        self.door.get().is_some()
    }

    /// Returns how many connections wait for their handshakes.
    pub(super) fn newcomers(&self) -> usize {
        self.door.get().map_or(0, Door::len)
    }

    /// Takes the connection that has waited for its handshake longest. Returns none as long as the thread must first
    /// close many that gave way, because this one could exceed the bound.
    pub(super) fn take_newcomer(&self) -> Option<Arrived<TcpStream>> {
        match self.is_leaving_full(self.met().leaving()) {
            true => None,
            false => self.door.get()?.take(),
        }
    }

    /// Returns whether no more strangers may give way until some of so many are closed.
    fn is_leaving_full(&self, leaving: usize) -> bool {
        self.most_waiting().is_some_and(|most| leaving >= most)
    }

    /// Gives the thread a connection whose handshake is over.
    pub(super) fn hand_on(&self, arrived: Arrived<Stream>) {
        self.met().note_moved(arrived.id, Whereabouts::Between);
        self.change(|it| it.streams.push_back(arrived));
    }

    /// Notes that no more connections are handed on. If a thread sees this note, it also sees every connection that was
    /// handed on.
    pub(super) fn close_door(&self) {
        self.door.get().iter().for_each(|it| it.close());
    }

    /// Returns whether connections may still be handed on after their handshakes.
    pub(super) fn has_open_door(&self) -> bool {
        self.door.get().is_some_and(Door::is_open)
    }

    /// Notes that a stranger was met at this place.
    pub(super) fn note_met(&self, id: u64, at: Whereabouts) {
        self.met().add(id, at);
    }

    /// Notes that a stranger that was met is at this place now. Returns whether it may stay: false if it gave way
    /// meanwhile.
    pub(super) fn note_moved(&self, id: u64, at: Whereabouts) -> bool {
        self.met().note_moved(id, at)
    }

    /// If one more would be too many, makes the stranger give way that came first of those that were met, and returns
    /// it. Its owner must close it.
    pub(super) fn give_way(&self) -> Option<(u64, Whereabouts)> {
        self.met().give_way(self.most_met()?)
    }

    /// Asks the thread to close the connection of a stranger that gave way.
    pub(super) fn have_closed(&self, place: usize, id: u64) {
        self.change(|it| it.leaving.push((place, id)));
    }

    /// Returns the places of strangers' connections, in the order in which they came.
    pub(super) fn places_of_strangers(&self) -> Vec<usize> {
        self.met().connections()
    }

    /// Returns how many connections the thread has whose clients have logged in, or needn't.
    pub fn known(&self) -> usize {
        let open = self.stats.open.get() as usize;
        open.saturating_sub(self.strangers())
    }

    /// Wakes the thread, so that it looks at what others brought or changed.
    pub fn wake(&self) {
        (self.wake)();
    }

    /// Does the same at a stop, which its handshake thread must see, too.
    pub fn wake_for_stop(&self) {
        self.door.get().iter().for_each(|it| it.wake());
        self.wake();
    }

    /// Returns how many connections the thread has whose clients haven't logged in.
    pub fn strangers(&self) -> usize {
        self.strangers.load(Ordering::Relaxed)
    }

    /// Notes that a stranger has logged in, or left.
    pub(super) fn note_stranger_less(&self, id: u64) {
        self.strangers.fetch_sub(1, Ordering::Relaxed);
        let mut met = self.met();
        let was_full = self.is_leaving_full(met.leaving());
        met.remove(id);
        if was_full && !self.is_leaving_full(met.leaving()) {
            self.door.get().iter().for_each(|it| it.wake());
        }
    }

    /// Notes that a stranger's connection is closed.
    pub(super) fn note_lost(&self, id: u64) {
        self.note_stranger_less(id);
        self.stats.open.note_less();
    }

    fn met(&self) -> MutexGuard<'_, Strangers> {
        self.met.lock().unwrap_or_else(PoisonError::into_inner)
    }

    /// Returns the thread's counters.
    pub fn stats(&self) -> &Arc<Stats> {
        &self.stats
    }

    /// Returns how often the thread has looked for something to do.
    pub fn turns(&self) -> u64 {
        self.turns.load(Ordering::Acquire)
    }

    /// Notes that the thread looks once more. Only the thread itself may call this.
    pub(super) fn note_turn(&self) {
        let turns = self.turns.load(Ordering::Relaxed);
        self.turns.store(turns.wrapping_add(1), Ordering::Release);
    }

    /// Returns the version of the servers' presence that the thread has acted upon.
    pub fn version(&self) -> u64 {
        self.version.load(Ordering::Acquire)
    }

    /// Notes that the thread has no pass of a server that was away in this version.
    pub(super) fn set_version(&self, version: u64) {
        self.version.store(version, Ordering::Release);
    }

    fn brought(&self) -> MutexGuard<'_, Brought> {
        self.brought.lock().unwrap_or_else(PoisonError::into_inner)
    }

    /// Takes everything that others brought.
    pub(super) fn take(&self) -> Brought {
        std::mem::take(&mut self.brought())
    }

    /// Returns whether the thread has taken everything that others brought.
    pub(super) fn is_empty(&self) -> bool {
        self.brought().is_empty()
    }

    /// Changes the queue of what others brought, and wakes the thread if it hasn't been woken for that yet.
    pub(super) fn change<T>(&self, change: impl FnOnce(&mut Brought) -> T) -> T {
        let mut brought = self.brought();
        // If something is there already, the thread was woken for it, and hasn't looked yet.
        let is_first = brought.is_empty();
        let found = change(&mut brought);
        drop(brought);
        if is_first {
            self.wake();
        }
        found
    }
}

pub(super) fn wake(waker: &Waker) {
    if let Err(error) = waker.wake() {
        tracing::error!(%error, "a thread can't be woken");
    }
}

impl fmt::Debug for Inlet {
    fn fmt(&self, f: &mut fmt::Formatter<'_>) -> fmt::Result {
        f.debug_struct("Inlet")
            .field("stats", &self.stats)
            .finish_non_exhaustive()
    }
}

#[cfg(test)]
mod tests {
    use super::*;
    use std::net::{TcpListener, TcpStream as Client};

    #[test]
    fn strangers_are_bounded_wherever_they_are() {
        let polls = [Poll::new().unwrap(), Poll::new().unwrap()];
        let inlet = Inlet::new(&polls[0], 1).unwrap();
        let inlet = inlet.with_most_strangers(Some(8));
        inlet.set_door(Waker::new(polls[1].registry(), WAKE).unwrap());
        let listener = TcpListener::bind("127.0.0.1:0").unwrap();
        let (mut clients, mut gone) = (Vec::new(), Vec::new());
        for place in 0..50 {
            clients.push(Client::connect(listener.local_addr().unwrap()).unwrap());
            let (socket, from) = listener.accept().unwrap();
            // Before its handshake, a client can't be told anything.
            assert!(inlet
                .bring(TcpStream::from_std(socket), from, Instant::now())
                .is_none());
            if let Some(newcomer) = inlet.take_newcomer() {
                gone.extend(inlet.give_way());
                inlet.note_met(newcomer.id, Whereabouts::Connection(place));
            }
            assert!(inlet.strangers() <= 8);
        }
        // Those that gave way still have places, because the thread hasn't closed them.
        assert_eq!(gone.len(), 2);
        assert_eq!(inlet.met().connections(), [2, 3, 4, 5]);
        assert_eq!((inlet.newcomers(), inlet.strangers()), (2, 8));
        assert!(inlet.take_newcomer().is_none());
        inlet.note_lost(gone[0].0);
        assert!(inlet.take_newcomer().is_some());
    }
}
