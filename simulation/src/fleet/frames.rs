//! The messages between processes and clients of a fleet. They are frames on connections. On one connection they come
//! in order, and any of them may come late or never.
use crate::chance::Chance;
use crate::machine_clock::MachineClock;
use durkenzo_fleet::simulated::Later;
use std::collections::{BTreeMap, VecDeque};
use std::future::poll_fn;
use std::io::{self, ErrorKind};
use std::sync::{Arc, Mutex, MutexGuard};
use std::task::{Context, Poll, Waker};
use std::time::{Duration, Instant};

/// The ways of a connection: to the process that is asked, and back to the asker.
pub const TO_SERVER: usize = 0;
pub const TO_ASKER: usize = 1;

/// The asker: a process in one of its lives, or a client.
#[derive(Clone, Copy, Debug, PartialEq, Eq)]
pub enum Asker {
    Process { life: u64, server: u16 },
    Client(usize),
}

/// A message on its way.
enum Flying {
    Frame(Vec<u8>),
    /// The end of a way: nothing comes after it.
    End,
}

/// One way of a connection.
#[derive(Default)]
struct Way {
    flying: VecDeque<Flying>,
    /// The frames that have come and aren't read yet.
    came: VecDeque<Vec<u8>>,
    has_ended: bool,
    /// The time until which the way carries nothing.
    dark_until: Duration,
    /// The reader that waits for frames.
    waker: Option<Waker>,
    /// Whether the sender is there and hasn't closed the connection.
    is_open: bool,
}

/// The state of a connection.
#[derive(Clone, Copy, PartialEq, Eq)]
enum Standing {
    Dialling,
    /// A process of this life has taken the connection.
    Made(u64),
    Refused,
}

/// A connection, on which one request is under way at a time.
struct Connection {
    from: Asker,
    address: String,
    standing: Standing,
    ways: [Way; 2],
    /// Whether the process that is asked takes no more requests.
    is_over: bool,
    is_broken: bool,
    /// Whether the asker keeps the connection for later.
    is_idle: bool,
}

/// All connections, and all tasks that wait for a time.
#[derive(Default)]
pub struct Frames {
    connections: BTreeMap<u64, Connection>,
    timers: BTreeMap<u64, (Instant, MachineClock, Waker)>,
    next: u64,
    /// How many frames came.
    pub came: u64,
}

/// The connections of all processes and clients.
pub type SharedFrames = Arc<Mutex<Frames>>;

/// Locks the connections. The caller must not hold the lock while a task runs, because tasks lock the connections too.
pub fn locked(shared: &SharedFrames) -> MutexGuard<'_, Frames> {
    shared.lock().expect("no schedule goes on after a panic")
}

impl Way {
    fn wake(&mut self) {
        self.waker.take().into_iter().for_each(Waker::wake);
    }

    /// Delivers the first message that is on its way. Returns whether it is a frame.
    fn deliver(&mut self) -> bool {
        let first = self.flying.pop_front();
        self.wake();
        match first {
            Some(Flying::Frame(frame)) => {
                self.came.push_back(frame);
                true
            }
            Some(Flying::End) => {
                self.has_ended = true;
                false
            }
            None => false,
        }
    }

    /// Closes the way: its sender sends nothing more.
    fn close(&mut self) {
        if std::mem::take(&mut self.is_open) {
            self.flying.push_back(Flying::End);
        }
    }
}

impl Connection {
    fn is_quiet(&self) -> bool {
        let way = &self.ways[TO_ASKER];
        !self.is_broken && !way.has_ended && way.came.is_empty()
    }

    /// Returns whether a message can come by this way now.
    fn carries(&self, way: usize, now: Duration) -> bool {
        let way = &self.ways[way];
        let is_made = matches!(self.standing, Standing::Made(_));
        is_made && !self.is_broken && !way.flying.is_empty() && way.dark_until <= now
    }

    fn break_off(&mut self) {
        self.is_broken = true;
        for way in &mut self.ways {
            way.flying.clear();
            way.wake();
        }
    }

    /// Returns whether any side still has the connection.
    fn is_there(&self) -> bool {
        self.ways.iter().any(|it| it.is_open)
    }
}

impl Frames {
    fn number(&mut self) -> u64 {
        self.next += 1;
        self.next
    }

    /// Begins to reach the process at this address, and returns the number of the connection.
    pub fn dial(&mut self, from: Asker, address: &str) -> u64 {
        let number = self.number();
        let way = || Way {
            is_open: true,
            ..Way::default()
        };
        let connection = Connection {
            from,
            address: address.to_owned(),
            standing: Standing::Dialling,
            ways: [way(), way()],
            is_over: false,
            is_broken: false,
            is_idle: false,
        };
        self.connections.insert(number, connection);
        number
    }

    /// Takes a connection to this address that was used before, the newest first. If it has ended or broken since, or
    /// if anything came by it, it is closed, and the next one is tried.
    pub fn take_idle(&mut self, from: Asker, address: &str) -> Option<u64> {
        let is_meant = |it: &Connection| it.is_idle && it.from == from && it.address == address;
        let found = self.connections.iter().rev();
        let idle: Vec<u64> = found.filter(|it| is_meant(it.1)).map(|it| *it.0).collect();
        for number in idle {
            let connection = self.connections.get_mut(&number)?;
            connection.is_idle = false;
            if connection.is_quiet() {
                return Some(number);
            }
            self.close(number, TO_SERVER);
        }
        None
    }

    /// Keeps a connection for later.
    pub fn keep(&mut self, number: u64) {
        if let Some(connection) = self.connections.get_mut(&number) {
            connection.is_idle = true;
        }
    }

    /// Sends a frame by this way of the connection. Fails if the connection is broken.
    pub fn send(&mut self, number: u64, way: usize, frame: Vec<u8>) -> io::Result<()> {
        let connection = self.connections.get_mut(&number);
        match connection.filter(|it| !it.is_broken) {
            Some(connection) => {
                let way = &mut connection.ways[way];
                way.flying.push_back(Flying::Frame(frame));
                Ok(())
            }
            None => Err(ErrorKind::BrokenPipe.into()),
        }
    }

    /// Returns the next frame that has come by this way, or waits for it. Fails if no frame comes any more.
    pub fn received(
        &mut self,
        number: u64,
        way: usize,
        context: &Context<'_>,
    ) -> Poll<io::Result<Vec<u8>>> {
        let Some(connection) = self.connections.get_mut(&number) else {
            return Poll::Ready(Err(ErrorKind::NotConnected.into()));
        };
        let (is_broken, is_over) = (connection.is_broken, connection.is_over);
        let way_of = &mut connection.ways[way];
        if let Some(frame) = way_of.came.pop_front() {
            return Poll::Ready(Ok(frame));
        }
        if is_broken {
            return Poll::Ready(Err(ErrorKind::ConnectionReset.into()));
        }
        if way_of.has_ended || (is_over && way == TO_SERVER) {
            return Poll::Ready(Err(ErrorKind::UnexpectedEof.into()));
        }
        way_of.waker = Some(context.waker().clone());
        Poll::Pending
    }

    /// Waits until the process was reached. Fails if the connection is refused.
    pub fn reached(&mut self, number: u64, context: &Context<'_>) -> Poll<io::Result<()>> {
        let Some(connection) = self.connections.get_mut(&number) else {
            return Poll::Ready(Err(ErrorKind::NotConnected.into()));
        };
        match connection.standing {
            Standing::Made(_) => Poll::Ready(Ok(())),
            Standing::Refused => Poll::Ready(Err(ErrorKind::ConnectionRefused.into())),
            Standing::Dialling => {
                connection.ways[TO_ASKER].waker = Some(context.waker().clone());
                Poll::Pending
            }
        }
    }

    /// Closes the connection on the side that sends by this way. If a process has no place for a connection, it does so
    /// before the connection is made. The asker is refused then.
    pub fn close(&mut self, number: u64, way: usize) {
        if let Some(connection) = self.connections.get_mut(&number) {
            connection.ways[way].close();
            let is_dialling = connection.standing == Standing::Dialling;
            if is_dialling && way == TO_ASKER {
                connection.standing = Standing::Refused;
                connection.ways[TO_ASKER].wake();
            }
            if (is_dialling && way == TO_SERVER) || !connection.is_there() {
                self.connections.remove(&number);
            }
        }
    }

    /// Makes the process that is asked take no more requests by this connection.
    pub fn end_requests(&mut self, number: u64) {
        if let Some(connection) = self.connections.get_mut(&number) {
            connection.is_over = true;
            connection.ways[TO_SERVER].wake();
        }
    }

    /// Returns whether the asker still has the connection open, as far as the other side knows.
    pub fn is_open(&self, number: u64) -> bool {
        let connection = self.connections.get(&number);
        connection.is_some_and(|it| !it.is_broken && !it.ways[TO_SERVER].has_ended)
    }

    /// Returns the connections that are still to be made, each with its asker and the address.
    pub fn dials(&self) -> Vec<(u64, Asker, String)> {
        let dialling = self.connections.iter();
        let dialling = dialling.filter(|it| it.1.standing == Standing::Dialling);
        dialling
            .map(|it| (*it.0, it.1.from, it.1.address.clone()))
            .collect()
    }

    /// Answers a dial: the process of this life takes the connection. If there is no life, nobody takes it.
    pub fn answer_dial(&mut self, number: u64, life: Option<u64>) {
        if let Some(connection) = self.connections.get_mut(&number) {
            connection.standing = life.map_or(Standing::Refused, Standing::Made);
            connection.ways[TO_ASKER].is_open = life.is_some();
            connection.ways[TO_ASKER].wake();
        }
    }

    /// Delivers a message by some connection. Returns whether any could come.
    pub fn go_on(&mut self, chance: &mut Chance, now: Duration) -> bool {
        let count = self.connections.len().max(1) as u64;
        let (at, first) = (chance.below(count) as usize, chance.below(2) as usize);
        let order = self.connections.iter().skip(at);
        let order = order.chain(self.connections.iter().take(at));
        let mut carrying = order.flat_map(|(number, it)| {
            let ways = [first, 1 - first].into_iter();
            ways.filter(|way| it.carries(*way, now))
                .map(|way| (*number, way))
        });
        let Some((number, way)) = carrying.next() else {
            return false;
        };
        if let Some(connection) = self.connections.get_mut(&number) {
            self.came += u64::from(connection.ways[way].deliver());
        }
        true
    }

    /// Returns the number of some connection, by chance.
    pub fn some(&self, chance: &mut Chance) -> Option<u64> {
        let at = chance.below(self.connections.len().max(1) as u64) as usize;
        self.connections.keys().nth(at).copied()
    }

    /// Breaks a connection.
    pub fn break_off(&mut self, number: u64) {
        if let Some(connection) = self.connections.get_mut(&number) {
            connection.break_off();
        }
    }

    /// Makes a way of a connection carry nothing until this time. If its sender's machine is gone, it never carries
    /// anything again.
    pub fn darken(&mut self, number: u64, way: usize, until: Duration) {
        if let Some(connection) = self.connections.get_mut(&number) {
            let way = &mut connection.ways[way];
            way.dark_until = way.dark_until.max(until);
        }
    }

    /// Ends the sides of a process that is gone. If its machine is gone too, nobody is told.
    pub fn forget(&mut self, life: u64, is_dark: bool) {
        let is_asker = |it: Asker| matches!(it, Asker::Process { life: of, .. } if of == life);
        for connection in self.connections.values_mut() {
            let sends = [
                is_asker(connection.from),
                connection.standing == Standing::Made(life),
            ];
            for (way, _) in connection.ways.iter_mut().zip(sends).filter(|it| it.1) {
                match is_dark {
                    true => (way.is_open, way.dark_until) = (false, Duration::MAX),
                    false => way.close(),
                }
            }
        }
        self.connections.retain(|_, it| it.is_there());
    }

    /// Makes all ways carry frames again. If somebody waits for a machine that is gone, that connection breaks, so that
    /// they learn of it.
    pub fn calm(&mut self) {
        for connection in self.connections.values_mut() {
            let is_gone = |it: &Way| !it.is_open && it.dark_until == Duration::MAX;
            if connection.ways.iter().any(is_gone) {
                connection.break_off();
            }
            for way in &mut connection.ways {
                way.dark_until = Duration::ZERO;
            }
        }
    }

    /// Wakes all tasks whose time has come.
    pub fn wake_due(&mut self) {
        let due = self.timers.iter();
        let due = due.filter(|(_, (moment, clock, _))| clock.now() >= *moment);
        let due: Vec<u64> = due.map(|it| *it.0).collect();
        let wakers = due.iter().filter_map(|it| self.timers.remove(it));
        wakers.for_each(|it| it.2.wake());
    }

    /// Returns on how many connections a request or an answer is on its way, or came and isn't read.
    pub fn under_way(&self) -> usize {
        let is_under_way = |it: &&Connection| {
            let is_moving = |it: &Way| !it.flying.is_empty() || !it.came.is_empty();
            let is_read = |way: usize| it.ways[1 - way].is_open;
            !it.is_idle && (0..2).any(|way| is_read(way) && is_moving(&it.ways[way]))
        };
        self.connections.values().filter(is_under_way).count()
    }
}

/// The wait of a task for a time, until this is dropped.
struct Timer {
    number: u64,
    shared: SharedFrames,
}

impl Drop for Timer {
    fn drop(&mut self) {
        locked(&self.shared).timers.remove(&self.number);
    }
}

/// Waits until this moment of this clock.
pub fn wait_until(
    shared: &SharedFrames,
    clock: &MachineClock,
    moment: Instant,
) -> Later<'static, ()> {
    let (number, clock) = (locked(shared).number(), clock.clone());
    let timer = Timer {
        number,
        shared: shared.clone(),
    };
    Box::pin(poll_fn(move |context| {
        if clock.now() >= moment {
            return Poll::Ready(());
        }
        let waiting = (moment, clock.clone(), context.waker().clone());
        locked(&timer.shared).timers.insert(timer.number, waiting);
        Poll::Pending
    }))
}
