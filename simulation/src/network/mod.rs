//! The network between processes that have the links that ship. Its connections are made, carry bytes in order, and
//! break.
mod closer;
mod disguise;
mod pipe;
mod wire;

use crate::bug::Bug;
use crate::chance::Chance;
use crate::fault::Fault;
use crate::faults::Faults;
use crate::mail::Sender;
use crate::time::Time;
use crate::timeline::{Column, Timeline};
use closer::SimulatedCloser;
use durkenzo_control::links::{Connection, Dial, Host, Links};
use std::collections::{BTreeMap, BTreeSet};
use std::io::{self, ErrorKind};
use std::sync::Arc;
use std::time::Duration;
use wire::{Wire, WireStream, CALLED, CALLER};

/// How long a process tries to reach another one before it gives up.
const DIALLING: Duration = Duration::from_secs(2);
/// The longest time in milliseconds for which two processes can't reach each other, or for which a direction carries
/// nothing. A direction may also be cut for good.
const HARM: u64 = 3_000;
/// How many places there are.
const PLACES: u64 = 4;

/// One side of a connection: the process that has it, and the closer that ends it.
struct Side<H: Host> {
    sender: Sender,
    connection: Connection<H>,
    closer: Arc<SimulatedCloser>,
}

/// A connection between two processes. The caller's side comes first, and then the called side.
struct Connected<H: Host> {
    wire: Wire,
    sides: [Option<Side<H>>; 2],
}

/// An attempt of a process to reach another one.
struct Dialling<H: Host> {
    from: Sender,
    dial: Dial<H>,
    /// The time at which the process gives up.
    until: Duration,
}

/// All connections between processes of a schedule, whose links have this host.
pub struct SimulatedNetwork<H: Host> {
    chance: Chance,
    time: Time,
    bug: Option<Bug>,
    faults: Faults,
    timeline: Timeline,
    connected: Vec<Connected<H>>,
    dialling: Vec<Dialling<H>>,
    /// For two places, the time until which the first doesn't reach the second.
    blocked: BTreeMap<(usize, usize), Duration>,
    /// The processes of the version before.
    older: BTreeSet<u64>,
    /// How many connections were made, and how many of their sides ended while their processes ran.
    pub made: u64,
    pub broken: u64,
}

impl<H: Host> SimulatedNetwork<H> {
    /// Returns a network without connections.
    pub fn new(
        chance: Chance,
        time: Time,
        bug: Option<Bug>,
        (faults, timeline): (Faults, Timeline),
    ) -> SimulatedNetwork<H> {
        SimulatedNetwork {
            chance,
            time,
            bug,
            faults,
            timeline,
            connected: Vec::new(),
            dialling: Vec::new(),
            blocked: BTreeMap::new(),
            older: BTreeSet::new(),
            made: 0,
            broken: 0,
        }
    }

    /// Notes that this process is of the version before.
    pub fn note_older(&mut self, life: u64) {
        self.older.insert(life);
    }

    /// Begins the attempt of a process to reach another one.
    fn dial(&mut self, from: Sender, dial: Dial<H>) {
        match dial.address() {
            Ok(_) => self.dialling.push(Dialling {
                from,
                dial,
                until: self.time.passed() + DIALLING,
            }),
            Err(error) => dial.failed(&error),
        }
    }

    /// Lets these processes try to reach those that their links need, and connects them.
    pub fn reach_all(&mut self, there: &[(Sender, &Links<H>)], is_calm: bool) {
        for (sender, links) in there {
            let dials = links.dials().into_iter();
            dials.for_each(|it| self.dial(*sender, it));
        }
        self.reach(there, is_calm);
    }

    /// Connects processes with those that they try to reach. Some attempts fail by chance, but if all is calm, each
    /// process that is there is reached.
    fn reach(&mut self, there: &[(Sender, &Links<H>)], is_calm: bool) {
        for dialling in std::mem::take(&mut self.dialling) {
            let Dialling { from, dial, until } = dialling;
            let to = dial.address().ok().and_then(|it| it.parse().ok());
            let (now, place) = (self.time.passed(), to.unwrap_or(usize::MAX));
            let is_blocked = !is_calm && self.blocked.get(&(from.place, place)) > Some(&now);
            let found = there.iter().find(|it| it.0.place == place);
            let column = Column::Process(from.place);
            let fails = !is_calm && self.faults.strikes(Fault::DialFails, 1, 12, column);
            match found {
                Some((to, links)) if !fails && !is_blocked => {
                    self.connect(from, dial, *to, links);
                }
                _ if fails || until <= now => dial.failed(&ErrorKind::ConnectionRefused.into()),
                _ => self.dialling.push(Dialling { from, dial, until }),
            }
        }
    }

    fn connect(&mut self, from: Sender, dial: Dial<H>, to: Sender, links: &Links<H>) {
        let closers = [(); 2].map(|()| Arc::new(SimulatedCloser::default()));
        let Some(called) = links.accept(closers[CALLED].clone()) else {
            return dial.failed(&ErrorKind::ConnectionReset.into());
        };
        let caller = dial.made(closers[CALLER].clone());
        let are_older = [from, to].map(|it| self.older.contains(&it.life));
        let [first, second] = closers;
        let side = |sender, connection, closer| {
            Some(Side {
                sender,
                connection,
                closer,
            })
        };
        self.made += 1;
        let reaches = || format!("reaches {}", to.place + 1);
        self.timeline.note(Column::Process(from.place), reaches);
        self.connected.push(Connected {
            wire: Wire::new(&mut self.chance, are_older),
            sides: [side(from, caller, first), side(to, called, second)],
        });
    }

    /// Moves some bytes on one side of some connection, if the process of that side isn't paused.
    pub fn go_on(&mut self, is_paused: impl Fn(Sender) -> bool) {
        let at = self.chance.below(self.connected.len().max(1) as u64) as usize;
        let side = self.chance.below(2) as usize;
        let found = self.connected.get(at);
        let sender = found.and_then(|it| it.sides[side].as_ref().map(|it| it.sender));
        if sender.is_some_and(|it| !is_paused(it)) {
            self.move_bytes(at, side);
        }
    }

    /// Moves all bytes until none moves any more. It gives up after `ROUNDS`, because bytes may lead to more without
    /// end.
    pub fn settle(&mut self) {
        const ROUNDS: usize = 2_000;
        for _ in 0..ROUNDS {
            let mut has_moved = false;
            for at in (0..self.connected.len()).rev() {
                for side in [CALLER, CALLED] {
                    has_moved |= self.move_bytes(at, side);
                }
            }
            self.forget_ended();
            if !has_moved {
                return;
            }
        }
    }

    /// Sends the bytes that this process still has to send, as far as they can go.
    pub fn flush(&mut self, life: u64) {
        for at in 0..self.connected.len() {
            for side in [CALLER, CALLED] {
                let sides = &self.connected[at].sides;
                let is_own = sides[side]
                    .as_ref()
                    .is_some_and(|it| it.sender.life == life);
                while is_own && self.move_bytes(at, side) {}
            }
        }
        self.forget_ended();
    }

    /// Lets one side write and read once. Returns whether bytes moved or the side ended.
    fn move_bytes(&mut self, at: usize, side: usize) -> bool {
        let (now, bug) = (self.time.passed(), self.bug);
        let Some(Connected { wire, sides }) = self.connected.get_mut(at) else {
            return false;
        };
        let Some(moving) = &mut sides[side] else {
            return false;
        };
        let before = wire.moved();
        let mut stream = wire.stream(side, &mut self.chance, now);
        stream.keeps_alive = bug != Some(Bug::NoKeepAlive);
        stream.is_torn = bug == Some(Bug::TornFrame) && side == CALLER;
        let ended = moving.exchange(stream);
        let is_refused = wire.disguise();
        let has_moved = wire.moved() != before;
        if let Err(error) = &ended {
            self.end(at, side, error);
        }
        if is_refused {
            self.end(at, CALLED, &ErrorKind::ConnectionReset.into());
        }
        has_moved || ended.is_err() || is_refused
    }

    /// Ends one side. The other side reads the end, or that the connection was reset.
    fn end(&mut self, at: usize, side: usize, error: &io::Error) {
        let Connected { wire, sides } = &mut self.connected[at];
        if let Some(ended) = sides[side].take() {
            self.broken += 1;
            let is_reset = self.chance.is_true(1, 3);
            wire.end(side, is_reset);
            ended.connection.end(error);
        }
    }

    /// Removes all sides of a process that is gone. If the fault strikes, its machine is gone too, and nobody is told.
    pub fn forget(&mut self, life: u64) {
        let now = self.time.passed();
        self.dialling.retain(|it| it.from.life != life);
        for Connected { wire, sides } in &mut self.connected {
            for side in [CALLER, CALLED] {
                let is_own = |it: &mut Side<H>| it.sender.life == life;
                if let Some(gone) = sides[side].take_if(is_own) {
                    let column = Column::Process(gone.sender.place);
                    match self.faults.strikes(Fault::MachineGone, 1, 3, column) {
                        true => wire.go_dark(side, now),
                        false => wire.end(side, self.chance.is_true(1, 3)),
                    }
                }
            }
        }
        self.forget_ended();
    }

    fn forget_ended(&mut self) {
        let is_there = |it: &Connected<H>| it.sides.iter().any(Option::is_some);
        self.connected.retain(is_there);
    }

    /// Returns how many connections have lost one side, or are still to be made.
    pub fn half_connected(&self) -> usize {
        let is_half = |it: &&Connected<H>| it.sides.iter().any(Option::is_none);
        self.dialling.len() + self.connected.iter().filter(is_half).count()
    }

    /// Lets something fail. A direction carries nothing for a while or for good, a connection breaks, or one process
    /// doesn't reach another one.
    pub fn harm(&mut self) {
        let at = self.chance.below(self.connected.len().max(1) as u64) as usize;
        let connected = self.connected.get(at);
        let sides = connected.map(|it| it.sides.iter().flatten());
        let place = sides.and_then(|mut it| it.next()).map(|it| it.sender.place);
        match (self.chance.below(8), place) {
            (0 | 1, _) => self.block(),
            (2..=5, Some(place)) => self.cut(at, place),
            (_, Some(place)) => {
                let column = Column::Process(place);
                if self.faults.strikes(Fault::ConnectionBreaks, 1, 1, column) {
                    let sides = self.connected[at].sides.iter().flatten();
                    sides.for_each(|it| it.closer.close());
                }
            }
            (_, None) => {}
        }
    }

    /// Keeps one place from reaching another one for a while.
    fn block(&mut self) {
        let [from, to] = [(); 2].map(|()| self.chance.below(PLACES) as usize);
        let column = Column::Process(from);
        if let Some(mut chance) = self.faults.strike(Fault::PlaceBlocked, 1, 1, column) {
            let for_long = Duration::from_millis(chance.below(HARM));
            let until = self.time.passed() + for_long;
            self.blocked.insert((from, to), until);
        }
    }

    /// Cuts one direction or both of a connection of this place, so that nothing arrives.
    fn cut(&mut self, at: usize, place: usize) {
        let column = Column::Process(place);
        let struck = self.faults.strike(Fault::ConnectionCut, 1, 1, column);
        let Some(mut chance) = struck else {
            return;
        };
        let (now, wire) = (self.time.passed(), &mut self.connected[at].wire);
        let for_long = Duration::from_millis(chance.below(HARM));
        let until = chance.is_true(1, 2).then_some(now + for_long);
        let cut: &[usize] = match chance.below(4) {
            0 => &[CALLER, CALLED],
            1 | 2 => &[CALLER],
            _ => &[CALLED],
        };
        cut.iter().for_each(|side| wire.cut(*side, now, until));
    }
}

impl<H: Host> Side<H> {
    /// Writes and reads once. Fails if the side has ended.
    fn exchange(&mut self, mut stream: WireStream<'_>) -> io::Result<()> {
        stream.is_closed = self.closer.is_ended();
        goes_on(self.connection.write(&mut stream))?;
        goes_on(self.connection.read(&mut stream))?;
        self.connection.tick()
    }
}

/// Returns no error for `WouldBlock`, because it doesn't end a connection.
fn goes_on(moved: io::Result<()>) -> io::Result<()> {
    match moved {
        Err(error) if error.kind() == ErrorKind::WouldBlock => Ok(()),
        other => other,
    }
}
