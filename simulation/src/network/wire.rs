use super::disguise::Disguise;
use super::pipe::Pipe;
use crate::chance::Chance;
use durkenzo_control::links::KEEP_ALIVE;
use std::io::{self, ErrorKind, Read, Write};
use std::time::Duration;

/// The sides of a connection.
pub const CALLER: usize = 0;
pub const CALLED: usize = 1;
/// How many bytes are on their way at most. Some connections have room for few, so that a slow reader holds up the
/// writer.
const ROOMS: [usize; 3] = [64, 1 << 10, 1 << 16];
/// How many bytes move at once at most.
const PIECE: u64 = 700;

/// A wire, which carries the bytes of a connection.
pub struct Wire {
    /// The bytes that each side writes.
    pub pipes: [Pipe; 2],
    room: usize,
    /// Whether each side has ended, and whether the other side is told so by a reset.
    has_ended: [bool; 2],
    is_reset: bool,
    /// The time since which the machine of a side is gone.
    dark_since: Option<Duration>,
    /// The disguise of a process of the version before, until the caller has greeted.
    disguise: Option<Disguise>,
    moved: u64,
}

impl Wire {
    /// Returns a wire between two processes. `are_older` says which of them are of the version before.
    pub fn new(chance: &mut Chance, are_older: [bool; 2]) -> Wire {
        Wire {
            pipes: Default::default(),
            room: ROOMS[chance.below(3) as usize],
            has_ended: [false; 2],
            is_reset: false,
            dark_since: None,
            disguise: Disguise::of(are_older),
            moved: 0,
        }
    }

    /// Returns how many bytes were written and read.
    pub fn moved(&self) -> u64 {
        self.moved
    }

    /// Disguises the caller's greeting, if a side is of the version before. Returns whether the called side refuses it.
    pub fn disguise(&mut self) -> bool {
        let Some(disguise) = &mut self.disguise else {
            return false;
        };
        let Some(became) = disguise.take(&mut self.pipes[CALLER]) else {
            return false;
        };
        self.disguise = None;
        if let Some(refusal) = &became {
            self.pipes[CALLED].write(refusal);
        }
        became.is_some()
    }

    /// Ends a side. The bytes on their way from there still arrive, unless the connection is reset.
    pub fn end(&mut self, side: usize, is_reset: bool) {
        self.has_ended[side] = true;
        self.pipes[side].has_ended = true;
        if is_reset {
            self.is_reset = true;
            self.pipes[side].bytes.clear();
        }
    }

    /// Takes away the machine of a side, without a word to the other side.
    pub fn go_dark(&mut self, side: usize, now: Duration) {
        self.dark_since.get_or_insert(now);
        self.pipes[side].cut(now, None);
    }

    /// Cuts off the bytes that a side writes, until this moment or for good.
    pub fn cut(&mut self, side: usize, now: Duration, until: Option<Duration>) {
        self.pipes[side].cut(now, until);
    }

    /// Returns one side's end of the wire.
    pub fn stream<'a>(
        &'a mut self,
        side: usize,
        chance: &'a mut Chance,
        now: Duration,
    ) -> WireStream<'a> {
        WireStream {
            wire: self,
            side,
            chance,
            now,
            keeps_alive: true,
            is_closed: false,
            is_torn: false,
        }
    }

    /// Returns whether the system of a side has found out that nothing arrives any more.
    fn is_found_dead(&self, now: Duration) -> bool {
        let cuts = self.pipes.iter().filter_map(|it| it.cut_since(now));
        let since = cuts.chain(self.dark_since).min();
        since.is_some_and(|it| it + KEEP_ALIVE.silent <= now)
    }
}

/// One side's end of a wire.
pub struct WireStream<'a> {
    wire: &'a mut Wire,
    side: usize,
    chance: &'a mut Chance,
    now: Duration,
    /// Whether the system checks that the other machine is there.
    pub keeps_alive: bool,
    /// Whether this side has ended the connection.
    pub is_closed: bool,
    /// Whether bytes that arrive may be taken for unsent.
    pub is_torn: bool,
}

impl WireStream<'_> {
    /// Fails if the system knows that the connection is over.
    fn check(&self) -> io::Result<()> {
        match self.keeps_alive && self.wire.is_found_dead(self.now) {
            true => Err(ErrorKind::TimedOut.into()),
            false => Ok(()),
        }
    }
}

impl Read for WireStream<'_> {
    fn read(&mut self, room: &mut [u8]) -> io::Result<usize> {
        if self.is_closed {
            return Ok(0);
        }
        self.check()?;
        let most = 1 + self.chance.below(PIECE) as usize;
        let waits = self.wire.disguise.is_some() && self.side == CALLED;
        let Wire {
            pipes, is_reset, ..
        } = &mut *self.wire;
        let pipe = &mut pipes[1 - self.side];
        if pipe.is_cut(self.now) || waits {
            return Err(ErrorKind::WouldBlock.into());
        }
        match pipe.read(room, most) {
            0 if *is_reset => Err(ErrorKind::ConnectionReset.into()),
            0 if pipe.has_ended => Ok(0),
            0 => Err(ErrorKind::WouldBlock.into()),
            count => {
                self.wire.moved += count as u64;
                Ok(count)
            }
        }
    }
}

impl Write for WireStream<'_> {
    fn write(&mut self, bytes: &[u8]) -> io::Result<usize> {
        if self.is_closed {
            return Err(ErrorKind::BrokenPipe.into());
        }
        self.check()?;
        // If the other side has ended, it says so once bytes come there.
        if self.wire.has_ended[1 - self.side] {
            return match self.chance.is_true(1, 2) {
                true => Ok(bytes.len()),
                false => Err(ErrorKind::ConnectionReset.into()),
            };
        }
        let pipe = &mut self.wire.pipes[self.side];
        let free = self.wire.room.saturating_sub(pipe.bytes.len());
        if free == 0 {
            return Err(ErrorKind::WouldBlock.into());
        }
        let count = bytes
            .len()
            .min(free)
            .min(1 + self.chance.below(PIECE) as usize);
        if self.is_torn && self.chance.is_true(1, 20) {
            pipe.write(bytes);
            return Err(ErrorKind::BrokenPipe.into());
        }
        pipe.write(&bytes[..count]);
        self.wire.moved += count as u64;
        Ok(count)
    }

    fn flush(&mut self) -> io::Result<()> {
        Ok(())
    }
}
