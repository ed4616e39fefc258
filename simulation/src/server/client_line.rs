use crate::chance::Chance;
use durkenzo_server::io::{ClientStream, Readiness};
use std::collections::VecDeque;
use std::io::{self, ErrorKind};
use std::sync::{Arc, Mutex, MutexGuard};

/// How many bytes of answers are on their way at most. Some lines have room for few.
const ROOMS: [usize; 4] = [64, 1 << 10, 1 << 14, 1 << 16];
/// One in so many reads and writes is interrupted by a signal.
const INTERRUPTED: u64 = 40;

/// The line between a client and a process. It has the events of its socket, each of which is told only once.
#[derive(Debug)]
pub struct ClientLine {
    chance: LineChance,
    /// The bytes that the client sent and that haven't arrived, and those that the process hasn't read.
    sent: VecDeque<u8>,
    arrived: VecDeque<u8>,
    /// The bytes of answers that the client hasn't read, and how many there may be.
    answers: VecDeque<u8>,
    room: usize,
    /// The place of the process's connection, once the process serves the line.
    place: Option<usize>,
    event: Option<Readiness>,
    /// Whether the client sends no more, and whether the process's system knows that.
    has_client_ended: bool,
    has_end_arrived: bool,
    /// Whether the client left, or the process ended, without a proper end.
    is_reset: bool,
    /// Whether the process has ended the line.
    has_server_ended: bool,
    /// Whether the process's last bytes found no room.
    is_full: bool,
}

/// The random numbers of a line.
struct LineChance(Chance);

impl std::fmt::Debug for LineChance {
    fn fmt(&self, f: &mut std::fmt::Formatter<'_>) -> std::fmt::Result {
        f.write_str("LineChance")
    }
}

/// A line that a client and a process share.
#[derive(Clone, Debug)]
pub struct SharedLine(Arc<Mutex<ClientLine>>);

impl SharedLine {
    /// Returns a new line.
    pub fn new(seed: u64) -> SharedLine {
        let mut chance = Chance::new(seed);
        let room = ROOMS[chance.below(ROOMS.len() as u64) as usize];
        SharedLine(Arc::new(Mutex::new(ClientLine {
            chance: LineChance(chance),
            sent: VecDeque::new(),
            arrived: VecDeque::new(),
            answers: VecDeque::new(),
            room,
            place: None,
            event: None,
            has_client_ended: false,
            has_end_arrived: false,
            is_reset: false,
            has_server_ended: false,
            is_full: false,
        })))
    }

    /// Returns the line.
    pub fn line(&self) -> MutexGuard<'_, ClientLine> {
        self.0.lock().expect("no schedule goes on after a panic")
    }

    /// Returns the process's end of the line.
    pub fn server_end(&self) -> Box<dyn ClientStream> {
        Box::new(ServerEnd(self.clone()))
    }
}

impl ClientLine {
    /// Sends bytes of the client.
    pub fn send(&mut self, bytes: &[u8]) {
        self.sent.extend(bytes);
    }

    /// Sends no more of the client.
    pub fn end_client(&mut self) {
        self.has_client_ended = true;
    }

    /// Returns whether the client sends no more.
    pub fn has_client_ended(&self) -> bool {
        self.has_client_ended
    }

    /// Cuts the line, so that either side finds it reset.
    pub fn reset(&mut self) {
        self.is_reset = true;
        self.sent.clear();
        self.answers.clear();
        self.note(Readiness {
            is_readable: true,
            is_half_closed: true,
            has_left: true,
        });
    }

    /// Returns whether the line is of no use to the client: it was reset, or the process has ended it and the client
    /// has read everything.
    pub fn is_over(&self) -> bool {
        self.is_reset || self.has_server_ended && self.answers.is_empty()
    }

    /// Returns whether the process has ended the line.
    pub fn has_server_ended(&self) -> bool {
        self.has_server_ended
    }

    /// Lets some of the client's bytes arrive, at most this many. Returns whether anything arrived.
    pub fn arrive(&mut self, most: usize) -> bool {
        let count = most.min(self.sent.len());
        let came: Vec<u8> = self.sent.drain(..count).collect();
        self.arrived.extend(came);
        let ends = self.sent.is_empty() && self.has_client_ended && !self.has_end_arrived;
        self.has_end_arrived |= ends;
        if count > 0 || ends {
            self.note(Readiness {
                is_readable: true,
                is_half_closed: ends,
                has_left: false,
            });
        }
        count > 0 || ends
    }

    /// Reads some of the answers, at most this many bytes.
    pub fn read_answers(&mut self, most: usize) -> Vec<u8> {
        let count = most.min(self.answers.len());
        let read: Vec<u8> = self.answers.drain(..count).collect();
        if self.is_full && count > 0 {
            self.is_full = false;
            self.note(Readiness::default());
        }
        read
    }

    fn note(&mut self, ready: Readiness) {
        let event = self.event.get_or_insert_default();
        event.is_readable |= ready.is_readable;
        event.is_half_closed |= ready.is_half_closed;
        event.has_left |= ready.has_left;
    }

    /// Takes the event that the process's system tells next, and the place of the connection.
    pub fn take_event(&mut self) -> Option<(usize, Readiness)> {
        let place = self.place.filter(|_| !self.has_server_ended)?;
        self.event.take().map(|it| (place, it))
    }

    /// Returns whether there is an event for the process.
    pub fn has_event(&self) -> bool {
        self.event.is_some() && self.place.is_some() && !self.has_server_ended
    }

    fn is_interrupted(&mut self) -> bool {
        self.chance.0.is_true(1, INTERRUPTED)
    }
}

/// The process's end of a line. Dropping it ends the line.
#[derive(Debug)]
struct ServerEnd(SharedLine);

impl ClientStream for ServerEnd {
    fn begin(&mut self, place: usize) {
        let mut line = self.0.line();
        line.place = Some(place);
        // A system tells at once what a new socket has.
        let is_readable = !line.arrived.is_empty() || line.has_end_arrived;
        let is_half_closed = line.has_end_arrived;
        line.note(Readiness {
            is_readable,
            is_half_closed,
            has_left: false,
        });
    }

    fn read(&mut self, buffer: &mut [u8]) -> io::Result<usize> {
        let mut line = self.0.line();
        if line.is_reset {
            return Err(ErrorKind::ConnectionReset.into());
        }
        if line.is_interrupted() {
            return Err(ErrorKind::Interrupted.into());
        }
        if line.arrived.is_empty() {
            return match line.has_end_arrived {
                true => Ok(0),
                false => Err(ErrorKind::WouldBlock.into()),
            };
        }
        let count = buffer.len().min(line.arrived.len());
        let taken = buffer.iter_mut().zip(line.arrived.drain(..count));
        taken.for_each(|(to, byte)| *to = byte);
        Ok(count)
    }

    fn write(&mut self, bytes: &[u8]) -> io::Result<usize> {
        let mut line = self.0.line();
        if line.is_reset {
            return Err(ErrorKind::BrokenPipe.into());
        }
        if line.is_interrupted() {
            return Err(ErrorKind::Interrupted.into());
        }
        let count = bytes.len().min(line.room - line.answers.len());
        if count == 0 {
            line.is_full = true;
            return Err(ErrorKind::WouldBlock.into());
        }
        line.answers.extend(&bytes[..count]);
        Ok(count)
    }
}

impl Drop for ServerEnd {
    fn drop(&mut self) {
        self.0.line().has_server_ended = true;
    }
}

#[cfg(test)]
mod tests {
    use super::*;

    /// Does it again as long as a signal interrupts it.
    fn done(mut it: impl FnMut() -> io::Result<usize>) -> io::Result<usize> {
        loop {
            match it() {
                Err(error) if error.kind() == ErrorKind::Interrupted => {}
                other => return other,
            }
        }
    }

    #[test]
    fn an_event_is_told_once() {
        let shared = SharedLine::new(1);
        let (mut end, mut room) = (shared.server_end(), [0; 9]);
        end.begin(7);
        shared.line().send(b"abc");
        assert!(shared
            .line()
            .take_event()
            .is_some_and(|it| !it.1.is_readable));
        assert!(shared.line().arrive(2) && shared.line().arrive(2) && !shared.line().arrive(2));
        let (place, ready) = shared.line().take_event().unwrap();
        assert!(place == 7 && ready.is_readable && shared.line().take_event().is_none());
        assert_eq!(done(|| end.read(&mut room)).unwrap(), 3);
        let error = done(|| end.read(&mut room)).unwrap_err();
        assert_eq!(error.kind(), ErrorKind::WouldBlock);
        shared.line().end_client();
        assert!(shared.line().arrive(1));
        assert!(shared
            .line()
            .take_event()
            .is_some_and(|it| it.1.is_half_closed));
        assert_eq!(done(|| end.read(&mut room)).unwrap(), 0);
    }

    #[test]
    fn a_full_line_tells_of_room() {
        let shared = SharedLine::new(2);
        let mut end = shared.server_end();
        end.begin(0);
        shared.line().take_event();
        while done(|| end.write(&[0; 999])).is_ok() {}
        assert!(shared.line().take_event().is_none());
        assert_eq!(shared.line().read_answers(5).len(), 5);
        assert!(shared.line().take_event().is_some());
        drop(end);
        assert!(shared.line().has_server_ended() && !shared.line().is_over());
    }
}
