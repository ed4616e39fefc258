use super::arrived::Arrived;
use super::caller::Caller;
use super::readiness::Readiness;
use super::stream::Stream;
use crate::command::{Executor, Session, ShardRequest, Stop, MOST_OF_A_STRANGER};
use crate::memory::{self, NoRoom, CEILING};
use crate::resp::{Oversized, OwnedCommand, ReadAway, Replies};
use crate::stats::ErrorCounts;
use crate::wait::Wait;
use std::io::{self, ErrorKind};
use std::iter;
use std::sync::Arc;
use std::time::{Duration, Instant};

/// If a known client has so many unsent bytes, nothing more is read from it.
const MOST_UNSENT: usize = 256 << 10;
/// How many bytes are read at once of a command for which there is no memory.
const PIECE: usize = 2 << 10;
/// The least time that a command waits for a shard that other threads have, each for a short time.
const LEAST_BUSY_WAIT: Duration = Duration::from_secs(1);

/// The first answer to a client that hasn't given a password yet, and that sends a larger command than it may. The
/// words are those of Redis.
const NOT_YET: &str = "ERR Protocol error: unauthenticated bulk length";

/// What a connection waits for after its turn.
#[derive(Debug)]
pub(super) enum Turn {
    /// An event of its socket.
    Rest,
    /// Another turn.
    Again,
    /// Another turn, after others have had the shard for which it waits.
    Wait(Wait),
    /// Another turn at that moment, and not before.
    PutOff(Instant),
    /// The control's answer to this command.
    Control(OwnedCommand),
    /// The answer of shards whose data outlives the process.
    Durable(ShardRequest),
    /// Nothing, because the connection is over.
    Over,
}

impl Turn {
    /// Returns whether the connection waits for more than the turns of others.
    pub(super) fn waits(&self) -> bool {
        match self {
            Turn::Rest | Turn::Again | Turn::Over | Turn::Wait(Wait::Busy(_)) => false,
            Turn::Wait(_) | Turn::PutOff(_) | Turn::Control(_) | Turn::Durable(_) => true,
        }
    }
}

/// A client's connection.
#[derive(Debug)]
pub(super) struct Connection {
    stream: Stream,
    pub(super) session: Session,
    /// Bytes that were read, and whose commands aren't done yet.
    input: Vec<u8>,
    /// The input has no whole command until it has so many bytes.
    needs: usize,
    /// A command that is too large and is read to its end, and the reason for which it will be refused.
    read_away: Option<Box<(ReadAway, Oversized)>>,
    replies: Replies,
    is_readable: bool,
    /// Whether the client won't send more. Then a short read isn't the last one.
    is_half_closed: bool,
    /// Whether the client has left. Then no answer reaches it.
    has_left: bool,
    /// Held as long as the connection is there, so that those who work for the client can see that.
    presence: Option<Arc<()>>,
    /// Whether everything that the client sent was read.
    is_ended: bool,
    /// Whether it ends once everything is sent.
    is_last: bool,
    /// Since when the control or shards owe it an answer, if they do.
    owed_since: Option<Instant>,
    /// When it came, until it has logged in. Most connections have logged in, so this takes little room.
    stranger_since: Option<Box<Instant>>,
    /// Since when its next command waits.
    waits_since: Option<Instant>,
    /// Whether its next command isn't looked at for now.
    is_put_off: bool,
    /// Whether the thread will give it a turn.
    pub(super) is_queued: bool,
}

impl Connection {
    pub(super) fn new(arrived: Arrived<Stream>, session: Session) -> Connection {
        let Arrived { stream, since, .. } = arrived;
        let is_readable = stream.may_have_come();
        let is_stranger = !session.is_known;
        Connection {
            stream,
            session,
            stranger_since: is_stranger.then(|| Box::new(since)),
            input: Vec::new(),
            needs: 1,
            read_away: None,
            replies: Replies::default(),
            is_readable,
            is_half_closed: false,
            has_left: false,
            presence: None,
            is_ended: false,
            is_last: false,
            owed_since: None,
            waits_since: None,
            is_put_off: false,
            is_queued: false,
        }
    }

    pub(super) fn stream(&mut self) -> &mut Stream {
        &mut self.stream
    }

    /// Returns whether a turn is due before any event.
    pub(super) fn is_readable(&self) -> bool {
        self.is_readable
    }

    /// Returns when it came, if it hasn't logged in yet.
    pub(super) fn stranger_since(&self) -> Option<Instant> {
        self.stranger_since.as_deref().copied()
    }

    /// Returns whether it has logged in since this was called last.
    pub(super) fn becomes_known(&mut self) -> bool {
        self.session.is_known && self.stranger_since.take().is_some()
    }

    /// Notes an event of the stream, and returns whether a turn is due. While the next command waits or is owed an
    /// answer, no turn is due, and the socket takes earlier answers.
    pub(super) fn note(&mut self, ready: Readiness, executor: &mut Executor) -> bool {
        self.has_left |= ready.has_left;
        self.is_half_closed |= ready.is_half_closed;
        self.is_readable |= ready.is_readable || self.is_half_closed;
        let is_due = self.is_readable || !self.is_sent();
        if self.is_held() && is_due {
            // If this fails, it fails again in the next turn.
            let _ = self.send(executor);
        }
        is_due && !self.is_held()
    }

    /// Returns whether its client has left, so that no answer reaches it.
    pub(super) fn has_left(&self) -> bool {
        self.has_left
    }

    /// Returns whether its client sends no more, and may have left.
    pub(super) fn may_have_left(&self) -> bool {
        self.is_half_closed || self.is_ended
    }

    /// Returns its client, for those who work for it.
    pub(super) fn caller(&mut self) -> Caller {
        Caller::client(self.presence.get_or_insert_default())
    }

    /// Returns whether the next command waits, or is put off or owed an answer.
    pub(super) fn is_held(&self) -> bool {
        self.owed_since.is_some() || self.waits_since.is_some() || self.is_put_off
    }

    /// Lets the command go on that was put off.
    pub(super) fn go_on(&mut self) {
        self.is_put_off = false;
        self.session.may_guess = true;
    }

    /// Takes the answer that was owed, and returns for how long. If there is no memory for it beside others, the
    /// connection ends.
    pub(super) fn take_answer(&mut self, bytes: Vec<u8>, now: Instant) -> Duration {
        self.replies.append_owned(bytes);
        self.is_last |= self.replies.are_whole().is_err();
        self.owed_since
            .take()
            .map_or(Duration::ZERO, |it| now.saturating_duration_since(it))
    }

    /// Returns whether its command has waited for so long.
    pub(super) fn has_waited(&self, wait: Duration, now: Instant) -> bool {
        self.waits_since
            .is_some_and(|it| now.saturating_duration_since(it) >= wait)
    }

    /// Returns whether no answer to it is outstanding.
    pub(super) fn is_quiet(&self) -> bool {
        !self.is_readable && !self.is_held() && self.is_sent()
    }

    /// Returns how many bytes of its answers the socket hasn't taken.
    #[cfg(feature = "simulated")]
    pub(super) fn unsent(&self) -> usize {
        self.replies.unsent().len()
    }

    /// Returns whether the socket has taken all answers.
    fn is_sent(&self) -> bool {
        self.replies.unsent().is_empty() && !self.stream.has_unsent()
    }

    /// Returns since when its command waits, if one does.
    pub(super) fn waits_since(&self) -> Option<Instant> {
        self.waits_since
    }

    /// Returns the errors with which it was answered since the last call, if there are any.
    pub(super) fn take_errors(&mut self) -> Option<ErrorCounts> {
        self.replies.take_errors()
    }

    /// Reads at most once, does commands, and sends answers. If a command has waited for so long, it is refused.
    pub(super) fn turn(
        &mut self,
        executor: &mut Executor,
        buffer: &mut [u8],
        wait: Duration,
    ) -> Turn {
        self.try_turn(executor, buffer, wait).unwrap_or(Turn::Over)
    }

    fn try_turn(
        &mut self,
        executor: &mut Executor,
        buffer: &mut [u8],
        wait: Duration,
    ) -> io::Result<Turn> {
        self.send(executor)?;
        let is_full = self.replies.unsent().len() >= self.session.most_unsent(MOST_UNSENT)
            || !self.replies.has_room_for_one();
        if self.is_last && self.is_sent() {
            return Ok(Turn::Over);
        }
        if self.is_last || self.owed_since.is_some() || self.is_put_off || is_full {
            // A command that waited is tried again once the client has read more. An event of the socket tells that.
            self.waits_since = None;
            return Ok(Turn::Rest);
        }
        let stop = if self.input.len() >= self.needs {
            self.execute_input(executor)
        } else if self.is_ended {
            // A client that sends no more may still read its answers.
            self.is_last = true;
            return Ok(if self.is_sent() {
                Turn::Over
            } else {
                Turn::Rest
            });
        } else if self.is_readable {
            self.read(executor, buffer)?
        } else {
            return Ok(Turn::Rest);
        };
        let turn = self.after(stop, executor, wait);
        self.send(executor)?;
        Ok(turn)
    }

    /// Returns what comes next if commands stopped for this reason.
    fn after(&mut self, stop: Stop, executor: &mut Executor, wait: Duration) -> Turn {
        let waits_since = self.waits_since.take();
        self.needs = 1;
        match stop {
            Stop::Incomplete(needs) if self.is_too_much(needs) => self.end_of_stranger(),
            Stop::Oversized(_) if !self.session.is_known => self.end_of_stranger(),
            Stop::Oversized(why) => {
                self.read_away = Some(Box::new((ReadAway::default(), why)));
                Turn::Again
            }
            Stop::Incomplete(needs) => {
                self.needs = needs;
                match self.is_readable || self.is_ended {
                    true => Turn::Again,
                    false => Turn::Rest,
                }
            }
            Stop::Full => Turn::Again,
            Stop::End => {
                self.is_last = true;
                Turn::Again
            }
            Stop::Control(command) => {
                self.owed_since = Some(executor.now());
                Turn::Control(command)
            }
            Stop::Durable(asked) => {
                self.owed_since = Some(executor.now());
                Turn::Durable(asked)
            }
            Stop::PutOff(wait) => {
                self.is_put_off = true;
                Turn::PutOff(executor.now() + wait)
            }
            Stop::Wait(reason) => self.wait(reason, waits_since, executor, wait),
        }
    }

    /// Returns whether a command of so many bytes is larger than a client without a password may send.
    fn is_too_much(&self, needs: usize) -> bool {
        !self.session.is_known && needs.max(self.input.len()) > MOST_OF_A_STRANGER
    }

    /// Ends the connection of a client that sends more than it may before it has logged in.
    fn end_of_stranger(&mut self) -> Turn {
        let bound = format!("a command has at most {MOST_OF_A_STRANGER} bytes");
        self.replies
            .error(format!("{NOT_YET}: before AUTH {bound}"));
        self.is_last = true;
        Turn::Again
    }

    /// Makes the next command wait. If it has waited for so long, refuses it.
    fn wait(
        &mut self,
        reason: Wait,
        since: Option<Instant>,
        executor: &mut Executor,
        wait: Duration,
    ) -> Turn {
        let most = match reason {
            Wait::Busy(_) => wait.max(LEAST_BUSY_WAIT),
            _ => wait,
        };
        if since.is_none() && !matches!(reason, Wait::Busy(_)) {
            executor.admission().stats().waited.add(1);
        }
        let now = executor.now();
        let since = since.unwrap_or(now);
        if now.saturating_duration_since(since) >= most {
            self.refuse(reason, executor);
            return Turn::Again;
        }
        self.waits_since = Some(since);
        Turn::Wait(reason)
    }

    fn refuse(&mut self, reason: Wait, executor: &mut Executor) {
        let (session, replies) = (&mut self.session, &mut self.replies);
        let done = executor.refuse(session, &self.input, reason, replies);
        self.forget(done);
    }

    /// Forgets so many bytes of the input, and frees the room if none are left.
    fn forget(&mut self, done: usize) {
        self.input.drain(..done);
        if self.input.is_empty() {
            self.input = Vec::new();
        }
    }

    /// Forgets the input of a command that is too large, and refuses the command at its end.
    fn forget_oversized(&mut self, executor: &mut Executor) -> Option<Stop> {
        let (away, why) = &mut **self.read_away.as_mut()?;
        let (taken, why) = match away.take(&self.input) {
            Ok(taken) => (taken, *why),
            Err(fault) => {
                self.replies.error(format_args!("ERR {fault}"));
                return Some(Stop::End);
            }
        };
        self.forget(taken.bytes);
        if !taken.is_over {
            return Some(Stop::Incomplete(self.input.len() + 1));
        }
        self.read_away = None;
        executor.refuse_oversized(&mut self.session, why, &mut self.replies);
        // The bytes behind it are looked at in another turn.
        Some(Stop::Full)
    }

    /// Does the commands in the bytes that were read before.
    fn execute_input(&mut self, executor: &mut Executor) -> Stop {
        if let Some(stop) = self.forget_oversized(executor) {
            return stop;
        }
        let (session, replies) = (&mut self.session, &mut self.replies);
        let (done, stop) = executor.run(session, &self.input, replies);
        self.forget(done);
        stop
    }

    /// Reads once, and does the commands directly from the buffer. The rest is kept.
    fn read(&mut self, executor: &mut Executor, buffer: &mut [u8]) -> io::Result<Stop> {
        let count = match self.stream.read(buffer) {
            Ok(count) => count,
            Err(error) if error.kind() == ErrorKind::WouldBlock => {
                self.is_readable = false;
                return Ok(Stop::Incomplete(self.needs));
            }
            Err(error) if error.kind() == ErrorKind::Interrupted => {
                return Ok(Stop::Incomplete(self.needs))
            }
            Err(error) => return Err(error),
        };
        self.is_ended = count == 0;
        // If all bytes were taken, there will be another event. The end is told only once.
        let has_more = self.stream.may_have_more(count, buffer.len());
        self.is_readable = count > 0 && (has_more || self.is_half_closed);
        executor.admission().stats().received.add(count as u64);
        CEILING.note_came(count);
        if !self.input.is_empty() || self.read_away.is_some() {
            return self.go_on_by(executor, &buffer[..count]);
        }
        let (session, replies) = (&mut self.session, &mut self.replies);
        let (done, stop) = executor.run(session, &buffer[..count], replies);
        self.keep(&buffer[done..count], stop, executor)
    }

    /// Keeps the rest of the bytes if commands stopped for this reason.
    fn keep(&mut self, left: &[u8], stop: Stop, executor: &mut Executor) -> io::Result<Stop> {
        let kept = match stop {
            Stop::Incomplete(_) => memory::append(&mut self.input, left),
            // Whole commands are left, and none of them can be refused before its turn.
            _ => memory::append_surely(&mut self.input, left),
        };
        match (kept, &stop) {
            (Ok(()), _) => Ok(stop),
            (Err(NoRoom), Stop::Incomplete(_)) => self.go_on_by(executor, left),
            (Err(NoRoom), _) => Err(ErrorKind::OutOfMemory.into()),
        }
    }

    /// Adds these bytes to a command, and does it if it is whole.
    fn go_on_by(&mut self, executor: &mut Executor, more: &[u8]) -> io::Result<Stop> {
        if memory::append(&mut self.input, more).is_err() {
            self.give_up(more)?;
            return Ok(self.execute_input(executor));
        }
        Ok(match self.input.len() >= self.needs {
            true => self.execute_input(executor),
            false => Stop::Incomplete(self.needs),
        })
    }

    /// Keeps nothing of a command if there is no memory for its further bytes. The command is refused at its end.
    fn give_up(&mut self, more: &[u8]) -> io::Result<()> {
        let begun = || Box::new((ReadAway::default(), Oversized::Memory));
        let (away, _) = &mut **self.read_away.get_or_insert_with(begun);
        // There is room for a few bytes at a time, and hardly any of them stay.
        for piece in iter::once(&[][..]).chain(more.chunks(PIECE)) {
            let kept = memory::append(&mut self.input, piece);
            kept.map_err(|_| ErrorKind::OutOfMemory)?;
            let taken = away.take(&self.input).map_err(io::Error::other)?;
            self.input.drain(..taken.bytes);
        }
        Ok(())
    }

    /// Sends as many bytes as the socket takes.
    fn send(&mut self, executor: &mut Executor) -> io::Result<()> {
        while !self.replies.unsent().is_empty() {
            match self.stream.write(self.replies.unsent()) {
                Ok(0) => return Err(ErrorKind::WriteZero.into()),
                Ok(count) => {
                    self.replies.note_sent(count);
                    executor.admission().stats().sent.add(count as u64);
                }
                Err(error) if error.kind() == ErrorKind::WouldBlock => break,
                Err(error) if error.kind() == ErrorKind::Interrupted => {}
                Err(error) => return Err(error),
            }
        }
        self.stream.flush()
    }
}

#[cfg(test)]
mod tests {
    use super::*;
    use crate::admission::Admission;
    use crate::cluster::Cluster;
    use crate::configuration::Configuration;
    use crate::keyspace::{Keyspace, Rule};
    use crate::stats::Stats;
    use mio::net::TcpStream;
    use std::net::TcpListener;

    fn executor() -> Executor {
        let rule = Rule::Hash(1);
        let keyspace = Keyspace::new(&rule).unwrap();
        let cluster = Cluster::in_memory(Configuration::new(rule)).unwrap();
        let cluster = Arc::new(cluster);
        let admission = Admission::new(cluster.clone(), Arc::new(Stats::new(1))).unwrap();
        Executor::new(cluster, admission, keyspace)
    }

    #[test]
    fn a_refused_command_leaves_no_room() {
        let listener = TcpListener::bind("127.0.0.1:0").unwrap();
        let socket = TcpStream::connect(listener.local_addr().unwrap()).unwrap();
        let arrived = Arrived {
            stream: Stream::Plain(socket),
            from: listener.local_addr().unwrap(),
            since: Instant::now(),
            id: 1,
        };
        let mut connection = Connection::new(arrived, Session::new(1, true));
        connection.input = format!("SET a {}\r\n", "b".repeat(60_000)).into();
        connection.refuse(Wait::Paused(0), &mut executor());
        assert!(connection.replies.unsent().starts_with(b"-SHARDPAUSED"));
        assert_eq!(connection.input.capacity(), 0);
    }
}
