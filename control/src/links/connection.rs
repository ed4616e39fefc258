//! Connections of links whose bytes a program moves itself, without a thread or a socket. So links can be simulated.
use super::connection_slot::ConnectionSlot;
use super::handshake::{Greeter, Heard, Welcomer};
use super::inbound::{InboundReader, InboundState, InboundWriter};
use super::link::Link;
use super::links_inner::LinksInner;
use super::outbound::{OutboundReader, OutboundWriter};
use super::pending_handshakes::PendingHandshake;
use super::write_buffer::WriteBuffer;
use super::{Closer, Host, PATIENCE};
use std::fmt;
use std::io::{self, ErrorKind, Read, Write};
use std::sync::Arc;
use std::time::Instant;

/// How many bytes of a greeting are read at once.
const ROOM: usize = 512;

/// A connection that a link needs. The caller must report that it was made, or that it failed.
pub struct Dial<H: Host> {
    link: Arc<Link<H>>,
    inner: Arc<LinksInner<H>>,
    /// The version in which the process is greeted.
    version: u8,
}

impl<H: Host> Dial<H> {
    /// Begins to make the connection that this link needs.
    pub(super) fn begin(link: Arc<Link<H>>, inner: Arc<LinksInner<H>>) -> Dial<H> {
        let version = link.begin();
        Dial {
            link,
            inner,
            version,
        }
    }

    /// Returns the address of the server's process.
    ///
    /// # Errors
    ///
    /// If it isn't there.
    pub fn address(&self) -> io::Result<String> {
        self.inner.address_of(self.link.server)
    }

    /// Returns the connection, which begins with a greeting. This closer ends it.
    pub fn made(self, closer: Arc<dyn Closer>) -> Connection<H> {
        let Dial {
            link,
            inner,
            version,
        } = self;
        let (greeter, hello) = Greeter::new(&inner.terms(), link.server, version);
        let (said, now) = (WriteBuffer::of(hello), inner.now());
        Connection::new(inner, closer, said, Stage::Greeting(link, greeter, now))
    }

    /// Notes that the process couldn't be reached, and why.
    pub fn failed(self, why: &io::Error) {
        self.link.note_unreached(why, &self.inner);
    }
}

/// One side of a connection between two processes, as a state machine on bytes: the caller gives it the bytes that
/// came, and takes the bytes to send.
///
/// After any error except `WouldBlock`, the caller must end the connection with [`Connection::end`].
pub struct Connection<H: Host> {
    inner: Arc<LinksInner<H>>,
    closer: Arc<dyn Closer>,
    /// The bytes to send before anything else.
    said: WriteBuffer,
    stage: Stage<H>,
    /// When both sides must know each other, or when the other side must have taken some bytes.
    deadline: Option<Instant>,
}

enum Stage<H: Host> {
    /// This side greets the process, since this moment.
    Greeting(Arc<Link<H>>, Greeter, Instant),
    /// This side sends requests.
    Asking(Arc<Link<H>>, OutboundReader<H>, OutboundWriter<H>),
    /// The other side must greet.
    Welcoming {
        welcomer: Welcomer,
        _handshake: PendingHandshake,
    },
    /// This side answers the process.
    Answering(InboundReader<H>, InboundWriter),
    /// At most, the other side is told why the connection ends.
    Rejected(io::Error),
}

impl<H: Host> Connection<H> {
    fn new(
        inner: Arc<LinksInner<H>>,
        closer: Arc<dyn Closer>,
        said: WriteBuffer,
        stage: Stage<H>,
    ) -> Connection<H> {
        let deadline = Some(inner.now() + PATIENCE);
        Connection {
            inner,
            closer,
            said,
            stage,
            deadline,
        }
    }

    /// Returns the connection of a process that connected, if there is room for it. This closer ends the connection.
    pub(super) fn accepted(
        inner: Arc<LinksInner<H>>,
        closer: Arc<dyn Closer>,
    ) -> Option<Connection<H>> {
        let handshake = inner.handshakes.take(closer.clone())?;
        let stage = Stage::Welcoming {
            welcomer: Welcomer::default(),
            _handshake: handshake,
        };
        Some(Connection::new(
            inner,
            closer,
            WriteBuffer::default(),
            stage,
        ))
    }

    /// Reads once, unless it is held up, and processes the bytes.
    ///
    /// # Errors
    ///
    /// If the other side has ended the connection or sends something invalid; and the reader's errors.
    pub fn read(&mut self, reader: &mut dyn Read) -> io::Result<()> {
        match &mut self.stage {
            Stage::Greeting(link, greeter, begun) => {
                let mut room = [0; ROOM];
                let count = some(reader.read(&mut room)?)?;
                if let Some(identity) = greeter.receive(&room[..count])? {
                    let round_trip = self.inner.now().saturating_duration_since(*begun);
                    link.note_reached(identity, self.closer.clone(), round_trip);
                    let (link, inner) = (link.clone(), self.inner.clone());
                    let outbound = OutboundReader::new(link.clone(), inner.clone());
                    let asking = OutboundWriter::new(link.clone(), inner);
                    self.stage = Stage::Asking(link, outbound, asking);
                    self.deadline = None;
                }
                Ok(())
            }
            Stage::Asking(_, outbound, _) => outbound.read(reader),
            Stage::Welcoming { welcomer, .. } => {
                let mut room = [0; ROOM];
                let (count, inner) = (some(reader.read(&mut room)?)?, &self.inner);
                let slot = || ConnectionSlot::take(inner);
                let heard = welcomer.receive(&room[..count], &inner.terms(), slot);
                self.welcome(heard)
            }
            Stage::Answering(inbound, _) => match inbound.read(reader)? {
                InboundState::Reads | InboundState::HeldUp => Ok(()),
                InboundState::Over => Err(ErrorKind::UnexpectedEof.into()),
            },
            Stage::Rejected(_) => Ok(()),
        }
    }

    fn welcome(&mut self, heard: Heard<ConnectionSlot<H>>) -> io::Result<()> {
        match heard {
            Heard::Nobody => {}
            Heard::Welcome(identity, slot, welcome) => {
                let inner = self.inner.clone();
                let (inbound, answers) = InboundReader::new(inner, identity, slot, &self.closer)?;
                self.said = WriteBuffer::of(welcome);
                self.stage = Stage::Answering(inbound, answers);
                self.deadline = None;
            }
            Heard::Rejected(told, error) => {
                self.said = WriteBuffer::of(told.unwrap_or_default());
                self.stage = Stage::Rejected(error);
            }
        }
        Ok(())
    }

    /// Writes the bytes that are ready.
    ///
    /// # Errors
    ///
    /// The writer's errors; and why the other side is rejected, once it was told. After `WouldBlock` the rest may be
    /// written later.
    pub fn write(&mut self, writer: &mut dyn Write) -> io::Result<()> {
        let mut counted = CountedWriter { writer, count: 0 };
        let written = self.write_all(&mut counted);
        let is_stalled = matches!(&written, Err(it) if it.kind() == ErrorKind::WouldBlock);
        let is_known = matches!(self.stage, Stage::Asking(..) | Stage::Answering(..));
        if is_known && (counted.count > 0 || !is_stalled) {
            self.deadline = None;
        }
        if is_stalled {
            self.deadline
                .get_or_insert_with(|| self.inner.now() + PATIENCE);
        }
        written
    }

    fn write_all(&mut self, writer: &mut dyn Write) -> io::Result<()> {
        self.said.send(writer)?;
        match &mut self.stage {
            Stage::Greeting(..) | Stage::Welcoming { .. } => Ok(()),
            Stage::Asking(_, _, asking) => asking.write(writer),
            Stage::Answering(_, answers) => answers.write(writer),
            Stage::Rejected(error) => Err(io::Error::new(error.kind(), error.to_string())),
        }
    }

    /// Returns whether there is something to write.
    pub fn has_more(&self) -> bool {
        let is_said = self.said.is_written();
        !is_said
            || match &self.stage {
                Stage::Greeting(..) | Stage::Welcoming { .. } => false,
                Stage::Asking(_, _, asking) => asking.has_more(),
                Stage::Answering(_, answers) => answers.has_more(),
                Stage::Rejected(_) => true,
            }
    }

    /// Returns when [`Connection::tick`] is due.
    pub fn wakes(&self) -> Option<Instant> {
        self.deadline
    }

    /// Checks the time.
    ///
    /// # Errors
    ///
    /// `TimedOut` if the other side takes too long to greet, or to take what is sent.
    pub fn tick(&self) -> io::Result<()> {
        match self.deadline.is_some_and(|it| it <= self.inner.now()) {
            true => Err(ErrorKind::TimedOut.into()),
            false => Ok(()),
        }
    }

    /// Notes that the connection has ended, and why. Its requests are lost, or were never sent.
    pub fn end(self, error: &io::Error) {
        let why = error.to_string();
        match self.stage {
            Stage::Greeting(link, ..) => link.note_unreached(error, &self.inner),
            Stage::Asking(link, outbound, asking) => {
                asking.end(&why);
                outbound.end(&why);
                link.end_connection();
            }
            Stage::Answering(inbound, _) => inbound.outbox().end(),
            Stage::Welcoming { .. } | Stage::Rejected(_) => {}
        }
    }
}

/// Returns the number of bytes that came. If it is 0, the connection has ended.
fn some(count: usize) -> io::Result<usize> {
    match count {
        0 => Err(ErrorKind::UnexpectedEof.into()),
        count => Ok(count),
    }
}

/// A writer that counts bytes.
struct CountedWriter<'a> {
    writer: &'a mut dyn Write,
    count: usize,
}

impl Write for CountedWriter<'_> {
    fn write(&mut self, bytes: &[u8]) -> io::Result<usize> {
        let count = self.writer.write(bytes)?;
        self.count += count;
        Ok(count)
    }

    fn flush(&mut self) -> io::Result<()> {
        self.writer.flush()
    }
}

impl<H: Host> fmt::Debug for Connection<H> {
    fn fmt(&self, f: &mut fmt::Formatter<'_>) -> fmt::Result {
        f.debug_struct("Connection").finish_non_exhaustive()
    }
}

impl<H: Host> fmt::Debug for Dial<H> {
    fn fmt(&self, f: &mut fmt::Formatter<'_>) -> fmt::Result {
        f.debug_struct("Dial").finish_non_exhaustive()
    }
}

#[cfg(test)]
mod tests {
    use super::super::trial::{links_of, moment, TestCloser, TestDestination, TestHost};
    use super::super::trial::{TestCommand, TestRequest};
    use super::super::Links;
    use super::*;
    use std::sync::atomic::{AtomicU64, Ordering};
    use std::sync::mpsc::Receiver;

    /// The bytes of one direction. At most so many are on their way.
    #[derive(Default)]
    struct TestPipe(Vec<u8>);

    const MOST: usize = 7;

    impl Write for TestPipe {
        fn write(&mut self, bytes: &[u8]) -> io::Result<usize> {
            let count = bytes.len().min(MOST - self.0.len());
            self.0.extend_from_slice(&bytes[..count]);
            match count {
                0 => Err(ErrorKind::WouldBlock.into()),
                count => Ok(count),
            }
        }

        fn flush(&mut self) -> io::Result<()> {
            Ok(())
        }
    }

    impl Read for TestPipe {
        fn read(&mut self, room: &mut [u8]) -> io::Result<usize> {
            if self.0.is_empty() {
                return Err(ErrorKind::WouldBlock.into());
            }
            let count = room.len().min(self.0.len());
            let taken = self.0.drain(..count);
            room.iter_mut().zip(taken).for_each(|it| *it.0 = it.1);
            Ok(count)
        }
    }

    /// The processes of servers 1 and 2, a connection from the first one to the second one, and the time.
    struct Pair {
        time: Arc<AtomicU64>,
        first: Links<TestHost>,
        second: Links<TestHost>,
        caller: Option<Connection<TestHost>>,
        called: Option<Connection<TestHost>>,
        pipes: [TestPipe; 2],
    }

    impl Pair {
        fn new() -> Pair {
            let time = Arc::default();
            let [first, second] = [1, 2].map(|it| links_of(it, &time));
            second.begin_without_threads(2, TestHost);
            Pair {
                time,
                first,
                second,
                caller: None,
                called: None,
                pipes: Default::default(),
            }
        }

        /// Makes the first process send these requests to the second one. Returns the receiver of their ends.
        fn asked(&self, names: &[&'static str]) -> Receiver<String> {
            let (requests, told) = TestRequest::each(names);
            let destination = TestDestination(moment(self.time.load(Ordering::Relaxed)));
            self.first.forward(&destination, requests);
            told
        }

        /// Makes the connection that the first process needs.
        fn connect(&mut self) {
            let mut dials = self.first.dials();
            assert_eq!(dials.len(), 1);
            assert!(self.first.dials().is_empty());
            let closers = [(); 2].map(|()| Arc::new(TestCloser::default()));
            let [caller, called] = closers;
            self.caller = dials.pop().map(|it| it.made(caller));
            self.called = self.second.accept(called);
        }

        /// Moves all bytes, seven at a time. Returns how either side ended, if it did.
        fn move_all(&mut self) -> [io::Result<()>; 2] {
            let Pair {
                caller: Some(caller),
                called: Some(called),
                pipes: [there, back],
                ..
            } = self
            else {
                panic!("nobody is connected");
            };
            let ended = |moved: io::Result<()>| match moved {
                Err(error) if error.kind() == ErrorKind::WouldBlock => Ok(()),
                other => other,
            };
            let mut ends = [Ok(()), Ok(())];
            for _ in 0..99 {
                let first = ended(caller.write(there)).and_then(|()| ended(caller.read(back)));
                let second = ended(called.read(there)).and_then(|()| ended(called.write(back)));
                ends = [first, second];
                if ends.iter().any(Result::is_err) {
                    break;
                }
            }
            ends
        }

        fn pass(&self, milliseconds: u64) {
            self.time.fetch_add(milliseconds, Ordering::Relaxed);
        }
    }

    #[test]
    fn requests_and_answers_go_as_bytes() {
        let mut pair = Pair::new();
        let told = pair.asked(&["a", "b"]);
        pair.connect();
        assert!(pair.move_all().iter().all(Result::is_ok));
        assert_eq!(told.try_iter().collect::<Vec<_>>(), ["a: a", "b: b"]);
        let counts = (pair.first.counts().sent(), pair.second.counts().came());
        assert_eq!(counts, (2, 2));
        assert_eq!(
            (pair.first.connections(), pair.second.connections()),
            ((1, 0), (0, 1))
        );
        let sides = [&pair.caller, &pair.called];
        let is_quiet = |it: &Connection<TestHost>| !it.has_more() && it.wakes().is_none();
        assert!(sides.into_iter().flatten().all(is_quiet));
    }

    #[test]
    fn what_was_sent_is_lost_and_what_was_not_goes_on() {
        let mut pair = Pair::new();
        let sent = pair.asked(&["write"]);
        pair.connect();
        // The greeting comes through, and the request is on its way.
        let caller = pair.caller.as_mut().unwrap();
        let mut bytes = Vec::new();
        caller.write(&mut bytes).unwrap();
        let called = pair.called.as_mut().unwrap();
        called.read(&mut &*bytes).unwrap();
        let mut welcome = Vec::new();
        called.write(&mut welcome).unwrap();
        caller.read(&mut &*welcome).unwrap();
        caller.write(&mut Vec::new()).unwrap();
        let unsent = pair.asked(&["later"]);
        pair.caller
            .take()
            .unwrap()
            .end(&ErrorKind::ConnectionReset.into());
        let told = sent.try_recv().unwrap();
        assert!(
            told.starts_with("write: lost: the process of server 2 is gone"),
            "{told}"
        );
        assert!(unsent.try_recv().is_err());
        pair.connect();
        assert!(pair.move_all().iter().all(Result::is_ok));
        assert_eq!(unsent.try_recv().unwrap(), "later: later");
    }

    #[test]
    fn who_says_nothing_is_waited_for_for_two_seconds() {
        let mut pair = Pair::new();
        let _told = pair.asked(&["a"]);
        pair.connect();
        let sides = [pair.caller.take().unwrap(), pair.called.take().unwrap()];
        pair.pass(1_999);
        for side in &sides {
            assert_eq!(side.wakes(), Some(moment(2_000)));
            assert!(side.tick().is_ok());
        }
        pair.pass(1);
        for side in sides {
            let error = side.tick().unwrap_err();
            assert_eq!(error.kind(), ErrorKind::TimedOut);
            side.end(&error);
        }
    }

    #[test]
    fn who_takes_nothing_is_waited_for_for_two_seconds() {
        let mut pair = Pair::new();
        let _told = pair.asked(&["a"]);
        pair.connect();
        assert!(pair.move_all().iter().all(Result::is_ok));
        let _told = pair.asked(&["more"]);
        pair.pass(5_000);
        let caller = pair.caller.as_mut().unwrap();
        let stalled = caller.write(&mut pair.pipes[0]).unwrap_err();
        assert_eq!(stalled.kind(), ErrorKind::WouldBlock);
        // It took some of it, and the time begins again.
        assert_eq!(caller.wakes(), Some(moment(7_000)));
        pair.time.store(6_999, Ordering::Relaxed);
        assert!(caller.tick().is_ok());
        assert!(caller.write(&mut pair.pipes[0]).is_err());
        pair.time.store(7_000, Ordering::Relaxed);
        assert_eq!(caller.tick().unwrap_err().kind(), ErrorKind::TimedOut);
    }

    #[test]
    fn one_that_leaves_at_once_tells_what_becomes_of_all_that_it_was_asked() {
        let pair = Pair::new();
        let told = pair.asked(&["a"]);
        let (command, ended) = TestCommand::new();
        pair.first.ask_control(2, command);
        pair.first.leave_at_once();
        assert_eq!(told.try_recv().unwrap(), "a: Stopped");
        let ended = ended.try_recv().unwrap();
        assert_eq!(ended, "unreached: this process ends");
        assert!(pair.first.dials().is_empty());
    }
}
