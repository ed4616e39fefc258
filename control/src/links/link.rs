use super::frame::Frame;
use super::greeting::VERSION;
use super::handshake::older;
use super::link_status::LinkStatus;
use super::links_inner::LinksInner;
use super::outbound_message::OutboundMessage;
use super::read_buffer::ReadBuffer;
use super::write_buffer::WriteBuffer;
use super::{Closer, Host, Identity};
use durkenzo_driver::Live;
use durkenzo_store::Revision;
use std::cmp::Ordering;
use std::collections::{BTreeMap, VecDeque};
use std::io;
use std::sync::{Arc, Condvar, Mutex, MutexGuard, PoisonError};
use std::time::{Duration, Instant};

/// The most bytes that may wait to be sent to a process, and that may be asked of it at the same time.
const MOST_BYTES: usize = 64 << 20;
const MOST_ASKED: usize = 1 << 16;
/// How long a connection goes on to a server that isn't there any more. Its process may end the connection itself, and
/// answer before that.
const LAST: Duration = Duration::from_millis(500);
/// How long a process that couldn't be reached isn't tried again, at first and at most.
const FIRST_PAUSE: Duration = Duration::from_millis(20);
const LAST_PAUSE: Duration = Duration::from_millis(500);
/// How long after a connection failed or broke another one is made although nothing waits to be sent. So whoever
/// watches sees within that time that the process is reached again.
const LOOK: Duration = Duration::from_secs(5);

/// The link to the process of one server: its requests, and its connection. The connection is made when it is needed.
/// It is made again after it broke, or after another process got the server.
///
/// A link doesn't wait. Whoever sends its bytes is woken when there is something to do.
pub(super) struct Link<H: Host> {
    pub(super) server: u16,
    state: Mutex<LinkState<H>>,
    /// Notified when there is something to do.
    pub(super) woken: Condvar,
}

pub(super) struct LinkState<H: Host> {
    /// The messages that weren't sent yet.
    queue: VecDeque<Queued<H>>,
    bytes: usize,
    /// The messages that were sent, or are being sent, and have no outcome, in the order of their numbers.
    asked: BTreeMap<u64, OutboundMessage<H>>,
    last: u64,
    /// The closer of the connection, if there is one, and the number of the process at its other end.
    closer: Option<Arc<dyn Closer>>,
    process: u64,
    /// The version of that process' table of commands.
    table: u16,
    /// How long the process took to greet.
    round_trip: Duration,
    /// Why the server couldn't be reached at the last attempt, if it couldn't.
    unreached: Option<String>,
    /// When a connection is made again that failed or broke, whether something waits to be sent or not.
    look: Option<Instant>,
    /// Until when it isn't tried again, how long the pause after the next failed attempt is, and the version of the
    /// next attempt.
    paused_until: Option<Instant>,
    pause: Duration,
    version: u8,
    /// Since when the server isn't there, if it isn't.
    gone: Option<Instant>,
    /// The revision at which the server joined, as seen last; and as seen when the connection was begun, or its process
    /// was last seen to have the server.
    seen: Revision,
    joined: Revision,
    /// Whether a connection is there, or is being made.
    is_begun: bool,
    is_broken: bool,
    is_over: bool,
}

struct Queued<H: Host> {
    number: u64,
    /// How many bytes it has.
    size: usize,
    outgoing: OutboundMessage<H>,
}

/// The next need of a link.
#[derive(Clone, Copy, Debug, PartialEq, Eq)]
pub(super) enum LinkNeed {
    /// A connection to its server's process.
    Connection,
    /// Nothing before this moment, or before there is a request for it.
    Nothing(Option<Instant>),
    /// Nothing any more.
    End,
}

impl<H: Host> Default for LinkState<H> {
    fn default() -> LinkState<H> {
        LinkState {
            queue: VecDeque::new(),
            bytes: 0,
            asked: BTreeMap::new(),
            last: 0,
            closer: None,
            process: 0,
            table: 0,
            round_trip: Duration::ZERO,
            unreached: None,
            look: None,
            paused_until: None,
            pause: FIRST_PAUSE,
            version: VERSION,
            gone: None,
            seen: Revision::NEVER,
            joined: Revision::NEVER,
            is_begun: false,
            is_broken: false,
            is_over: false,
        }
    }
}

impl<H: Host> LinkState<H> {
    /// Returns the need of the link.
    pub(super) fn need(&self, now: Instant) -> LinkNeed {
        let paused_until = self.paused_until.filter(|it| *it > now);
        match (self.is_over, paused_until) {
            (true, _) => LinkNeed::End,
            _ if self.is_begun => LinkNeed::Nothing(None),
            _ if self.queue.is_empty() => self.need_to_look(now),
            (false, None) => LinkNeed::Connection,
            (false, until) => LinkNeed::Nothing(until),
        }
    }

    /// Returns the need of a link that has nothing to send. A server that isn't there isn't looked for.
    fn need_to_look(&self, now: Instant) -> LinkNeed {
        match self.look {
            Some(at) if at > now => LinkNeed::Nothing(Some(at)),
            Some(_) if self.gone.is_none() => LinkNeed::Connection,
            Some(_) => LinkNeed::Nothing(Some(now + LOOK)),
            None => LinkNeed::Nothing(None),
        }
    }

    /// Returns whether the connection has nothing to send, and goes on.
    pub(super) fn is_idle(&self) -> bool {
        self.queue.is_empty() && self.goes_on()
    }

    /// Returns whether the connection goes on.
    pub(super) fn goes_on(&self) -> bool {
        !self.is_over && !self.is_broken
    }

    /// Ends the connection at once if another process has got the server since, and after a while if none has it.
    fn follow(&mut self, now: Instant, live: Option<&Live>) {
        let Some(live) = live else {
            let gone = *self.gone.get_or_insert(now);
            if gone + LAST <= now {
                self.end();
            }
            return;
        };
        self.gone = None;
        self.seen = live.joined;
        // A process with a smaller number may have lost the server and got it again. Or the connection's process has
        // just got it, and isn't seen yet: then nobody has joined since the connection was begun.
        match live.process.cmp(&self.process) {
            Ordering::Equal => self.joined = live.joined,
            Ordering::Less if live.joined <= self.joined => {}
            Ordering::Less | Ordering::Greater => self.end(),
        }
    }

    /// Ends the connection, if there is one.
    fn end(&self) {
        self.closer.iter().for_each(|it| it.end());
    }

    /// Takes the messages that have waited too long to be sent. No process has seen them.
    fn take_due(&mut self, now: Instant) -> Vec<OutboundMessage<H>> {
        if !self.queue.iter().any(|it| it.outgoing.is_due(now)) {
            return Vec::new();
        }
        let queue = std::mem::take(&mut self.queue).into_iter();
        let (due, queue): (Vec<_>, Vec<_>) = queue.partition(|it| it.outgoing.is_due(now));
        self.queue = queue.into();
        self.bytes -= due.iter().map(|it| it.size).sum::<usize>();
        due.into_iter().map(|it| it.outgoing).collect()
    }

    /// Takes the messages that were sent and aren't answered in time.
    fn take_late(&mut self, now: Instant) -> Vec<OutboundMessage<H>> {
        let asked = self.asked.iter();
        let late = asked.filter(|it| it.1.is_late(now)).map(|it| *it.0);
        let late: Vec<u64> = late.collect();
        let late = late.iter().filter_map(|it| self.asked.remove(it));
        late.collect()
    }
}

/// The messages that a link gives up, because they took too long.
pub(super) struct GivenUp<H: Host> {
    /// The messages that weren't sent, and why.
    pub(super) unsent: Vec<OutboundMessage<H>>,
    pub(super) why: String,
    /// The messages that were sent, and aren't answered.
    pub(super) unanswered: Vec<OutboundMessage<H>>,
}

impl<H: Host> Link<H> {
    /// Returns the link to this server.
    pub(super) fn new(server: u16) -> Link<H> {
        Link {
            server,
            state: Mutex::default(),
            woken: Condvar::new(),
        }
    }

    /// Returns whether something waits to be sent.
    pub(super) fn has_more(&self) -> bool {
        !self.state().queue.is_empty()
    }

    /// Returns whether its process is reached, and how long the process took to greet.
    pub(super) fn status(&self) -> LinkStatus {
        let state = self.state();
        let is_reached = state.closer.is_some();
        LinkStatus {
            is_reached,
            round_trip: is_reached.then_some(state.round_trip),
        }
    }

    /// Sends a message to the server's process.
    ///
    /// # Errors
    ///
    /// The message, and why it isn't sent: too many bytes wait, or it is too large.
    pub(super) fn ask(&self, outgoing: OutboundMessage<H>) -> Result<(), Box<NotSent<H>>> {
        let mut state = self.state();
        if state.is_over {
            return Err(NotSent::new(outgoing, "this process ends".to_owned()));
        }
        if state.bytes > MOST_BYTES || state.queue.len() + state.asked.len() >= MOST_ASKED {
            return Err(NotSent::new(outgoing, "too much waits for it".to_owned()));
        }
        if !outgoing.fits() {
            let why = "it is too large to be sent".to_owned();
            return Err(NotSent::new(outgoing, why));
        }
        // If something waits to be sent already, its thread was woken for that.
        let is_first = state.queue.is_empty();
        state.last += 1;
        let (number, size) = (state.last, outgoing.size());
        state.bytes += size;
        state.queue.push_back(Queued {
            number,
            size,
            outgoing,
        });
        drop(state);
        if is_first {
            self.woken.notify_all();
        }
        Ok(())
    }

    /// Ends the connection if the server, as it is seen now, hasn't been there for a while, or has another process.
    /// Returns the messages that weren't sent or answered in time, which are given up.
    pub(super) fn tick(&self, now: Instant, live: Option<&Live>) -> GivenUp<H> {
        let mut state = self.state();
        state.follow(now, live);
        let unsent = state.take_due(now);
        let why = match &state.unreached {
            Some(why) if !unsent.is_empty() => why.clone(),
            _ => "it isn't reached in time".to_owned(),
        };
        let unanswered = state.take_late(now);
        GivenUp {
            unsent,
            why,
            unanswered,
        }
    }

    /// Ends the connection. The outcomes of sent messages aren't told.
    pub(super) fn cut(&self) {
        self.state().end();
    }

    /// Ends it for good.
    pub(super) fn stop(&self) {
        let mut state = self.state();
        state.is_over = true;
        state.end();
        drop(state);
        self.woken.notify_all();
    }

    pub(super) fn state(&self) -> MutexGuard<'_, LinkState<H>> {
        self.state.lock().unwrap_or_else(PoisonError::into_inner)
    }

    /// Begins to make a connection. Returns the version in which the process is greeted.
    pub(super) fn begin(&self) -> u8 {
        let mut state = self.state();
        state.is_begun = true;
        state.joined = state.seen;
        state.version
    }

    /// Notes that the process was reached, its identity, and how long it took to greet. This closer ends the
    /// connection.
    pub(super) fn note_reached(
        &self,
        identity: Identity,
        closer: Arc<dyn Closer>,
        round_trip: Duration,
    ) {
        let mut state = self.state();
        state.closer = Some(closer);
        state.process = identity.process;
        state.table = identity.table;
        state.round_trip = round_trip;
        state.unreached = None;
        state.look = None;
        state.is_broken = false;
        state.pause = FIRST_PAUSE;
        state.version = VERSION;
    }

    /// Notes that no connection could be made, and why. If the process speaks an older version, it is greeted in that
    /// version at once. Otherwise waiting messages are given back, and the process isn't tried again for a while.
    pub(super) fn note_unreached(&self, error: &io::Error, inner: &LinksInner<H>) {
        let (mut state, now) = (self.state(), inner.now());
        state.is_begun = false;
        state.closer = None;
        if let Some(version) = older(error).filter(|it| *it < state.version) {
            state.version = version;
            return;
        }
        let why = error.to_string();
        tracing::debug!(server = self.server, why, "a process isn't reached");
        state.version = VERSION;
        state.unreached = Some(why.clone());
        state.look = Some(now + LOOK);
        state.paused_until = Some(now + state.pause);
        state.pause = (2 * state.pause).min(LAST_PAUSE);
        drop(state);
        self.give_back_all(&why, inner);
    }

    /// Adds the frames to send next. Returns the requests that aren't sent, because the process doesn't know them.
    pub(super) fn take_frames(&self, now: Instant, buffer: &mut WriteBuffer) -> Vec<H::Request> {
        let (mut state, mut unknown) = (self.state(), Vec::new());
        if !state.goes_on() {
            return unknown;
        }
        while let Some(queued) = state.queue.pop_front() {
            let (number, mut outgoing) = (queued.number, queued.outgoing);
            state.bytes -= queued.size;
            unknown.extend(outgoing.take_unknown(state.table));
            // Their clients may have left while the process couldn't be reached.
            if !outgoing.keep_awaited() {
                continue;
            }
            buffer.add(number, |it| outgoing.write(number, now, it));
            state.asked.insert(number, outgoing);
            if buffer.is_full() {
                break;
            }
        }
        unknown
    }

    /// Processes the complete frames that came.
    ///
    /// # Errors
    ///
    /// If one isn't an outcome. The connection ends then.
    pub(super) fn take_outcomes(
        &self,
        buffer: &mut ReadBuffer,
        inner: &LinksInner<H>,
    ) -> io::Result<()> {
        while let Some((number, frame)) = buffer.take().map_err(io::Error::other)? {
            let Frame::Outcome(place, outcome) = frame else {
                return Err(io::Error::other("it asks where it is to answer"));
            };
            // Nobody waits for messages that were given up meanwhile.
            let Some(outgoing) = self.state().asked.remove(&number) else {
                continue;
            };
            match outgoing.take_outcome(place, outcome) {
                Ok(outgoing) => drop(self.state().asked.insert(number, outgoing)),
                Err(batch) => batch.into_iter().for_each(|it| inner.go_on(it, None)),
            }
        }
        Ok(())
    }

    /// Notes that the connection broke: no outcome of a sent message will come.
    pub(super) fn lose_all(&self, why: &str, inner: &LinksInner<H>) {
        let mut state = self.state();
        state.is_broken = true;
        state.closer = None;
        state.look = Some(inner.now() + LOOK);
        let asked = std::mem::take(&mut state.asked);
        drop(state);
        self.woken.notify_all();
        let why = format!("the process of server {} is gone: {why}", self.server);
        for batch in asked.into_values().filter_map(|it| it.lost(&why)) {
            inner.go_on(batch, Some(&why));
        }
    }

    /// Notes that the connection is over, and another one may be made.
    pub(super) fn end_connection(&self) {
        self.state().is_begun = false;
    }

    /// Gives back the messages with these numbers, because they weren't sent.
    pub(super) fn give_back(&self, numbers: &[u64], why: &str, inner: &LinksInner<H>) {
        let mut state = self.state();
        let unsent = numbers.iter().filter_map(|it| state.asked.remove(it));
        let unsent: Vec<_> = unsent.collect();
        drop(state);
        let batches = unsent.into_iter().filter_map(|it| it.unsent(why));
        batches.for_each(|it| inner.go_on(it, Some(why)));
    }

    /// Gives back all waiting messages, because they weren't sent.
    pub(super) fn give_back_all(&self, why: &str, inner: &LinksInner<H>) {
        let mut state = self.state();
        state.bytes = 0;
        let queue = std::mem::take(&mut state.queue);
        drop(state);
        let batches = queue.into_iter().filter_map(|it| it.outgoing.unsent(why));
        batches.for_each(|it| inner.go_on(it, Some(why)));
    }
}

/// A message that isn't sent, and why.
pub(super) struct NotSent<H: Host> {
    pub(super) outgoing: OutboundMessage<H>,
    pub(super) why: String,
}

impl<H: Host> NotSent<H> {
    pub(super) fn new(outgoing: OutboundMessage<H>, why: String) -> Box<NotSent<H>> {
        Box::new(NotSent { outgoing, why })
    }
}

#[cfg(test)]
mod tests {
    use super::super::forwarded_batch::ForwardedBatch;
    use super::super::trial::{links, links_of, moment, TestCloser, TestCommand, TestHost};
    use super::super::trial::{TestDestination, TestReason, TestRequest};
    use super::super::{ForwardedRequest, WireFault};
    use super::*;
    use durkenzo_driver::Addresses;
    use std::sync::atomic::Ordering::Relaxed;
    use std::sync::mpsc::Receiver;

    const WAIT: Duration = Duration::from_secs(1);

    /// Returns a link without a thread.
    fn idle() -> Link<TestHost> {
        Link::new(2)
    }

    /// Makes the link send a command. Returns the receiver of its end.
    fn asked(link: &Link<TestHost>) -> Receiver<String> {
        let (command, told) = TestCommand::new();
        let command = OutboundMessage::command(command, moment(0));
        assert!(link.ask(command).is_ok());
        told
    }

    /// Makes the link send requests, each in its own frame.
    fn forwarded(link: &Link<TestHost>, requests: Vec<TestRequest>) {
        for request in requests {
            let batch = ForwardedBatch::new(TestDestination(moment(0)), vec![request]);
            let requests = OutboundMessage::requests(batch, WAIT, moment(0));
            assert!(link.ask(requests).is_ok());
        }
    }

    /// Returns the numbers of the frames that are sent next, and the requests that aren't sent.
    fn sent(link: &Link<TestHost>) -> (Vec<u64>, Vec<TestRequest>) {
        let mut buffer = WriteBuffer::default();
        let unknown = link.take_frames(moment(0), &mut buffer);
        let (mut bytes, mut numbers, mut at) = (Vec::new(), Vec::new(), 0);
        buffer.send(&mut bytes).unwrap();
        while let Some((number, _, end)) = Frame::<TestReason>::read(&bytes[at..]).unwrap() {
            numbers.push(number);
            at += end;
        }
        assert_eq!(at, bytes.len());
        (numbers, unknown)
    }

    #[test]
    fn what_waits_too_long_to_be_sent_is_given_up_as_unsent() {
        let link = idle();
        let _sent = asked(&link);
        assert_eq!(sent(&link).0, [1]);
        let waits = asked(&link);
        assert!(link.tick(moment(0), Some(&joined(1, 1))).unsent.is_empty());
        link.state().unreached = Some("its secret is another one".to_owned());
        let given_up = link.tick(moment(1_000), Some(&joined(1, 1)));
        assert_eq!((given_up.unsent.len(), given_up.unanswered.len()), (1, 0));
        let state = link.state();
        assert_eq!((state.bytes, state.asked.len()), (0, 1));
        drop(state);
        let unsent = given_up.unsent.into_iter();
        unsent.for_each(|it| drop(it.unsent(&given_up.why)));
        let told = waits.try_recv().unwrap();
        assert_eq!(told, "unreached: its secret is another one");
    }

    #[test]
    fn what_the_process_does_not_know_is_refused_and_not_sent() {
        let link = idle();
        link.state().table = 1;
        let (mut requests, told) = TestRequest::each(&["known", "unknown"]);
        requests[1].table = 2;
        forwarded(&link, requests);
        let (numbers, unknown) = sent(&link);
        assert_eq!((numbers, unknown.len()), (vec![1], 1));
        unknown.into_iter().for_each(|it| it.refuse_unknown(2));
        assert_eq!(told.try_iter().collect::<Vec<_>>(), ["unknown: unknown 2"]);
        assert_eq!(link.state().bytes, 0);
    }

    #[test]
    fn what_nobody_awaits_any_more_is_not_sent() {
        let link = idle();
        link.state().table = 1;
        let (mut requests, _told) = TestRequest::each(&["left", "waits"]);
        requests[0].is_awaited = false;
        forwarded(&link, requests);
        assert_eq!(sent(&link).0, [2]);
        let state = link.state();
        assert_eq!((state.bytes, state.asked.len()), (0, 1));
    }

    #[test]
    fn what_is_lost_goes_on_in_the_order_in_which_it_was_asked() {
        let names = ["read", "again", "again", "read", "again", "read", "read"];
        let (link, time) = (idle(), Arc::default());
        let links = links_of(1, &time);
        link.state().table = 1;
        let (requests, told) = TestRequest::each(&names);
        forwarded(&link, requests);
        assert_eq!(sent(&link).0, [1, 2, 3, 4, 5, 6, 7]);
        link.lose_all("it is gone", &links.inner);
        assert!(told.try_recv().is_err());
        time.store(30, Relaxed);
        // There is no host, so each is refused when it goes on.
        links.tick();
        let told: Vec<_> = told.try_iter().collect();
        let refused = names.map(|it| format!("{it}: unreached 2: this process ends"));
        assert_eq!(told, refused);
    }

    /// Returns a link to process 7 of the server, and the closer of its connection.
    fn connected() -> (Link<TestHost>, Arc<TestCloser>) {
        let (link, closer) = (idle(), Arc::new(TestCloser::default()));
        link.state().process = 7;
        link.state().closer = Some(closer.clone());
        (link, closer)
    }

    /// Returns the server with this process, which joined at that revision.
    fn joined(process: u64, joined: u64) -> Live {
        Live {
            process,
            followed: Revision::NEVER,
            joined: Revision(joined),
            addresses: Addresses::default(),
        }
    }

    #[test]
    fn a_connection_ends_once_another_process_has_the_server() {
        let (link, closer) = connected();
        // The view of others may be out of date compared with the process that a link has reached.
        for live in [joined(7, 20), joined(6, 10)] {
            link.tick(moment(0), Some(&live));
            assert!(!closer.is_ended());
        }
        link.tick(moment(0), Some(&joined(8, 30)));
        assert!(closer.is_ended());
    }

    #[test]
    fn a_connection_ends_once_an_earlier_process_has_the_server_again() {
        // Before the connection is made, process 6 or 7 is seen. Process 7 is reached, and may be seen later.
        for (before, after) in [(6, None), (6, Some(7)), (7, None), (7, Some(7))] {
            let (link, closer) = (idle(), Arc::new(TestCloser::default()));
            let tick = |process, at| drop(link.tick(moment(0), Some(&joined(process, at))));
            tick(before, 10);
            link.begin();
            link.note_reached(identity_of(7), closer.clone(), Duration::ZERO);
            tick(before, 10);
            after.into_iter().for_each(|it| tick(it, 20));
            assert!(!closer.is_ended());
            tick(6, 30);
            assert!(closer.is_ended());
        }
    }

    #[test]
    fn an_earlier_process_that_has_the_server_again_is_seen_while_another_is_greeted() {
        let (link, closer) = (idle(), Arc::new(TestCloser::default()));
        link.tick(moment(0), Some(&joined(7, 20)));
        link.begin();
        link.tick(moment(0), Some(&joined(6, 30)));
        link.note_reached(identity_of(7), closer.clone(), Duration::ZERO);
        assert!(!closer.is_ended());
        link.tick(moment(0), Some(&joined(6, 30)));
        assert!(closer.is_ended());
    }

    #[test]
    fn a_connection_goes_on_for_a_while_to_a_server_that_is_gone() {
        let (link, closer) = connected();
        let now = moment(0);
        link.tick(now, None);
        link.tick(now + LAST / 2, None);
        assert!(!closer.is_ended());
        link.tick(now + LAST / 2, Some(&joined(7, 1)));
        link.tick(now + LAST, None);
        assert!(!closer.is_ended());
        link.tick(now + 2 * LAST, None);
        assert!(closer.is_ended());
    }

    #[test]
    fn a_process_that_was_not_reached_is_left_alone_for_longer_each_time() {
        let (link, inner) = (idle(), links());
        let need = |link: &Link<TestHost>, after| link.state().need(inner.now() + after);
        assert_eq!(need(&link, Duration::ZERO), LinkNeed::Nothing(None));
        let (mut pause, mut waits) = (FIRST_PAUSE, Vec::new());
        for _ in 0..9 {
            let told = asked(&link);
            assert_eq!(need(&link, pause), LinkNeed::Connection);
            link.begin();
            assert_eq!(need(&link, pause), LinkNeed::Nothing(None));
            link.note_unreached(&io::Error::other("nobody listens"), &inner);
            assert_eq!(told.try_recv().unwrap(), "unreached: nobody listens");
            waits.push(asked(&link));
            let until = inner.now() + pause;
            assert_eq!(need(&link, pause / 2), LinkNeed::Nothing(Some(until)));
            pause = (2 * pause).min(LAST_PAUSE);
        }
        link.stop();
        assert_eq!(need(&link, pause), LinkNeed::End);
    }

    #[test]
    fn a_connection_that_failed_or_broke_is_made_again_while_the_server_is_there() {
        let time = Arc::default();
        let (link, inner) = (idle(), links_of(1, &time).inner);
        let need = |link: &Link<TestHost>| link.state().need(inner.now());
        let pass = |it: Duration| {
            time.fetch_add(it.as_millis() as u64, Relaxed);
        };
        assert_eq!(link.status(), LinkStatus::default());
        link.begin();
        link.note_unreached(&io::Error::other("nobody listens"), &inner);
        assert_eq!(need(&link), LinkNeed::Nothing(Some(inner.now() + LOOK)));
        pass(LOOK);
        link.tick(inner.now(), None);
        assert_eq!(need(&link), LinkNeed::Nothing(Some(inner.now() + LOOK)));
        link.tick(inner.now(), Some(&joined(7, 1)));
        assert_eq!(need(&link), LinkNeed::Connection);
        link.begin();
        let (identity, closer) = (identity_of(7), Arc::new(TestCloser::default()));
        link.note_reached(identity, closer, Duration::from_millis(3));
        assert_eq!(need(&link), LinkNeed::Nothing(None));
        let status = link.status();
        assert!(status.is_reached && status.round_trip == Some(Duration::from_millis(3)));
        link.lose_all("it is gone", &inner);
        link.end_connection();
        assert!(!link.status().is_reached);
        pass(LOOK);
        assert_eq!(need(&link), LinkNeed::Connection);
    }

    /// Returns the identity of the process with this number.
    fn identity_of(process: u64) -> Identity {
        Identity {
            server: 2,
            settings: 0,
            process,
            table: 1,
        }
    }

    #[test]
    fn one_of_an_older_version_is_greeted_in_that_at_once() {
        let (link, inner) = (idle(), links());
        let told = asked(&link);
        let refused = io::Error::other(WireFault::Older(1));
        assert_eq!(link.begin(), VERSION);
        link.note_unreached(&refused, &inner);
        assert_eq!(link.state().need(inner.now()), LinkNeed::Connection);
        assert_eq!(link.begin(), 1);
        // No other version is left.
        link.note_unreached(&refused, &inner);
        let why = refused.to_string();
        assert_eq!(told.try_recv().unwrap(), format!("unreached: {why}"));
        assert_eq!(link.begin(), VERSION);
    }
}
