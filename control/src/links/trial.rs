//! A host for tests, whose requests and commands tell their names and how they ended.
use super::links_inner::LinksInner;
use super::*;
use durkenzo_driver::{Addresses, Came};
use durkenzo_store::{Embedded, Revision};
use std::sync::atomic::{AtomicBool, AtomicU64};
use std::sync::mpsc::{channel, Receiver, Sender};
use std::sync::OnceLock;
use std::time::Instant;

/// Returns the moment so many milliseconds after the beginning of all tests, by a clock that stands still.
pub(super) fn moment(milliseconds: u64) -> Instant {
    static BEGINNING: OnceLock<Instant> = OnceLock::new();
    let beginning = BEGINNING.get_or_init(|| Clock::default().now());
    *beginning + Duration::from_millis(milliseconds)
}
/// A closer without a connection.
#[derive(Default)]
pub(super) struct TestCloser(AtomicBool);

impl TestCloser {
    /// Returns whether the connection was ended.
    pub(super) fn is_ended(&self) -> bool {
        self.0.load(Ordering::Relaxed)
    }
}

impl Closer for TestCloser {
    fn end(&self) {
        self.0.store(true, Ordering::Relaxed);
    }
}

/// Returns the terms of server 2, with this secret.
pub(super) fn terms(secret: &str) -> Terms {
    Terms {
        identity: Identity {
            server: 2,
            settings: 1,
            process: 9,
            table: FIRST_TABLE,
        },
        secret: Secret::of(secret.as_bytes()),
        tls: None,
        admits: Admission::Processes,
    }
}

/// Returns links of this server's process, by a clock with so many milliseconds. Their host isn't there yet.
pub(super) fn links_of(server: u16, milliseconds: &Arc<AtomicU64>) -> Links<TestHost> {
    let addresses = Addresses::default();
    let store = Arc::new(Embedded::in_memory());
    let length = Duration::from_secs(60);
    let (stands, passed) = (Clock::new(|| moment(0)), || Duration::ZERO);
    let joining = Member::join_without_thread(store, server, addresses, length, stands, passed);
    let member = joining.unwrap().wait();
    let mut terms = terms("");
    terms.identity.server = server;
    let milliseconds = milliseconds.clone();
    let clock = Clock::new(move || moment(milliseconds.load(Ordering::Relaxed)));
    let (member, wait) = (Arc::new(member.unwrap()), Duration::from_secs(1));
    Links::without_threads(terms, member, wait, clock)
}

/// Returns the shared state of the links of server 1. Their clock stands still, and their host isn't there yet.
pub(super) fn links() -> Arc<LinksInner<TestHost>> {
    links_of(1, &Arc::default()).inner
}

/// A host that answers nobody.
#[derive(Debug)]
pub(super) struct TestHost;

impl Host for TestHost {
    type Reason = TestReason;
    type Destination = TestDestination;
    type Request = TestRequest;
    type Command = TestCommand;
    type Session = TestSession;

    fn session(&self, _: Identity) -> io::Result<TestSession> {
        Ok(TestSession)
    }

    fn resume(&self, returned: ReturnedRequests<TestHost>) -> Result<(), ReturnedRequests<Self>> {
        Err(returned)
    }
}

/// A session that answers each request with its own bytes.
pub(super) struct TestSession;

impl PeerSession for TestSession {
    type Reason = TestReason;

    fn execute(&mut self, received: ReceivedRequests<'_, TestReason>) {
        let requests = received.requests.into_iter();
        requests.for_each(|(bytes, reply)| reply.answer(bytes));
    }

    fn ask_control(&mut self, _: &[u8], _: ReplySender<TestReason>) -> Result<(), WireFault> {
        Err(WireFault::Words)
    }
}

#[derive(Clone, Debug)]
pub(super) struct TestDestination(pub(super) Instant);

impl Destination for TestDestination {
    fn shard(&self) -> u16 {
        3
    }

    fn server(&self) -> u16 {
        2
    }

    fn came(&self) -> Came {
        Came::HERE
    }

    fn since(&self) -> Instant {
        self.0
    }
}

#[derive(Clone, Debug, PartialEq)]
pub(super) enum TestReason {
    Stopped,
    Moved(Revision),
    Unknown(String),
}

impl Reason for TestReason {
    fn stopped() -> TestReason {
        TestReason::Stopped
    }

    fn moved(revision: Revision) -> TestReason {
        TestReason::Moved(revision)
    }

    fn unknown(why: String) -> TestReason {
        TestReason::Unknown(why)
    }

    fn looks_again(&self) -> Option<Revision> {
        match self {
            TestReason::Stopped => Some(Revision::NEVER),
            TestReason::Moved(revision) => Some(*revision),
            TestReason::Unknown(_) => None,
        }
    }

    fn code(&self) -> u8 {
        match self {
            TestReason::Stopped => 1,
            TestReason::Moved(_) => 2,
            TestReason::Unknown(_) => 3,
        }
    }

    fn write(&self, out: &mut Vec<u8>) {
        match self {
            TestReason::Stopped => {}
            TestReason::Moved(revision) => out.extend(revision.0.to_be_bytes()),
            TestReason::Unknown(why) => put_text(out, why),
        }
    }

    fn read(code: u8, mut details: Fields<'_>) -> Result<TestReason, WireFault> {
        let reason = match code {
            1 => TestReason::Stopped,
            2 => TestReason::Moved(Revision(details.long()?)),
            3 => TestReason::Unknown(details.text()?),
            code => return Err(WireFault::Answer(code)),
        };
        details.end().map(|()| reason)
    }
}

/// A request, which may be done twice if its name is "read" or "again".
#[derive(Debug)]
pub(super) struct TestRequest {
    pub(super) name: &'static str,
    pub(super) table: u16,
    pub(super) is_awaited: bool,
    tell: Sender<String>,
}

impl TestRequest {
    /// Returns requests with these names, and the receiver of their ends.
    pub(super) fn each(names: &[&'static str]) -> (Vec<TestRequest>, Receiver<String>) {
        let (tell, told) = channel();
        let requests = names.iter().map(|name| TestRequest {
            name,
            table: FIRST_TABLE,
            is_awaited: true,
            tell: tell.clone(),
        });
        (requests.collect(), told)
    }

    fn tell(self, end: String) {
        self.tell.send(format!("{}: {end}", self.name)).unwrap();
    }
}

impl ForwardedRequest for TestRequest {
    type Reason = TestReason;

    fn message(&self) -> ForwardedMessage {
        let bytes = self.name.as_bytes().to_vec();
        let table = self.table;
        ForwardedMessage { bytes, table }
    }

    fn is_awaited(&self) -> bool {
        self.is_awaited
    }

    fn answer(self, answer: &[u8]) {
        self.tell(String::from_utf8_lossy(answer).into());
    }

    fn refuse(self, reason: TestReason) {
        self.tell(format!("{reason:?}"));
    }

    fn refuse_unreached(self, server: u16, why: &str) {
        self.tell(format!("unreached {server}: {why}"));
    }

    fn refuse_unknown(self, server: u16) {
        self.tell(format!("unknown {server}"));
    }

    fn after_loss(self, why: &str) -> Option<TestRequest> {
        if ["read", "again"].contains(&self.name) {
            return Some(self);
        }
        self.tell(format!("lost: {why}"));
        None
    }
}

/// A command.
#[derive(Debug)]
pub(super) struct TestCommand(Sender<String>);

impl TestCommand {
    /// Returns a command, and the receiver of its end.
    pub(super) fn new() -> (TestCommand, Receiver<String>) {
        let (tell, told) = channel();
        (TestCommand(tell), told)
    }

    fn tell(self, end: String) {
        self.0.send(end).unwrap();
    }
}

impl ForwardedCommand for TestCommand {
    fn bytes(&self) -> Vec<u8> {
        b"command".to_vec()
    }

    fn answer(self, answer: &[u8]) {
        self.tell(String::from_utf8_lossy(answer).into());
    }

    fn refuse(self) {
        self.tell("refused".to_owned());
    }

    fn refuse_unreached(self, why: &str) {
        self.tell(format!("unreached: {why}"));
    }

    fn lose(self, why: &str) {
        self.tell(format!("lost: {why}"));
    }
}
