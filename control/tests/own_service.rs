//! Two processes of a service, whose requests and answers only that service reads: it shouts texts.
use durkenzo_control::links::{
    put_text, Admission, Destination, Fields, ForwardedCommand, ForwardedMessage, ForwardedRequest,
    Host, Identity, Links, PeerSession, Reason, ReceivedRequests, ReplySender, ReturnedRequests,
    Terms, WireFault, FIRST_TABLE,
};
use durkenzo_driver::{Addresses, Came, Member};
use durkenzo_store::{Embedded, Revision, Store};
use std::io;
use std::net::TcpListener;
use std::sync::mpsc::{channel, Receiver, Sender};
use std::sync::Arc;
use std::time::{Duration, Instant};

/// How long a request waits, and how long a lease is. It is longer than a busy machine stops a process.
const WAIT: Duration = Duration::from_secs(10);
const LEASE: Duration = Duration::from_secs(60);

/// Why a text isn't shouted.
#[derive(Clone, Debug, PartialEq)]
enum NotShouted {
    Stopped,
    Moved(Revision),
    Unknown(String),
    Empty,
}

impl Reason for NotShouted {
    fn stopped() -> NotShouted {
        NotShouted::Stopped
    }

    fn moved(revision: Revision) -> NotShouted {
        NotShouted::Moved(revision)
    }

    fn unknown(why: String) -> NotShouted {
        NotShouted::Unknown(why)
    }

    fn looks_again(&self) -> Option<Revision> {
        match self {
            NotShouted::Stopped => Some(Revision::NEVER),
            NotShouted::Moved(revision) => Some(*revision),
            NotShouted::Unknown(_) | NotShouted::Empty => None,
        }
    }

    fn code(&self) -> u8 {
        match self {
            NotShouted::Stopped => 1,
            NotShouted::Moved(_) => 2,
            NotShouted::Unknown(_) => 3,
            NotShouted::Empty => 4,
        }
    }

    fn write(&self, out: &mut Vec<u8>) {
        match self {
            NotShouted::Stopped | NotShouted::Empty => {}
            NotShouted::Moved(revision) => out.extend(revision.0.to_be_bytes()),
            NotShouted::Unknown(why) => put_text(out, why),
        }
    }

    fn read(code: u8, mut details: Fields<'_>) -> Result<NotShouted, WireFault> {
        let reason = match code {
            1 => NotShouted::Stopped,
            2 => NotShouted::Moved(Revision(details.long()?)),
            3 => NotShouted::Unknown(details.text()?),
            4 => NotShouted::Empty,
            code => return Err(WireFault::Answer(code)),
        };
        details.end().map(|()| reason)
    }
}

/// A shard's server, as this process believes.
#[derive(Clone)]
struct TextDestination {
    server: u16,
    since: Instant,
}

impl Destination for TextDestination {
    fn shard(&self) -> u16 {
        0
    }

    fn server(&self) -> u16 {
        self.server
    }

    fn came(&self) -> Came {
        Came::HERE
    }

    fn since(&self) -> Instant {
        self.since
    }
}

/// A text that a client wants to be shouted, or a command, and the receiver of its end.
struct Text(&'static str, Sender<String>);

impl Text {
    fn tell(self, end: impl Into<String>) {
        self.1.send(end.into()).unwrap();
    }
}

impl ForwardedRequest for Text {
    type Reason = NotShouted;

    fn message(&self) -> ForwardedMessage {
        let bytes = self.0.as_bytes().to_vec();
        let table = FIRST_TABLE;
        ForwardedMessage { bytes, table }
    }

    fn is_awaited(&self) -> bool {
        true
    }

    fn answer(self, answer: &[u8]) {
        self.tell(String::from_utf8_lossy(answer));
    }

    fn refuse(self, reason: NotShouted) {
        self.tell(format!("{reason:?}"));
    }

    fn refuse_unreached(self, server: u16, why: &str) {
        self.tell(format!("server {server}: {why}"));
    }

    fn refuse_unknown(self, _: u16) {
        self.tell("unknown");
    }

    fn after_loss(self, _: &str) -> Option<Text> {
        Some(self)
    }
}

impl ForwardedCommand for Text {
    fn bytes(&self) -> Vec<u8> {
        self.0.as_bytes().to_vec()
    }

    fn answer(self, answer: &[u8]) {
        ForwardedRequest::answer(self, answer);
    }

    fn refuse(self) {
        self.tell("nobody leads");
    }

    fn refuse_unreached(self, why: &str) {
        self.tell(why);
    }

    fn lose(self, why: &str) {
        self.tell(why);
    }
}

/// A process of the service. It tells the client each result.
struct Shouter;

impl Host for Shouter {
    type Reason = NotShouted;
    type Destination = TextDestination;
    type Request = Text;
    type Command = Text;
    type Session = Shouting;

    fn session(&self, _: Identity) -> io::Result<Shouting> {
        Ok(Shouting)
    }

    fn resume(&self, returned: ReturnedRequests<Shouter>) -> Result<(), ReturnedRequests<Shouter>> {
        let requests = returned.requests.into_iter();
        requests.for_each(|it| it.tell("it came back"));
        Ok(())
    }
}

struct Shouting;

impl PeerSession for Shouting {
    type Reason = NotShouted;

    fn execute(&mut self, received: ReceivedRequests<'_, NotShouted>) {
        for (text, reply) in received.requests {
            match text.is_empty() {
                true => reply.refuse(NotShouted::Empty),
                false => reply.answer(&text.to_ascii_uppercase()),
            }
        }
    }

    fn ask_control(
        &mut self,
        command: &[u8],
        reply: ReplySender<NotShouted>,
    ) -> Result<(), WireFault> {
        reply.answer(&[b"done: ", command].concat());
        Ok(())
    }
}

/// Returns the links of this server's process, which answers others.
fn process(store: &Arc<dyn Store>, server: u16) -> Links<Shouter> {
    let listener = TcpListener::bind("127.0.0.1:0").unwrap();
    let addresses = Addresses {
        servers: listener.local_addr().unwrap().to_string(),
        clients: String::new(),
    };
    let member = Member::join(store.clone(), server, addresses, LEASE, Box::new(|| {}));
    let member = Arc::new(member.unwrap());
    let identity = Identity {
        server,
        settings: 7,
        process: member.process(),
        table: FIRST_TABLE,
    };
    let terms = Terms {
        identity,
        secret: None,
        tls: None,
        admits: Admission::Processes,
    };
    let links = Links::new(terms, member, WAIT);
    links.begin(listener, 2, Shouter).unwrap();
    links
}

fn forward(links: &Links<Shouter>, server: u16, texts: &[&'static str]) -> Receiver<String> {
    let (tell, told) = channel();
    let requests = texts.iter().map(|it| Text(it, tell.clone())).collect();
    let since = Instant::now();
    links.forward(&TextDestination { server, since }, requests);
    told
}

fn ends(told: &Receiver<String>) -> Vec<String> {
    told.iter().collect()
}

#[test]
fn a_service_of_its_own_is_answered_by_another_process() {
    let store: Arc<dyn Store> = Arc::new(Embedded::in_memory());
    let (one, two) = (process(&store, 1), process(&store, 2));
    while one.member().members().len() < 2 {
        std::thread::yield_now();
    }
    assert_eq!(
        ends(&forward(&one, 2, &["a", "", "b"])),
        ["A", "Empty", "B"]
    );
    let (tell, told) = channel();
    one.ask_control(2, Text("drain", tell));
    assert_eq!(ends(&told), ["done: drain"]);
    assert_eq!((one.counts().sent(), two.counts().came()), (3, 3));
    assert_eq!((one.connections(), two.connections()), ((1, 0), (0, 1)));
    // A process that stops does nothing more, and says so.
    two.close();
    assert_eq!(ends(&forward(&one, 2, &["c"])), ["it came back"]);
    two.leave();
    let told = ends(&forward(&one, 2, &["d"]));
    assert!(
        told == ["it came back"] || told[0].starts_with("server 2"),
        "{told:?}"
    );
    one.leave();
}

#[test]
fn a_server_that_is_not_there_is_named() {
    let store: Arc<dyn Store> = Arc::new(Embedded::in_memory());
    let one = process(&store, 1);
    let since = Instant::now() - WAIT;
    let (tell, told) = channel();
    one.forward(&TextDestination { server: 9, since }, vec![Text("a", tell)]);
    assert_eq!(ends(&told), ["server 9: it isn't there"]);
    one.leave();
}
