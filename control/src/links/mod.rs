//! The links between the processes of a cluster: requests go to the process of the server that executes their shard,
//! and commands for the control to the process that leads.
//!
//! A process has a link to each process to which it sends requests. The link's connection is made when it is needed,
//! and begins with a [`Greeting`] from either side. The process then sends [`Frame`]s, and gets outcomes in any order.
//! Requests and answers are bytes that only the [`Host`] of either side reads. Nothing here decides who executes a
//! request: the host says where it goes, and the host there looks at the shard's record before anything is done.
//!
//! Each queue has a bound. If a request would exceed it, it is refused, or isn't read yet. Links decide by the bytes
//! and the moments that they are given: only `sockets` waits. `tests/own_service.rs` has a complete host. A connection
//! begins like this:
//!
//! ```
//! use durkenzo_control::links::{checksum, Greeting, Identity, FIRST_TABLE};
//!
//! let settings = checksum(b"4 shards");
//! let identity = Identity { server: 3, settings, process: 7, table: FIRST_TABLE };
//! let hello = Greeting::Hello(identity, 2, b"a secret".to_vec());
//! let mut bytes = Vec::new();
//! hello.write(2, &mut bytes);
//! assert_eq!(Greeting::read(&bytes), Ok(Some((hello, 2, bytes.len()))));
//! ```
mod admission;
#[cfg(test)]
mod chance;
mod closer;
mod connected_peers;
mod connection;
mod connection_slot;
mod destination;
mod fields;
mod forwarded_batch;
mod forwarded_command;
mod forwarded_request;
mod frame;
mod greeting;
mod handshake;
mod host;
mod identity;
mod inbound;
mod keep_alive;
mod link;
mod link_counts;
mod link_status;
mod links_inner;
mod not_accepted;
mod outbound;
mod outbound_message;
mod outbox;
mod peer_session;
mod pending_handshakes;
mod read_buffer;
mod reason;
mod received_requests;
mod reply_sender;
mod request_batch;
mod request_outcome;
mod returned_requests;
mod secret;
mod secret_fault;
mod sent_frames;
#[allow(clippy::disallowed_methods)]
mod sockets;
mod terms;
#[cfg(test)]
mod trial;
mod wire_fault;
mod write_buffer;

pub use admission::{Admission, NO_SERVER, OTHER_SECRET, OTHER_SETTINGS, UNKNOWN_SETTINGS};
pub use closer::Closer;
pub use connection::{Connection, Dial};
pub use destination::Destination;
pub use fields::{put_text, Fields};
pub use forwarded_command::ForwardedCommand;
pub use forwarded_request::{ForwardedMessage, ForwardedRequest};
pub use frame::{Frame, MAX_FRAME, MAX_REQUEST, MAX_REQUESTS};
pub use greeting::{Greeting, MAX_SECRET, VERSION};
pub use handshake::Greeter;
pub use host::Host;
pub use identity::{checksum, Identity, FIRST_TABLE};
pub use keep_alive::{KeepAlive, KEEP_ALIVE};
pub use link_counts::LinkCounts;
pub use link_status::LinkStatus;
pub use not_accepted::NotAccepted;
pub use peer_session::PeerSession;
pub use pending_handshakes::{PendingHandshake, PendingHandshakes};
pub use reason::{Reason, MAX_REASON};
pub use received_requests::ReceivedRequests;
pub use reply_sender::ReplySender;
pub use request_batch::RequestBatch;
pub use request_outcome::RequestOutcome;
pub use returned_requests::ReturnedRequests;
pub use secret::Secret;
pub use secret_fault::SecretFault;
pub use sent_frames::SentFrames;
pub use sockets::{be_accepted, SocketHandshake};
pub use terms::Terms;
pub use wire_fault::WireFault;

use durkenzo_driver::{Clock, Member};
use forwarded_batch::ForwardedBatch;
use link::LinkNeed;
use links_inner::{locked, BeginLink, LinksInner};
use outbound_message::OutboundMessage;
use std::collections::BTreeMap;
use std::fmt;
use std::io;
use std::net::TcpListener;
use std::sync::atomic::Ordering;
use std::sync::Arc;
use std::thread::JoinHandle;
use std::time::Duration;

/// How often a process looks for new connections, and for due work.
pub const TICK: Duration = Duration::from_millis(10);
/// How long another process may take to accept a connection, to finish the handshake, and to take bytes.
const PATIENCE: Duration = Duration::from_secs(2);
/// How long others are told at a stop that nothing more is begun, so that they look again which process executes.
const LINGER: Duration = Duration::from_millis(200);
/// How long a stop waits for answers to other processes.
const STOP: Duration = Duration::from_secs(2);

/// The links of a process to the others of its cluster. Clones are the same links.
pub struct Links<H: Host> {
    inner: Arc<LinksInner<H>>,
}

impl<H: Host> Links<H> {
    /// Makes the links of this process's server, on these terms. Requests wait for so long.
    ///
    /// They reach others at once, but answer nobody before [`begin`](Links::begin).
    pub fn new(terms: Terms, member: Arc<Member>, wait: Duration) -> Links<H> {
        let by = (Clock::default(), sockets::begin_link as BeginLink<H>);
        Links {
            inner: Arc::new(LinksInner::new(by, terms, member, wait)),
        }
    }

    /// Makes links as [`Links::new`] does, but without threads and with this clock. The caller must make the
    /// connections of [`Links::dials`], give incoming connections to [`Links::accept`], move the bytes of both, and
    /// call [`Links::tick`] each [`TICK`]. Such links can be simulated.
    pub fn without_threads(
        terms: Terms,
        member: Arc<Member>,
        wait: Duration,
        clock: Clock,
    ) -> Links<H> {
        let by = (clock, (|_, _| Ok(())) as BeginLink<H>);
        Links {
            inner: Arc::new(LinksInner::new(by, terms, member, wait)),
        }
    }

    /// Adopts other settings from now on, with this checksum and so many servers. Existing connections stay. A new one
    /// is refused until the other process adopts the settings, too.
    pub fn go_by(&self, settings: u64, servers: u16) {
        self.inner.go_by(settings, servers);
    }

    /// Returns this process's server, and the others that are there.
    pub fn member(&self) -> &Member {
        &self.inner.member
    }

    /// Returns the server whose process leads, if one does.
    pub fn leader(&self) -> Option<u16> {
        let (leader, members) = (self.inner.member.leader()?, self.inner.member.members());
        let mut found = members.iter().filter(|it| it.1.process == leader);
        found.next().map(|it| *it.0)
    }

    /// Sends requests of one client, in their order, to the process of the server that executes them. It doesn't wait.
    ///
    /// Each request is ended once, by its own calls. Before that, requests that weren't done may go on with
    /// [`Host::resume`].
    pub fn forward(&self, destination: &H::Destination, requests: Vec<H::Request>) {
        let (server, count) = (destination.server(), requests.len() as u64);
        self.inner.counts.sent.fetch_add(count, Ordering::Relaxed);
        let batch = ForwardedBatch::new(destination.clone(), requests);
        let (wait, now) = (self.inner.wait, self.inner.now());
        self.inner
            .ask(server, OutboundMessage::requests(batch, wait, now));
    }

    /// Gives the command to the control in this server's process. It doesn't wait.
    pub fn ask_control(&self, server: u16, command: H::Command) {
        let command = OutboundMessage::command(command, self.inner.now());
        self.inner.ask(server, command);
    }

    /// Returns the counts of the traffic between this process and others.
    pub fn counts(&self) -> &LinkCounts {
        &self.inner.counts
    }

    /// Returns to how many processes this one is connected, and how many are connected to it.
    pub fn connections(&self) -> (usize, usize) {
        let links = locked(&self.inner.links);
        let reached = links.values().filter(|it| it.status().is_reached);
        (reached.count(), self.inner.serving.load(Ordering::Relaxed))
    }

    /// Returns the status of the link to each server that is there, if this process has ever sent it anything.
    pub fn statuses(&self) -> BTreeMap<u16, LinkStatus> {
        let (links, members) = (locked(&self.inner.links), self.member().members());
        let there = links.iter().filter(|it| members.contains_key(it.0));
        there.map(|(server, it)| (*server, it.status())).collect()
    }

    /// Begins to answer incoming connections of processes, with this host, until the links are closed. The cluster has
    /// so many servers. Returns the thread, which ends then.
    ///
    /// # Errors
    ///
    /// If the system gives no thread.
    pub fn begin(
        &self,
        listener: TcpListener,
        servers: u16,
        host: H,
    ) -> io::Result<JoinHandle<()>> {
        self.begin_without_threads(servers, host);
        sockets::begin_to_answer(listener, self.inner.clone())
    }

    /// Asks the other processes that are there whether they accept this one, for some seconds at most. Call it after
    /// [`Links::begin`].
    ///
    /// # Errors
    ///
    /// As of [`be_accepted`], if the secret of this process is another one. The process should leave then.
    pub fn be_accepted(&self) -> Result<(), NotAccepted<io::Error>> {
        sockets::links_accepted(&self.inner)
    }

    /// Begins to answer incoming connections of processes, with this host. The cluster has so many servers. The caller
    /// accepts the connections.
    pub fn begin_without_threads(&self, servers: u16, host: H) {
        self.inner.begin(host, servers);
    }

    /// Begins the connections that links need now. The caller must make each of them, or report that it failed.
    pub fn dials(&self) -> Vec<Dial<H>> {
        let (links, now) = (locked(&self.inner.links).clone(), self.inner.now());
        let links = links.into_values();
        links
            .filter(|it| it.state().need(now) == LinkNeed::Connection)
            .map(|it| Dial::begin(it, self.inner.clone()))
            .collect()
    }

    /// Takes an incoming connection, if there is room for it. This closer ends it.
    pub fn accept(&self, closer: Arc<dyn Closer>) -> Option<Connection<H>> {
        Connection::accepted(self.inner.clone(), closer)
    }

    /// Makes requests go on that are due, gives up those that aren't answered in time, and ends connections to servers
    /// that have gone.
    pub fn tick(&self) {
        self.inner.tick();
    }

    /// Begins nothing more for other processes, and tells them so.
    pub fn close(&self) {
        self.inner.stops.store(true, Ordering::Release);
    }

    /// Leaves the cluster, so that others give this server's shards owners at once. Waits some seconds at most so that
    /// others read their last answers, and ends all connections.
    pub fn leave(&self) {
        self.close();
        self.inner.member.leave();
        // Requests that were forwarded to this process are still answered.
        sockets::linger(&self.inner, LINGER, STOP);
        self.inner.stop_links();
        sockets::linger(&self.inner, Duration::ZERO, LINGER);
        self.inner.peers.end();
    }

    /// Leaves the cluster as [`Links::leave`] does, but doesn't wait. Requests under way are lost, or told that this
    /// process ends.
    pub fn leave_at_once(&self) {
        self.close();
        self.inner.member.leave();
        self.inner.stop_returned();
        for link in self.inner.stop_links().into_values() {
            link.give_back_all("this process ends", &self.inner);
        }
        self.inner.peers.end();
    }
}

impl<H: Host> Clone for Links<H> {
    fn clone(&self) -> Links<H> {
        let inner = self.inner.clone();
        Links { inner }
    }
}

impl<H: Host> fmt::Debug for Links<H> {
    fn fmt(&self, f: &mut fmt::Formatter<'_>) -> fmt::Result {
        f.debug_struct("Links")
            .field("terms", &self.inner.terms())
            .finish_non_exhaustive()
    }
}
