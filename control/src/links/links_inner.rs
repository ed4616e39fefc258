use super::connected_peers::ConnectedPeers;
use super::forwarded_batch::ForwardedBatch;
use super::link::{Link, NotSent};
use super::link_counts::LinkCounts;
use super::outbound_message::OutboundMessage;
use super::pending_handshakes::{PendingHandshakes, MOST as MOST_PENDING};
use super::{Destination, Host, Identity, ReturnedRequests, Terms};
use durkenzo_driver::{Clock, Member};
use std::collections::BTreeMap;
use std::io;
use std::sync::atomic::{AtomicBool, AtomicU16, AtomicU64, AtomicUsize, Ordering};
use std::sync::{Arc, Mutex, MutexGuard, OnceLock, PoisonError};
use std::time::{Duration, Instant};

/// How long until a request that couldn't be sent is tried again.
const AGAIN: Duration = Duration::from_millis(30);

/// Makes somebody move the bytes of a new link.
pub(super) type BeginLink<H> = fn(&Arc<LinksInner<H>>, &Arc<Link<H>>) -> io::Result<()>;

/// The state that all links of a process share.
pub(super) struct LinksInner<H: Host> {
    clock: Clock,
    begin_link: BeginLink<H>,
    terms: Terms,
    /// The checksum of the settings in force, and how many servers they have.
    settings: AtomicU64,
    servers: AtomicU16,
    pub(super) member: Arc<Member>,
    /// How long requests wait.
    pub(super) wait: Duration,
    pub(super) counts: LinkCounts,
    /// The host, once other processes are answered.
    begun: OnceLock<H>,
    pub(super) links: Mutex<BTreeMap<u16, Arc<Link<H>>>>,
    /// The requests that are tried again, and when.
    returned: Mutex<Vec<(Instant, ReturnedRequests<H>)>>,
    /// How many of the connected processes are answered.
    pub(super) serving: AtomicUsize,
    pub(super) peers: ConnectedPeers,
    pub(super) handshakes: Arc<PendingHandshakes>,
    pub(super) stops: AtomicBool,
}

impl<H: Host> LinksInner<H> {
    pub(super) fn new(
        (clock, begin_link): (Clock, BeginLink<H>),
        terms: Terms,
        member: Arc<Member>,
        wait: Duration,
    ) -> LinksInner<H> {
        LinksInner {
            clock,
            begin_link,
            settings: AtomicU64::new(terms.identity.settings),
            servers: AtomicU16::new(0),
            terms,
            member,
            wait,
            counts: LinkCounts::default(),
            begun: OnceLock::new(),
            links: Mutex::default(),
            returned: Mutex::default(),
            serving: AtomicUsize::new(0),
            peers: ConnectedPeers::default(),
            handshakes: Arc::new(PendingHandshakes::new(MOST_PENDING)),
            stops: AtomicBool::new(false),
        }
    }

    /// Returns this moment.
    pub(super) fn now(&self) -> Instant {
        self.clock.now()
    }

    /// Notes the host, and how many servers the cluster has, once.
    pub(super) fn begin(&self, host: H, servers: u16) {
        self.servers.store(servers, Ordering::Release);
        // Links are begun once.
        let _ = self.begun.set(host);
    }

    /// Adopts settings with this checksum and so many servers from now on.
    pub(super) fn go_by(&self, settings: u64, servers: u16) {
        self.settings.store(settings, Ordering::Release);
        self.servers.store(servers, Ordering::Release);
    }

    /// Returns the terms of connections that begin now.
    pub(super) fn terms(&self) -> Terms {
        let settings = self.settings.load(Ordering::Acquire);
        let identity = Identity {
            settings,
            ..self.terms.identity
        };
        Terms {
            identity,
            ..self.terms.clone()
        }
    }

    /// Returns the address of the server's process.
    ///
    /// # Errors
    ///
    /// If it isn't there.
    pub(super) fn address_of(&self, server: u16) -> io::Result<String> {
        let members = self.member.members();
        let address = members.get(&server).map(|it| it.addresses.servers.clone());
        address.ok_or_else(|| io::Error::other("it isn't there"))
    }

    /// Returns the host, once others are answered.
    pub(super) fn host(&self) -> Option<&H> {
        self.begun.get()
    }

    /// Returns how many servers the cluster has, once others are answered.
    pub(super) fn servers(&self) -> u16 {
        self.servers.load(Ordering::Acquire)
    }

    /// Returns whether nothing more is begun.
    pub(super) fn is_stopping(&self) -> bool {
        self.stops.load(Ordering::Acquire)
    }

    /// Sends a message to the server's process.
    pub(super) fn ask(self: &Arc<LinksInner<H>>, server: u16, outgoing: OutboundMessage<H>) {
        let asked = match self.link(server) {
            Ok(link) => link.ask(outgoing),
            Err(error) => Err(NotSent::new(outgoing, error.to_string())),
        };
        if let Err(not_sent) = asked {
            let NotSent { outgoing, why } = *not_sent;
            if let Some(returned) = outgoing.unsent(&why).and_then(ForwardedBatch::returned) {
                self.refuse(returned, &why);
            }
        }
    }

    /// Refuses the requests for this reason. If this process ends, their sender looks again which process executes
    /// them.
    fn refuse(&self, returned: ReturnedRequests<H>, why: &str) {
        if self.is_stopping() {
            return returned.stop();
        }
        self.counts.refused.fetch_add(1, Ordering::Relaxed);
        let server = returned.destination.server();
        returned.refuse(server, why);
    }

    fn link(self: &Arc<LinksInner<H>>, server: u16) -> io::Result<Arc<Link<H>>> {
        let mut links = locked(&self.links);
        if let Some(link) = links.get(&server) {
            return Ok(link.clone());
        }
        let link = Arc::new(Link::new(server));
        (self.begin_link)(self, &link)?;
        links.insert(server, link.clone());
        Ok(link)
    }

    /// Makes the requests go on here that another process gave back: at once if that process said why, otherwise a
    /// little later. If they have waited for as long as they may, refuses them.
    pub(super) fn go_on(&self, batch: ForwardedBatch<H>, why: Option<&str>) {
        // A request that would be tried again too late is refused with its reason, which its shard doesn't know.
        let pause = why.map_or(Duration::ZERO, |_| 2 * AGAIN);
        let now = self.now();
        let has_waited = batch.has_waited(self.wait.saturating_sub(pause), now);
        let Some(returned) = batch.returned() else {
            return;
        };
        match why {
            why if has_waited || self.is_stopping() => {
                self.refuse(returned, why.unwrap_or("its shard moved all the time"));
            }
            None => self.resume(returned),
            Some(_) => locked(&self.returned).push((now + AGAIN, returned)),
        }
    }

    fn resume(&self, returned: ReturnedRequests<H>) {
        self.counts.again.fetch_add(1, Ordering::Relaxed);
        let resumed = match self.host() {
            Some(host) => host.resume(returned),
            None => Err(returned),
        };
        if let Err(returned) = resumed {
            self.refuse(returned, "this process ends");
        }
    }

    /// Makes requests go on that are due, gives up those that aren't answered in time, and ends connections to servers
    /// that have gone.
    pub(super) fn tick(&self) {
        let now = self.now();
        let mut waiting = locked(&self.returned);
        let (due, later) = waiting.drain(..).partition(|it| it.0 <= now);
        *waiting = later;
        drop(waiting);
        let due: Vec<(Instant, ReturnedRequests<H>)> = due;
        due.into_iter().for_each(|it| self.resume(it.1));
        let (links, members) = (locked(&self.links).clone(), self.member.members());
        self.peers.tick(now, &members);
        for (server, link) in links {
            let given_up = link.tick(now, members.get(&server));
            let why = given_up.why;
            let unsent = given_up.unsent.into_iter();
            unsent
                .filter_map(|it| it.unsent(&why))
                .for_each(|it| self.go_on(it, Some(&why)));
            let why = format!("the process of server {server} doesn't answer");
            let late = given_up.unanswered.into_iter();
            late.filter_map(|it| it.lost(&why))
                .for_each(|it| self.go_on(it, Some(&why)));
        }
    }

    /// Ends all links for good.
    pub(super) fn stop_links(&self) -> BTreeMap<u16, Arc<Link<H>>> {
        let links = std::mem::take(&mut *locked(&self.links));
        links.values().for_each(|it| it.stop());
        links
    }

    /// Gives back all requests that were to be tried again, because this process ends.
    pub(super) fn stop_returned(&self) {
        let returned = std::mem::take(&mut *locked(&self.returned));
        returned.into_iter().for_each(|it| it.1.stop());
    }
}

pub(super) fn locked<T>(it: &Mutex<T>) -> MutexGuard<'_, T> {
    it.lock().unwrap_or_else(PoisonError::into_inner)
}
