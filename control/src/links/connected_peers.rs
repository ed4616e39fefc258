use super::links_inner::locked;
use super::outbox::Outbox;
use super::{Closer, Identity};
use durkenzo_driver::Members;
use std::sync::{Arc, Mutex, Weak};
use std::time::{Duration, Instant};

/// How long a process may be missing from the servers that are there before its connection ends, if nothing is under
/// way on it. A process that stops has ended the connection itself by then.
const GONE: Duration = Duration::from_secs(10);

/// The processes that have connected and were welcomed.
#[derive(Default)]
pub(super) struct ConnectedPeers(Mutex<Vec<ConnectedPeer>>);

struct ConnectedPeer {
    identity: Identity,
    closer: Weak<dyn Closer>,
    outbox: Weak<Outbox>,
    /// Since when it isn't there, if it isn't.
    gone: Option<Instant>,
}

impl ConnectedPeer {
    /// Returns whether its connection is useless by now, because its server is gone, or has another process since.
    fn is_over(&mut self, now: Instant, members: &Members) -> bool {
        let member = members.get(&self.identity.server);
        if member.is_some_and(|it| it.process <= self.identity.process) {
            self.gone = None;
            return false;
        }
        let gone = *self.gone.get_or_insert(now);
        gone + GONE <= now && !self.is_answered()
    }

    /// Returns whether a request of it is under way.
    fn is_answered(&self) -> bool {
        self.outbox.upgrade().is_some_and(|it| it.is_answering())
    }

    fn end(&self) {
        self.closer.upgrade().iter().for_each(|it| it.end());
    }
}

impl ConnectedPeers {
    /// Notes one more, and forgets those that ended. A process has only one connection to another one at a time. So its
    /// server's earlier connections have ended on its side, and end here, too.
    pub(super) fn note(&self, identity: Identity, closer: &Arc<dyn Closer>, outbox: &Arc<Outbox>) {
        let mut peers = locked(&self.0);
        peers.retain(|it| it.closer.strong_count() > 0);
        let of_server = peers.iter().map(|it| (it, it.identity));
        of_server
            .filter(|it| it.1.server == identity.server && it.1.process <= identity.process)
            .for_each(|it| it.0.end());
        peers.push(ConnectedPeer {
            identity,
            closer: Arc::downgrade(closer),
            outbox: Arc::downgrade(outbox),
            gone: None,
        });
    }

    /// Ends the connections of those that are gone.
    pub(super) fn tick(&self, now: Instant, members: &Members) {
        let mut peers = locked(&self.0);
        let over = peers
            .iter_mut()
            .filter_map(|it| it.is_over(now, members).then_some(it));
        over.for_each(|it| it.end());
    }

    /// Returns whether a request of another process is under way.
    pub(super) fn is_answering(&self) -> bool {
        locked(&self.0).iter().any(ConnectedPeer::is_answered)
    }

    /// Ends the connections of all.
    pub(super) fn end(&self) {
        std::mem::take(&mut *locked(&self.0))
            .iter()
            .for_each(ConnectedPeer::end);
    }
}

#[cfg(test)]
mod tests {
    use super::super::trial::{moment, TestCloser};
    use super::*;
    use durkenzo_driver::{Addresses, Live};
    use durkenzo_store::Revision;

    /// A process' connection, as far as it is held here.
    struct Connection {
        closer: Arc<TestCloser>,
        outbox: Arc<Outbox>,
    }

    impl Connection {
        fn of(peers: &ConnectedPeers, server: u16, process: u64) -> Connection {
            let (closer, outbox) = (Arc::new(TestCloser::default()), Arc::default());
            let settings = 0;
            let identity = Identity {
                server,
                settings,
                process,
                table: 1,
            };
            let held: Arc<dyn Closer> = closer.clone();
            peers.note(identity, &held, &outbox);
            Connection { closer, outbox }
        }

        fn is_ended(&self) -> bool {
            self.closer.is_ended()
        }

        fn goes_on(&self) -> bool {
            !self.is_ended()
        }
    }

    /// Returns these servers, each with the number of its process.
    fn members<const N: usize>(processes: [(u16, u64); N]) -> Members {
        let live = |process| Live {
            process,
            followed: Revision::NEVER,
            joined: Revision::NEVER,
            addresses: Addresses::default(),
        };
        Members::from(processes.map(|it| (it.0, live(it.1))))
    }

    #[test]
    fn what_a_process_had_before_ends_as_it_connects_again() {
        let peers = ConnectedPeers::default();
        let connection = |server, process| Connection::of(&peers, server, process);
        let (first, other, later) = (connection(1, 5), connection(2, 4), connection(3, 9));
        let again = connection(1, 5);
        // The process was stopped, and goes on after another one has taken its place.
        let stale = connection(3, 8);
        assert!(first.is_ended() && again.goes_on() && other.goes_on());
        assert!(later.goes_on() && stale.goes_on());
        let next = connection(1, 6);
        assert!(again.is_ended() && next.goes_on());
        peers.end();
        assert!(next.is_ended() && other.is_ended());
    }

    #[test]
    fn the_connection_of_a_process_that_is_gone_ends_once_nothing_is_under_way() {
        let peers = ConnectedPeers::default();
        let connections =
            [(1, 5), (2, 6), (3, 7), (4, 8)].map(|it| Connection::of(&peers, it.0, it.1));
        assert!(connections[3].outbox.begin(1));
        let now = moment(0);
        // The third server has another process, and the view of the second one is out of date.
        let seen = members([(2, 4), (3, 9)]);
        peers.tick(now, &seen);
        peers.tick(now + GONE / 2, &seen);
        assert!(connections.iter().all(Connection::goes_on));
        peers.tick(now + GONE, &seen);
        assert!(connections[0].is_ended() && connections[2].is_ended());
        assert!(connections[1].goes_on() && connections[3].goes_on());
    }
}
