//! The clients and servers that a process serves. There are places for each of the two, and an idle guest gives its
//! place back.
use crate::frame::Request;
use crate::introduction::Guest;
use durkenzo_control::links::NO_SERVER;
use std::collections::HashMap;
use std::sync::atomic::{AtomicBool, AtomicU64, Ordering};
use std::sync::{Arc, Mutex, MutexGuard, PoisonError};

/// Stands in place of a connection's idle time while the connection is answered. Once the connection is ended, `ENDED`
/// stands there.
const BUSY: u64 = u64::MAX;
const ENDED: u64 = u64::MAX - 1;

/// All guests that are served, and whether nobody else is admitted any more.
#[derive(Default)]
pub(crate) struct Guests {
    is_over: AtomicBool,
    connections: Mutex<GuestConnections>,
}

#[derive(Default)]
struct GuestConnections {
    next: u64,
    by_number: HashMap<u64, (Kind, Arc<GuestConnection>)>,
}

/// The kind of a guest, by its introduction and its first request.
#[derive(Clone, Copy, Debug, PartialEq, Eq)]
pub(crate) enum Kind {
    /// It hasn't asked for anything yet.
    Newcomer,
    Client,
    /// A server, which forwards calls, passes commands on, or hands over bodies.
    Server,
}

/// Ends the requests of a connection.
pub trait EndOfRequests: Send + Sync {
    /// Makes the reader of the connection find that it must answer nothing more. The connection can still be written.
    fn end_reading(&self);
}

/// A connection of a guest.
pub(crate) struct GuestConnection {
    end: Box<dyn EndOfRequests>,
    /// The time since which it is idle, in milliseconds, or [`BUSY`], or [`ENDED`].
    idle_since: AtomicU64,
}

/// The place of a connection that is served. The place is given back when this is dropped, even if a callback panics.
pub(crate) struct GuestPlace {
    guests: Arc<Guests>,
    number: u64,
    connection: Arc<GuestConnection>,
}

impl Guests {
    fn connections(&self) -> MutexGuard<'_, GuestConnections> {
        let locked = self.connections.lock();
        locked.unwrap_or_else(PoisonError::into_inner)
    }

    /// Returns a place for a guest that has shown that it belongs to the fleet, if a place is free. A newcomer takes a
    /// place of the servers. The guest is idle from `now` on, a time in milliseconds.
    pub(crate) fn admit(
        self: &Arc<Guests>,
        connection: &Arc<GuestConnection>,
        most: usize,
        now: u64,
    ) -> Option<GuestPlace> {
        let mut all = self.connections();
        let is_client = |kind| kind == Kind::Client;
        let is_full = all.count(|it| !is_client(it)) >= most
            && !all.end_idle(|it| it == Kind::Newcomer)
            && !all.end_idle(|it| it == Kind::Server);
        if self.is_over() || is_full {
            return None;
        }
        connection.note_idle(now);
        all.next += 1;
        let number = all.next;
        all.by_number
            .insert(number, (Kind::Newcomer, connection.clone()));
        Some(GuestPlace {
            guests: self.clone(),
            number,
            connection: connection.clone(),
        })
    }

    /// Admits nobody any more, and makes all connections find that they must answer nothing more.
    pub(crate) fn end(&self) {
        self.is_over.store(true, Ordering::Release);
        for (_, connection) in self.connections().by_number.values() {
            connection.end.end_reading();
        }
    }

    /// Returns whether nobody is admitted any more.
    pub(crate) fn is_over(&self) -> bool {
        self.is_over.load(Ordering::Acquire)
    }

    /// Returns whether nobody is served.
    pub(crate) fn is_empty(&self) -> bool {
        self.connections().by_number.is_empty()
    }

    /// Returns the number of connections that are served.
    #[cfg(feature = "simulated")]
    pub(crate) fn count(&self) -> usize {
        self.connections().by_number.len()
    }
}

impl GuestConnections {
    fn count(&self, is_meant: impl Fn(Kind) -> bool) -> usize {
        self.by_number.values().filter(|it| is_meant(it.0)).count()
    }

    /// Ends the connection of such a kind that has been idle for the longest time. The guest is told so, because a
    /// request may be on its way. Returns whether there was such a connection.
    fn end_idle(&mut self, is_meant: impl Fn(Kind) -> bool) -> bool {
        let of_kind = self.by_number.iter().filter(|it| is_meant(it.1 .0));
        let idle =
            of_kind.map(|(number, (_, it))| (it.idle_since.load(Ordering::Acquire), *number));
        let Some((since, number)) = idle.filter(|it| it.0 < ENDED).min() else {
            return false;
        };
        let Some((_, connection)) = self.by_number.get(&number) else {
            return false;
        };
        let ended = connection.change(since, ENDED);
        if ended {
            connection.end.end_reading();
            self.by_number.remove(&number);
        }
        ended
    }
}

impl GuestConnection {
    /// Returns a connection whose requests `end` can end.
    pub(crate) fn new(end: Box<dyn EndOfRequests>) -> GuestConnection {
        GuestConnection {
            end,
            idle_since: AtomicU64::new(0),
        }
    }

    fn note_idle(&self, now: u64) {
        self.idle_since.store(now, Ordering::Release);
    }

    fn change(&self, from: u64, to: u64) -> bool {
        let changed =
            self.idle_since
                .compare_exchange(from, to, Ordering::AcqRel, Ordering::Acquire);
        changed.is_ok()
    }

    /// Notes that a request is answered from now on. Returns false if the connection is ended.
    fn begin_answer(&self) -> bool {
        let since = self.idle_since.load(Ordering::Acquire);
        since < ENDED && self.change(since, BUSY)
    }
}

impl GuestPlace {
    /// Notes the kind of the guest, by its first request. Returns whether there is room for this kind.
    pub(crate) fn note_kind(&self, kind: Kind, most: usize) -> bool {
        let mut all = self.guests.connections();
        let is_full = kind == Kind::Client && all.count(|it| it == kind) >= most;
        if is_full && !all.end_idle(|it| it == kind) {
            return false;
        }
        let noted = all.by_number.get_mut(&self.number);
        noted.map(|it| it.0 = kind).is_some()
    }

    /// Notes that a request is answered from now on. Returns false if the connection is ended.
    pub(crate) fn begin_answer(&self) -> bool {
        self.connection.begin_answer()
    }

    /// Notes that a request was answered at this time.
    pub(crate) fn end_answer(&self, now: u64) {
        self.connection.note_idle(now);
    }

    /// Returns whether nobody is served any more.
    pub(crate) fn is_over(&self) -> bool {
        self.guests.is_over()
    }

    /// Returns whether another guest got this place.
    pub(crate) fn is_ended(&self) -> bool {
        self.connection.idle_since.load(Ordering::Acquire) == ENDED
    }
}

impl Drop for GuestPlace {
    fn drop(&mut self) {
        self.guests.connections().by_number.remove(&self.number);
    }
}

impl Kind {
    /// Returns the kind of this guest, whose first request is this one. A client never gets a place of a server,
    /// whatever it asks.
    pub(crate) fn of(guest: Guest, request: &Request<'_>) -> Kind {
        match (guest, request) {
            (Guest::Client, _) => Kind::Client,
            (Guest::Server(_), Request::Call(call)) if call.hops == 0 && call.from == NO_SERVER => {
                Kind::Client
            }
            (
                Guest::Server(_),
                Request::Command {
                    is_passed_on: false,
                    ..
                }
                | Request::Routes,
            ) => Kind::Client,
            (
                Guest::Server(_),
                Request::Call(_)
                | Request::Command {
                    is_passed_on: true, ..
                }
                | Request::Copy { .. }
                | Request::Hand(_),
            ) => Kind::Server,
        }
    }
}

#[cfg(test)]
mod tests {
    use super::*;
    use crate::copy_name::CopyName;
    use crate::frame::CallFrame;

    /// A connection that nobody reads.
    struct Unread;

    impl EndOfRequests for Unread {
        fn end_reading(&self) {}
    }

    #[test]
    fn a_client_has_no_place_of_a_server_whatever_it_asks() {
        let call = |from, hops| {
            Request::Call(CallFrame {
                shard: 0,
                from,
                hops,
                revision: 1,
                budget: 1,
                request: b"",
            })
        };
        let name = CopyName {
            server: 1,
            joined: 1,
            count: 1,
        };
        let copy = Request::Copy {
            shard: 0,
            generation: 1,
            name,
            at: 0,
        };
        let words = b"";
        let command = |is_passed_on| Request::Command {
            is_passed_on,
            words,
        };
        for (request, of_server) in [
            (call(NO_SERVER, 0), Kind::Client),
            (call(NO_SERVER, 1), Kind::Server),
            (call(2, 1), Kind::Server),
            (copy, Kind::Server),
            (command(false), Kind::Client),
            (command(true), Kind::Server),
            (Request::Routes, Kind::Client),
        ] {
            assert_eq!(Kind::of(Guest::Client, &request), Kind::Client);
            assert_eq!(Kind::of(Guest::Server(2), &request), of_server);
        }
    }

    #[test]
    fn the_client_that_is_idle_for_longest_makes_room_and_servers_have_places_of_their_own() {
        let guests = Arc::<Guests>::default();
        let connect = || {
            let connection = Arc::new(GuestConnection::new(Box::new(Unread)));
            guests.admit(&connection, 2, 0)
        };
        let since = |place: &GuestPlace, it| place.end_answer(it);
        let (first, second) = (connect().unwrap(), connect().unwrap());
        assert!(first.note_kind(Kind::Client, 2) && second.note_kind(Kind::Client, 2));
        since(&first, 7);
        since(&second, 3);
        let third = connect().unwrap();
        assert!(third.begin_answer());
        assert!(third.note_kind(Kind::Client, 2));
        assert!(first.begin_answer() && !second.begin_answer());
        // All clients are being answered now. So there is no room for another client, but there is room for a server.
        let (client, server) = (connect().unwrap(), connect().unwrap());
        assert!(!client.note_kind(Kind::Client, 2) && server.note_kind(Kind::Server, 2));
        drop((first, client));
        let last = connect().unwrap();
        assert!(last.note_kind(Kind::Client, 2));
        drop((second, third, server, last));
        assert!(guests.is_empty());
    }
}
