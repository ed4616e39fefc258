//! How a process answers a connection, until the connection ends.
use crate::adoption::NotTaken;
use crate::fleet_inner::FleetInner;
use crate::frame::{Request, Response};
use crate::guests::{GuestPlace, Kind};
use crate::introduction::Guest;
use crate::Service;
use std::future::Future;
use std::io;
use std::time::Instant;

/// The answer to a guest whose request is allowed only to a process of the fleet, or that speaks for another server.
const NOT_ITS: &str =
    "only the process of a server may ask so: by TLS its certificate has the name peer.durkenzo";
/// The answer of a process that leaves to any request on a connection. Nothing is done.
pub(crate) const LEAVES: &str = "this process leaves, and others have its shards";
/// The answer to a guest that has no place, or has lost it. Nothing is done for its request.
const CROWDED: &str = "as many clients are served as may be";
/// The bytes of memory that a connection keeps for the next request. It keeps as many for the next answer.
const KEPT: usize = 16 << 10;

/// Reads and writes the bytes of a connection.
pub trait Talk {
    /// Reads a frame into the room, without its length.
    fn read_frame(&mut self, room: &mut Vec<u8>) -> impl Future<Output = io::Result<()>>;

    /// Writes all of these bytes.
    fn write(&mut self, bytes: &[u8]) -> impl Future<Output = io::Result<()>>;

    /// Returns whether the other side hasn't ended the connection, as far as is known.
    fn is_open(&self) -> bool;
}

/// A connection that has a place, and whose guest is known.
pub(crate) struct Conversation<T> {
    pub(crate) place: GuestPlace,
    pub(crate) guest: Guest,
    pub(crate) talk: T,
    /// The moment from which idle times are counted.
    pub(crate) began: Instant,
}

impl<T: Talk> Conversation<T> {
    /// Answers the connection until it ends.
    pub(crate) async fn answer_all<S: Service>(mut self, fleet: &FleetInner<S>) -> io::Result<()> {
        let most = fleet.options.connections;
        let (mut room, mut out, mut is_noted) = (Vec::new(), Vec::new(), false);
        while self.has_next(&mut room).await? {
            let request = Request::read(&room);
            let request =
                request.map_err(|error| io::Error::new(io::ErrorKind::InvalidData, error))?;
            is_noted = is_noted || self.place.note_kind(Kind::of(self.guest, &request), most);
            if !is_noted {
                Response::Again(CROWDED).write(&mut out);
            } else if self.guest.may_ask(&request) {
                let is_awaited = || self.talk.is_open();
                answer(fleet, &is_awaited, &request, &mut out).await;
            } else {
                Response::Again(NOT_ITS).write(&mut out);
            }
            self.talk.write(&out).await?;
            if !is_noted {
                return Ok(());
            }
            for bytes in [&mut room, &mut out] {
                bytes.clear();
                bytes.shrink_to(KEPT);
            }
            let idle = fleet
                .environment
                .now()
                .saturating_duration_since(self.began);
            self.place.end_answer(idle.as_millis() as u64);
        }
        Ok(())
    }

    /// Waits for the next request. Returns whether there is a request to answer. If the connection ends before, tells
    /// the guest why.
    async fn has_next(&mut self, room: &mut Vec<u8>) -> io::Result<bool> {
        let received = self.talk.read_frame(room).await;
        if received.is_ok() && self.place.begin_answer() {
            return Ok(true);
        }
        if self.place.is_over() {
            self.bid_farewell(LEAVES).await;
        } else if self.place.is_ended() {
            self.bid_farewell(CROWDED).await;
        }
        received.map(|()| false)
    }

    /// Tells the guest why the connection ends. The guest may have sent a request for which nothing was done. If the
    /// connection just ended, the guest wouldn't know that.
    async fn bid_farewell(&mut self, why: &str) {
        let mut out = Vec::new();
        Response::Again(why).write(&mut out);
        // The guest may be gone.
        let _ = self.talk.write(&out).await;
    }
}

async fn answer<S: Service>(
    fleet: &FleetInner<S>,
    is_awaited: &dyn Fn() -> bool,
    request: &Request<'_>,
    out: &mut Vec<u8>,
) {
    match request {
        Request::Call(call) => fleet.call(call, is_awaited, out).await,
        Request::Copy {
            shard,
            generation,
            name,
            at,
        } => fleet.copy(*shard, (*generation, *name), *at, out).await,
        Request::Hand(frame) => match fleet.take_hand_over(frame).await {
            Ok(()) => Response::Taken.write(out),
            Err(NotTaken::Again(why)) => Response::Again(why).write(out),
            Err(NotTaken::NoCopy(why)) => Response::NoCopy(why).write(out),
        },
        Request::Command {
            is_passed_on,
            words,
        } => fleet.answer_command(words, *is_passed_on, out).await,
        Request::Routes => Response::Text(fleet.routes().as_bytes()).write(out),
    }
}
