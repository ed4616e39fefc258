//! The work of a shard's owner for the next owner: it gives a copy while it answers calls, and the rest once it has let
//! go.
use crate::copy_name::CopyName;
use crate::fleet_inner::FleetInner;
use crate::frame::{HandFrame, Request, Response, CHUNK};
use crate::outgoing_copy::OutgoingCopy;
use crate::place::Place;
use crate::{Changes, Service};
use durkenzo::Stand;
use durkenzo_store_sys::HandOver;
use std::time::Duration;

/// The longest time that another server may take for a piece.
pub(crate) const PIECE: Duration = Duration::from_secs(5);

/// A hand-over, and the server that gets it.
#[derive(Clone, Copy)]
struct Recipient {
    shard: u16,
    next: u16,
    hand: HandOver,
}

/// The result of sending a body or a piece of it.
#[derive(Clone, Copy, Debug, PartialEq, Eq)]
enum Sent {
    /// The next owner has all of it.
    All,
    /// The next owner doesn't take it for now, or can't be reached. It must be sent again.
    NotYet,
    /// The next owner has no copy that this continues, or the service can't make a piece that can be sent.
    NoCopy,
}

impl<S: Service> FleetInner<S> {
    /// Answers with the piece of this copy that begins after `at` bytes. If the first piece of a later copy is asked
    /// for, begins that copy.
    pub(crate) async fn copy(
        &self,
        shard: u16,
        named: (u64, CopyName),
        at: u64,
        out: &mut Vec<u8>,
    ) {
        if let Err(why) = self.copied(shard, named, at, out).await {
            Response::Again(why).write(out);
        }
    }

    /// Writes such a piece, if this process is the owner under the record of this generation, and if the next owner
    /// chose the name of the copy.
    async fn copied(
        &self,
        shard: u16,
        (generation, name): (u64, CopyName),
        at: u64,
        out: &mut Vec<u8>,
    ) -> Result<(), &'static str> {
        let place = self.places.get(usize::from(shard));
        let place = place.ok_or("there is no such shard")?;
        let changes = self.service.changes();
        let changes = changes.ok_or("the owner's service notes no changes")?;
        self.await_record(place, generation).await;
        let mut body = place.body().await;
        let record = place.known().record();
        let stand = Stand::Prepared {
            owner: self.server(),
            next: name.server,
        };
        if record.stand != stand || record.generation != generation {
            return Err("no shard goes from this process to that one by that record");
        }
        self.drop_stale(shard, place, &mut body);
        let body = body.as_mut().ok_or("the owner has no body yet")?;
        let named = (generation, name);
        let is_later = |it: &OutgoingCopy| it.is_before(named);
        if at == 0 && place.known().copy.as_ref().is_none_or(is_later) {
            changes.begin_copy(body);
            place.known().copy = Some(OutgoingCopy::new(generation, name));
        }
        let copy = place.known().copy.take_if(|it| it.is(named));
        let mut copy = copy.ok_or("there is no copy that this continues")?;
        let piece = copy.piece_at(at, || changes.next_piece(body, self.options.piece));
        let written = piece.map(|it| {
            let (left, bytes) = (it.left, &it.bytes[..]);
            Response::Piece { left, bytes }.write(out);
        });
        place.known().copy = Some(copy);
        written.ok_or("there is no such piece, or it can't be sent")
    }

    /// Stops executing, gives the next owner everything that it needs, and forwards calls from then on. Returns whether
    /// that is done.
    pub(crate) async fn hand_over(
        &self,
        shard: u16,
        place: &Place<S::Body>,
        next: u16,
        generation: u64,
    ) -> bool {
        let mut body = place.body().await;
        if place.known().record().generation != generation {
            return true;
        }
        let Some(hand) = self.let_go(place, generation) else {
            return false;
        };
        self.drop_stale(shard, place, &mut body);
        #[cfg(any(test, feature = "plants", feature = "simulated"))]
        if self.options.plant == Some(crate::plant::Plant::EarlyAck) {
            self.member.ack(shard, generation);
            let end = self.environment.end_of(Duration::from_millis(300));
            self.environment.wait_until(end).await;
        }
        let to = Recipient { shard, next, hand };
        let sent = match body.as_mut() {
            Some(body) => self.send(place, body, to).await,
            None => Sent::All,
        };
        drop(body);
        if sent == Sent::All {
            place.known().handed = generation;
            place.queue.wake();
            self.member.ack(shard, generation);
        }
        sent == Sent::All
    }

    /// Lets go of the record. Nothing is executed under it any more. Returns the hand-over, which each piece must name.
    fn let_go(&self, place: &Place<S::Body>, generation: u64) -> Option<HandOver> {
        let mut known = place.known();
        // The control may have taken the record back in the meantime.
        if known.record().generation != generation {
            return None;
        }
        known.let_go().ok()?;
        known.copy.take_if(|it| it.generation() + 1 != generation);
        Some(HandOver {
            joined: known.view.joined(),
            generation,
            server: self.server(),
        })
    }

    /// Sends the next owner the rest of the copy, or a copy from its beginning. If the next owner takes no copies,
    /// sends the whole body.
    async fn send(&self, place: &Place<S::Body>, body: &mut S::Body, to: Recipient) -> Sent {
        let Some(changes) = self.service.changes() else {
            return self.send_whole(place, body, to).await;
        };
        let begun = place.known().copy.take();
        let is_begun = begun.is_some();
        let mut copy = begun.unwrap_or_else(|| {
            changes.begin_copy(body);
            let name = self.named_copy(to.hand.joined);
            OutgoingCopy::new(to.hand.generation - 1, name)
        });
        let sent = self.send_pieces((changes, body), &mut copy, to).await;
        if sent != Sent::NoCopy {
            // The copy ends with the body, or when the shard stays here.
            place.known().copy = Some(copy);
            return sent;
        }
        changes.end_copy(body);
        match is_begun {
            // The next try sends a copy from its beginning.
            true => Sent::NotYet,
            false => self.send_whole(place, body, to).await,
        }
    }

    /// Sends the pieces of the copy, one after another.
    async fn send_pieces(
        &self,
        (changes, body): (&dyn Changes<S::Body>, &mut S::Body),
        copy: &mut OutgoingCopy,
        to: Recipient,
    ) -> Sent {
        loop {
            let made = copy.piece(|| changes.next_piece(body, self.options.piece));
            let Some(is_last) = made.map(|it| it.left == 0) else {
                tracing::warn!(
                    to.shard,
                    "a piece of the body is empty, or too long to be sent"
                );
                return Sent::NoCopy;
            };
            let frame = HandFrame {
                shard: to.shard,
                hand: to.hand,
                copy: Some(copy.name()),
                at: copy.at(),
                is_last,
                bytes: copy.bytes(),
            };
            match self.send_frame(to.next, frame).await {
                Sent::All if is_last => return Sent::All,
                Sent::All => copy.note_taken(),
                Sent::NotYet => return Sent::NotYet,
                Sent::NoCopy => return Sent::NoCopy,
            }
        }
    }

    /// Sends the body as the service hands it over. If the next owner doesn't take it yet, keeps the bytes for the next
    /// try.
    async fn send_whole(&self, place: &Place<S::Body>, body: &mut S::Body, to: Recipient) -> Sent {
        let generation = to.hand.generation;
        let kept = place.known().spelled.take();
        let kept = kept.filter(|it| it.0 == generation);
        let bytes = kept.map_or_else(|| self.service.hand_over(body), |it| it.1);
        let sent = self.send_bytes(&bytes, to).await;
        if sent != Sent::All {
            place.known().spelled = Some((generation, bytes));
        }
        sent
    }

    /// Sends the bytes of a whole body, in frames.
    async fn send_bytes(&self, bytes: &[u8], to: Recipient) -> Sent {
        let mut at = 0;
        loop {
            let end = (at + CHUNK).min(bytes.len());
            let frame = HandFrame {
                shard: to.shard,
                hand: to.hand,
                copy: None,
                at: at as u64,
                is_last: end == bytes.len(),
                bytes: &bytes[at..end],
            };
            let sent = self.send_frame(to.next, frame).await;
            if sent != Sent::All || end == bytes.len() {
                return sent;
            }
            at = end;
        }
    }

    async fn send_frame(&self, next: u16, frame: HandFrame<'_>) -> Sent {
        let Some(address) = self.address_of(next) else {
            return Sent::NotYet;
        };
        let asked = Request::Hand(frame).written();
        let end = self.environment.end_of(PIECE);
        let response = self.environment.ask(&address, asked, end).await;
        let shard = frame.shard;
        match response.as_deref().map(Response::read) {
            Ok(Ok(Response::Taken)) => Sent::All,
            Ok(Ok(Response::NoCopy(why))) => {
                tracing::info!(shard, next, why, "the next owner has no such copy");
                Sent::NoCopy
            }
            Ok(Ok(Response::Again(why))) => {
                tracing::info!(shard, next, why, "the next owner doesn't take the body yet");
                Sent::NotYet
            }
            Ok(Ok(_)) => Sent::NotYet,
            Ok(Err(error)) => {
                tracing::info!(shard, next, %error, "the next owner's answer isn't read");
                Sent::NotYet
            }
            Err(error) => {
                tracing::info!(shard, next, %error, "the next owner isn't reached");
                Sent::NotYet
            }
        }
    }
}
