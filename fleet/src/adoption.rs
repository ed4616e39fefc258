//! The work of a shard's next owner: it fetches a copy while the owner answers calls, and takes the rest afterwards.
use crate::body_lock::BodyInUse;
use crate::copy_progress::CopyProgress;
use crate::fleet_inner::FleetInner;
use crate::frame::{HandFrame, Request, Response, MOST};
use crate::hand_over::PIECE;
use crate::incoming_body::{Content, IncomingBody, PieceFault};
use crate::place::{Known, Place, Preparation};
use crate::{Came, Changes, Fault, Service, Shard};
use durkenzo::Stand;
use std::sync::Arc;
use std::time::Duration;
use tokio::sync::OwnedSemaphorePermit;

/// How often a copy is begun from its beginning, before the shard moves without a copy.
const TRIES: u32 = 3;
/// The time after which a body that was too long is asked for again.
const LATER: Duration = Duration::from_secs(2);

/// Why there is no copy of a body.
enum NotCopied {
    /// The body is longer than it may be, so it stays with its owner.
    TooLong,
    Failed(String),
}

/// Why this process doesn't take a piece that an owner hands over.
#[derive(Clone, Copy, Debug, PartialEq, Eq)]
pub(crate) enum NotTaken {
    /// The owner may send the piece again.
    Again(&'static str),
    /// This process has no copy that the piece continues.
    NoCopy(&'static str),
}

impl<S: Service> FleetInner<S> {
    /// Tells the service to prepare for a shard. If the service moves bodies in pieces, fetches a copy too. Returns
    /// whether the shard may be handed over.
    pub(crate) async fn prepare(
        &self,
        shard: u16,
        place: &Place<S::Body>,
        (owner, generation): (u16, u64),
    ) -> bool {
        let Some(named) = self.begin_to_prepare(shard, place, (owner, generation)) else {
            return false;
        };
        // If there is no room for another body, this is tried again later.
        let Some(room) = self.room() else {
            return false;
        };
        let (Some(changes), of) = (self.service.changes(), (named, owner, generation)) else {
            *place.incoming() = Some(IncomingBody::reserved(generation, room));
            return true;
        };
        let came = match self.fetched(place, changes, of, room.clone()).await {
            Ok(copy) => Some(copy),
            Err(why) => self
                .may_go_without(shard, place, why)
                .then(|| IncomingBody::reserved(generation, room)),
        };
        let may_go = came.is_some();
        if may_go {
            *place.incoming() = came;
        }
        may_go
    }

    /// Tells the service to prepare, unless it was told under this record already. Returns the shard, unless its body
    /// was too long a moment ago.
    fn begin_to_prepare(
        &self,
        shard: u16,
        place: &Place<S::Body>,
        (owner, generation): (u16, u64),
    ) -> Option<Shard> {
        let (fence, is_first, again) = {
            let mut known = place.known();
            let is_first = known.prepared.generation != generation;
            if is_first {
                known.prepared = Preparation::new(generation);
            }
            (known.fence(), is_first, known.prepared.again)
        };
        let named = Shard::new(shard, fence);
        if is_first {
            self.service.prepare_add(named, Some(owner));
        }
        again
            .is_none_or(|it| self.environment.is_past(it))
            .then_some(named)
    }

    /// Returns whether the shard may move without a copy before the hand-over, because a copy failed too often.
    fn may_go_without(&self, shard: u16, place: &Place<S::Body>, why: NotCopied) -> bool {
        let mut known = place.known();
        match why {
            NotCopied::TooLong => {
                let most = self.options.body;
                tracing::warn!(
                    shard,
                    most,
                    "the body is longer than --body lets it be, and stays with its owner"
                );
                known.prepared.again = Some(self.environment.end_of(LATER));
                false
            }
            NotCopied::Failed(why) => {
                tracing::info!(shard, why, "there is no copy of the body");
                known.prepared.failures += 1;
                known.prepared.failures >= TRIES
            }
        }
    }

    /// Fetches a copy from the owner, one piece at a time, until little is left or as many bytes have come as may.
    async fn fetched(
        &self,
        place: &Place<S::Body>,
        changes: &dyn Changes<S::Body>,
        (shard, owner, generation): (Shard, u16, u64),
        room: Arc<OwnedSemaphorePermit>,
    ) -> Result<IncomingBody<S::Body>, NotCopied> {
        let body = changes.begin_body(shard);
        let body = body.map_err(|it| NotCopied::Failed(it.to_string()))?;
        let name = self.named_copy(place.known().view.joined());
        let mut copy = IncomingBody::new(generation, Content::Copy(name, body), room);
        let mut progress = CopyProgress::new();
        loop {
            if place.known().record().generation != generation || self.is_stopping() {
                return Err(NotCopied::Failed("the record has changed".to_owned()));
            }
            let request = Request::Copy {
                shard: shard.number(),
                generation,
                name,
                at: copy.bytes(),
            };
            let before = copy.bytes();
            let left = self.fetch(owner, &request, &mut copy, changes).await;
            let left = left.map_err(NotCopied::Failed)?;
            let is_full = copy.bytes() >= self.options.body;
            let came = copy.bytes() - before;
            if came.saturating_add(left) > self.options.body {
                return Err(NotCopied::TooLong);
            }
            if progress.is_enough(left, came, self.options.piece) || is_full {
                return Ok(copy);
            }
        }
    }

    /// Asks the owner for a piece, and adds it. Returns about how many bytes are left.
    async fn fetch(
        &self,
        owner: u16,
        request: &Request<'_>,
        copy: &mut IncomingBody<S::Body>,
        changes: &dyn Changes<S::Body>,
    ) -> Result<u64, String> {
        let address = self.address_of(owner).ok_or("its owner isn't there")?;
        let response =
            self.environment
                .ask(&address, request.written(), self.environment.end_of(PIECE));
        let response = response.await;
        let response = response.map_err(|it| it.to_string())?;
        match Response::read(&response).map_err(|it| it.to_string())? {
            Response::Piece { left, bytes } => {
                let (at, most) = (copy.bytes(), self.most_of_copy());
                let taken = copy.take(at, bytes, most, |body, it| changes.add_piece(body, it));
                taken.map_err(|it| it.to_string())?;
                Ok(left)
            }
            Response::Again(why) => Err(why.to_owned()),
            _ => Err("its owner answers something else".to_owned()),
        }
    }

    /// Returns the most bytes that should come for a copy: those of a body and of one piece while the owner answers,
    /// and those of a body afterwards.
    fn most_of_copy(&self) -> u64 {
        let most = self.options.body.saturating_mul(2);
        most.saturating_add(MOST as u64)
    }

    /// Returns the most bytes that may come after the owner has let go. If the body is longer, the shard stops.
    fn most_handed_over(&self) -> u64 {
        self.most_of_copy().saturating_mul(2)
    }

    /// Returns room for one more body, if there is any.
    fn room(&self) -> Option<Arc<OwnedSemaphorePermit>> {
        self.moves.clone().try_acquire_owned().ok().map(Arc::new)
    }

    /// Takes a piece that the owner hands over. With the last piece, the shard begins.
    pub(crate) async fn take_hand_over(&self, frame: &HandFrame<'_>) -> Result<(), NotTaken> {
        let place = self.places.get(usize::from(frame.shard));
        let place = place.ok_or(NotTaken::Again("there is no such shard"))?;
        self.await_record(place, frame.hand.generation).await;
        // The body must be locked before the incoming body.
        let body = match frame.is_last {
            true => Some(place.body().await),
            false => None,
        };
        let mut incoming = place.incoming();
        {
            // This check needs the lock of the incoming body, because a change of the record drops the incoming body
            // under that lock.
            let known = place.known();
            if !self.is_meant(&known, frame) {
                let why = "it isn't for this process, by the record that it has read";
                return Err(NotTaken::Again(why));
            }
            if known.hand == Some(frame.hand) && known.body_is_of.is_some() {
                // The piece has come before, and the owner hasn't got the answer.
                return Ok(());
            }
        }
        self.take_piece(place, &mut incoming, frame)?;
        let whole = incoming.take_if(|_| frame.is_last);
        let (Some(mut body), Some(whole)) = (body, whole) else {
            return Ok(());
        };
        let (generation, room) = (whole.generation(), whole.room());
        let adopted = self.adopt(place, &mut body, frame, whole.into_content());
        if adopted.is_err() {
            // The owner sends it again.
            *incoming = Some(IncomingBody::reserved(generation, room));
        }
        drop((incoming, body));
        place.queue.wake();
        adopted
    }

    fn take_piece(
        &self,
        place: &Place<S::Body>,
        incoming: &mut Option<IncomingBody<S::Body>>,
        frame: &HandFrame<'_>,
    ) -> Result<(), NotTaken> {
        let is_later = |it: &IncomingBody<S::Body>| it.is_before(frame);
        if frame.at == 0 && incoming.as_ref().is_none_or(is_later) {
            self.begin_to_take(place, incoming, frame)?;
        }
        let none = NotTaken::NoCopy("there is nothing here that it continues");
        let it = incoming.as_mut().filter(|it| it.is_of(frame)).ok_or(none)?;
        let add = |body: &mut S::Body, piece: &[u8]| match self.service.changes() {
            Some(changes) => changes.add_piece(body, piece),
            None => Err("the service notes no changes".into()),
        };
        match it.take(frame.at, frame.bytes, self.most_handed_over(), add) {
            Ok(()) => {
                self.warn_of_long(frame, it.bytes());
                Ok(())
            }
            Err(PieceFault::Unexpected) => Err(none),
            Err(PieceFault::TooLong) => {
                let (shard, most) = (frame.shard, self.options.body);
                let why = "it is longer by far than --body lets it be";
                tracing::warn!(shard, most, why, "a shard stops until its next owner ends");
                Err(NotTaken::Again(why))
            }
            Err(fault @ PieceFault::Service(_)) => {
                // The service may have added a part of the piece.
                *incoming = Some(IncomingBody::reserved(prepared_by(frame), it.room()));
                Err(NotTaken::NoCopy(warned(frame.shard, &fault.to_string())))
            }
        }
    }

    /// Begins to take a hand-over. If it can't begin, the shard keeps its room.
    fn begin_to_take(
        &self,
        place: &Place<S::Body>,
        incoming: &mut Option<IncomingBody<S::Body>>,
        frame: &HandFrame<'_>,
    ) -> Result<(), NotTaken> {
        let full = NotTaken::Again("as many bodies come to this process as may");
        let room = incoming.take().map(|it| it.room());
        let room = room.or_else(|| self.room()).ok_or(full)?;
        let prepared = prepared_by(frame);
        *incoming = Some(IncomingBody::reserved(prepared, room.clone()));
        let content = self.begun(place, frame)?;
        *incoming = Some(IncomingBody::new(prepared, content, room));
        Ok(())
    }

    /// Warns of a body that is longer than it may be. It was taken all the same, because its owner has let go.
    fn warn_of_long(&self, frame: &HandFrame<'_>, bytes: u64) {
        let most = match frame.copy {
            Some(_) => self.most_of_copy(),
            None => self.options.body,
        };
        if frame.is_last && bytes > most {
            let (shard, most) = (frame.shard, self.options.body);
            tracing::warn!(
                shard,
                bytes,
                most,
                "a body is longer than --body lets it be"
            );
        }
    }

    /// Returns the empty content for a hand-over that has just begun.
    fn begun(
        &self,
        place: &Place<S::Body>,
        frame: &HandFrame<'_>,
    ) -> Result<Content<S::Body>, NotTaken> {
        let Some(name) = frame.copy else {
            return Ok(Content::Whole(Vec::new()));
        };
        if name.server != frame.hand.server {
            // This process chose the name of the copy, and doesn't have the copy any more.
            return Err(NotTaken::NoCopy("that copy isn't here"));
        }
        let none = NotTaken::NoCopy("the next owner's service notes no changes");
        let changes = self.service.changes().ok_or(none)?;
        let shard = Shard::new(frame.shard, place.known().fence());
        let made = changes.begin_body(shard);
        let body = made.map_err(|it| not_added(frame.shard, &it))?;
        Ok(Content::Copy(name, body))
    }

    /// Returns whether the shard moves to this process under the present record, and from the process that the frame
    /// names. According to the proved view, that process has let go. A frame of an earlier record is too late, even if
    /// the owner had let go of that record.
    fn is_meant(&self, known: &Known, frame: &HandFrame<'_>) -> bool {
        let (record, hand) = (known.record(), &frame.hand);
        let stand = Stand::Forwarding {
            owner: hand.server,
            next: self.server(),
        };
        let is_of_record = record.stand == stand && record.generation == hand.generation;
        is_of_record && known.view.handed(hand).is_ok_and(|it| it.is_freed())
    }

    /// Begins the shard with the content that was handed over, unless it has begun already.
    fn adopt(
        &self,
        place: &Place<S::Body>,
        body: &mut BodyInUse<'_, S::Body>,
        frame: &HandFrame<'_>,
        content: Content<S::Body>,
    ) -> Result<(), NotTaken> {
        self.drop_stale(frame.shard, place, body);
        let shard = Shard::new(frame.shard, place.known().fence());
        let made = match body.is_some() {
            true => None,
            false => Some(self.added(shard, content)?),
        };
        let mut known = place.known();
        if !self.is_meant(&known, frame) {
            drop(known);
            made.into_iter()
                .for_each(|it| self.service.dropped(shard, it));
            return Err(NotTaken::Again("the record has changed since"));
        }
        if let Ok(view) = known.view.handed(&frame.hand) {
            known.view = view;
        }
        known.hand = Some(frame.hand);
        if made.is_some() {
            (known.body_is_of, known.had_body) = (Some(known.holding()), true);
            **body = made;
        }
        Ok(())
    }

    /// Makes the service turn the content that was handed over into a body.
    fn added(&self, shard: Shard, content: Content<S::Body>) -> Result<S::Body, NotTaken> {
        let added = match (content, self.service.changes()) {
            (Content::Whole(bytes), _) => self.service.add(shard, Came::Handed(&bytes)),
            (Content::Copy(_, mut body), Some(changes)) => {
                changes.end_body(shard, &mut body).map(|()| body)
            }
            (Content::Copy(_, body), None) => Ok(body),
        };
        added.map_err(|it| not_added(shard.number(), &it))
    }
}

/// Returns the generation of the record under which this process prepared for this hand-over.
fn prepared_by(frame: &HandFrame<'_>) -> u64 {
    frame.hand.generation.saturating_sub(1)
}

fn not_added(shard: u16, error: &Fault) -> NotTaken {
    NotTaken::Again(warned(shard, &error.to_string()))
}

fn warned(shard: u16, error: &str) -> &'static str {
    tracing::warn!(shard, error, "a shard that was handed over isn't added");
    "the service doesn't add it"
}
