use crate::copy_name::CopyName;
use crate::frame::HandFrame;
use crate::Fault;
use std::sync::Arc;
use thiserror::Error;
use tokio::sync::OwnedSemaphorePermit;

/// A shard's body that comes from its owner to its next owner, piece by piece.
pub(crate) struct IncomingBody<B> {
    /// The generation of the record under which this process prepares. The body is handed over under the record after
    /// that.
    generation: u64,
    /// The number of bytes that have come.
    bytes: u64,
    content: Content<B>,
    /// The room that this body takes, because only so many bodies may come to this process at once.
    room: Arc<OwnedSemaphorePermit>,
}

/// The part of a body that has come.
pub(crate) enum Content<B> {
    /// A part of the bytes of [`Service::hand_over`](crate::Service::hand_over).
    Whole(Vec<u8>),
    /// A body to which the service adds the pieces of this copy.
    Copy(CopyName, B),
}

/// Why a piece isn't taken.
#[derive(Debug, Error)]
pub(crate) enum PieceFault {
    #[error("it doesn't follow on the piece before")]
    Unexpected,
    #[error("it is longer than --body lets it be")]
    TooLong,
    #[error("the service doesn't add it: {0}")]
    Service(Fault),
}

impl<B> IncomingBody<B> {
    /// Returns a body that comes under the record of this generation, and under the record after it.
    pub(crate) fn new(
        generation: u64,
        content: Content<B>,
        room: Arc<OwnedSemaphorePermit>,
    ) -> IncomingBody<B> {
        IncomingBody {
            generation,
            bytes: 0,
            content,
            room,
        }
    }

    /// Returns the room for a body. Nothing of the body has come yet.
    pub(crate) fn reserved(generation: u64, room: Arc<OwnedSemaphorePermit>) -> IncomingBody<B> {
        IncomingBody::new(generation, Content::Whole(Vec::new()), room)
    }

    pub(crate) fn generation(&self) -> u64 {
        self.generation
    }

    /// Returns the room that the body takes. The room is free again once nobody has it.
    pub(crate) fn room(&self) -> Arc<OwnedSemaphorePermit> {
        self.room.clone()
    }

    /// Returns the number of bytes that have come.
    pub(crate) fn bytes(&self) -> u64 {
        self.bytes
    }

    /// Returns whether this piece of a hand-over belongs to this body.
    pub(crate) fn is_of(&self, frame: &HandFrame<'_>) -> bool {
        self.generation + 1 == frame.hand.generation && self.name() == frame.copy
    }

    /// Returns whether this first piece of a hand-over begins a new body. If it is of the same copy, or of an earlier
    /// one, it has come late.
    pub(crate) fn is_before(&self, frame: &HandFrame<'_>) -> bool {
        let is_late = match (self.name(), frame.copy) {
            (Some(own), Some(other)) => own.server == other.server && !other.is_later_than(own),
            (None, _) | (_, None) => false,
        };
        self.generation + 1 != frame.hand.generation || !is_late
    }

    fn name(&self) -> Option<CopyName> {
        match self.content {
            Content::Whole(_) => None,
            Content::Copy(name, _) => Some(name),
        }
    }

    /// Takes the piece that begins after `at` bytes. It must be the next one, and no more than `most` bytes may have
    /// come with it. If it is the piece that was taken last, nothing changes.
    pub(crate) fn take(
        &mut self,
        at: u64,
        piece: &[u8],
        most: u64,
        add: impl FnOnce(&mut B, &[u8]) -> Result<(), Fault>,
    ) -> Result<(), PieceFault> {
        let end = at.saturating_add(piece.len() as u64);
        if at < self.bytes && end == self.bytes {
            return Ok(());
        }
        if at != self.bytes {
            return Err(PieceFault::Unexpected);
        }
        if end > most {
            return Err(PieceFault::TooLong);
        }
        match &mut self.content {
            Content::Whole(bytes) => bytes.extend(piece),
            Content::Copy(_, body) => add(body, piece).map_err(PieceFault::Service)?,
        }
        self.bytes = end;
        Ok(())
    }

    /// Returns the part of the body that has come.
    pub(crate) fn into_content(self) -> Content<B> {
        self.content
    }
}

#[cfg(test)]
mod tests {
    use super::*;
    use durkenzo_store_sys::HandOver;
    use std::sync::Arc;
    use tokio::sync::Semaphore;

    fn body(content: Content<Vec<u8>>) -> IncomingBody<Vec<u8>> {
        let place = Arc::new(Semaphore::new(1)).try_acquire_owned();
        IncomingBody::new(7, content, Arc::new(place.unwrap()))
    }

    fn add(body: &mut Vec<u8>, piece: &[u8]) -> Result<(), Fault> {
        if piece == b"bad" {
            return Err("it is bad".into());
        }
        body.extend(piece);
        Ok(())
    }

    fn named(count: u64) -> CopyName {
        CopyName {
            server: 3,
            joined: 1,
            count,
        }
    }

    fn copy(count: u64) -> Content<Vec<u8>> {
        Content::Copy(named(count), Vec::new())
    }

    fn frame(generation: u64, copy: Option<CopyName>) -> HandFrame<'static> {
        HandFrame {
            shard: 0,
            hand: HandOver {
                joined: 1,
                generation,
                server: 3,
            },
            copy,
            at: 0,
            is_last: true,
            bytes: b"",
        }
    }

    #[test]
    fn pieces_are_taken_in_their_order_and_once() {
        for content in [Content::Whole(Vec::new()), copy(7)] {
            let mut body = body(content);
            let mut take = |at, piece: &[u8]| body.take(at, piece, 5, add);
            assert!(matches!(take(2, b"cd"), Err(PieceFault::Unexpected)));
            assert!(take(0, b"ab").is_ok() && take(0, b"ab").is_ok());
            assert!(matches!(take(3, b"de"), Err(PieceFault::Unexpected)));
            assert!(matches!(take(2, b"cdef"), Err(PieceFault::TooLong)));
            assert!(take(2, b"cde").is_ok() && take(5, b"").is_ok());
            assert_eq!(body.bytes(), 5);
            let (Content::Whole(bytes) | Content::Copy(_, bytes)) = body.into_content();
            assert_eq!(bytes, b"abcde");
        }
        let refused = body(copy(7)).take(0, b"bad", 5, add);
        assert!(matches!(refused, Err(PieceFault::Service(_))));
    }

    #[test]
    fn a_piece_is_of_the_body_whose_record_comes_before() {
        let body = body(copy(7));
        let of = |generation, copy| body.is_of(&frame(generation, copy));
        assert!(of(8, Some(named(7))) && !of(8, Some(named(8))) && !of(8, None));
        assert!(!of(7, Some(named(7))) && !of(9, Some(named(7))));
    }

    #[test]
    fn a_piece_of_an_earlier_copy_that_comes_late_begins_nothing() {
        let before = |content, copy| body(content).is_before(&frame(8, copy));
        assert!(before(copy(7), Some(named(8))) && before(copy(7), None));
        assert!(!before(copy(7), Some(named(7))) && !before(copy(7), Some(named(6))));
        assert!(before(Content::Whole(Vec::new()), Some(named(1))));
        assert!(body(copy(7)).is_before(&frame(9, Some(named(6)))));
        // The owner sends a copy of its own, because the copy that was fetched can't be continued.
        let name = CopyName {
            server: 4,
            ..named(1)
        };
        assert!(before(copy(7), Some(name)));
    }
}
