ghost use Rattle.sm_arena.specs.Pieces.{IsPlaced};

use sm_arena::{Arena, Span};
use std::alloc::{AllocError, Global};

// An arena, with the spans of the pieces that were placed in it first and last.
#[derive(Drop)]
pub(crate) struct Shelf {
    arena: Arena,
    first: Span,
    last: Span,
    ghost first_is_placed: { IsPlaced arena.placed first },
    ghost last_is_placed: { IsPlaced arena.placed last },
}

impl Shelf {
    // A new arena with this piece.
    #[tactic(auto, using(sm_arena::specs::lemmas::Placing::placed_now))]
    pub(crate) fn new(alloc: Global, piece: &[u8]) -> Result<Shelf, AllocError> {
        let mut arena = Arena::new(alloc);
        let first = arena.place(piece)?;
        Ok(Shelf {
            arena,
            first,
            last: first,
        })
    }

    pub(crate) fn first(&self) -> &[u8] {
        self.arena.get(self.first)
    }

    pub(crate) fn last(&self) -> &[u8] {
        self.arena.get(self.last)
    }

    pub(crate) fn bytes(&self) -> u128 {
        self.arena.bytes()
    }

    pub(crate) fn held(&self) -> u128 {
        self.arena.held()
    }

    pub(crate) fn dead(&self) -> u128 {
        self.arena.dead()
    }

    // Places the piece, which is then the last one.
    #[tactic(auto, using(sm_arena::specs::lemmas::Placing::placed_now, sm_arena::specs::lemmas::Placing::placed_later))]
    pub(crate) fn place(&mut self, piece: &[u8]) -> Result<(), AllocError> {
        self.last = self.arena.place(piece)?;
        Ok(())
    }

    // Places a further piece, and the last one stays the same.
    #[tactic(auto, using(sm_arena::specs::lemmas::Placing::placed_later))]
    pub(crate) fn place_further(&mut self, piece: &[u8]) -> Result<(), AllocError> {
        self.arena.place(piece)?;
        Ok(())
    }

    // Places both pieces, of which the second is then the last one, and tells whether the first one reads the same.
    #[tactic(auto, using(sm_arena::specs::lemmas::Placing::pair_now, sm_arena::specs::lemmas::Placing::pair_later))]
    pub(crate) fn place_pair(&mut self, first: &[u8], second: &[u8]) -> Result<bool, AllocError> {
        let (one, other) = self.arena.place_pair(first, second)?;
        self.last = other;
        Ok(self.arena.get(one) == first)
    }

    // Joins the piece, which is then the last one.
    #[tactic(auto, using(sm_arena::specs::lemmas::Placing::placed_now, sm_arena::specs::lemmas::Placing::placed_later))]
    pub(crate) fn join(&mut self, piece: Vec<u8>) -> Result<(), (Vec<u8>, AllocError)> {
        self.last = self.arena.join(piece)?;
        Ok(())
    }

    // Joins the one piece, which is then the last one, and places the other, and tells whether that one reads the same.
    #[tactic(auto, using(sm_arena::specs::lemmas::Placing::pair_now, sm_arena::specs::lemmas::Placing::pair_later))]
    pub(crate) fn join_and_place(
        &mut self,
        joined: Vec<u8>,
        placed: &[u8],
    ) -> Result<bool, (Vec<u8>, AllocError)> {
        let (one, other) = self.arena.join_and_place(joined, placed)?;
        self.last = one;
        Ok(self.arena.get(other) == placed)
    }

    // Places the last piece followed by the tail, which is then the last one, and tells whether it reads so.
    #[tactic(auto, using(sm_arena::specs::lemmas::Placing::placed_now, sm_arena::specs::lemmas::Placing::placed_later))]
    pub(crate) fn lengthen(&mut self, tail: &[u8]) -> Result<bool, AllocError> {
        let before = self.last;
        self.last = self.arena.concat(before, tail)?;
        Ok(is_joined(self.arena.get(self.last), self.arena.get(before), tail))
    }
}

// Whether the whole is the head followed by the tail.
pub(crate) fn is_joined(whole: &[u8], head: &[u8], tail: &[u8]) -> bool {
    whole.starts_with(head)
        && whole.ends_with(tail)
        && whole.len() == head.len().wrapping_add(tail.len())
}
