use crate::copy_name::CopyName;
use crate::frame::MOST;
use crate::Piece;

/// A copy of a body, which its owner makes piece by piece.
pub(crate) struct OutgoingCopy {
    /// The generation of the record under which the next owner prepares.
    generation: u64,
    name: CopyName,
    /// The piece that was made last. It is kept until the next owner has it.
    piece: Piece,
    /// The number of bytes that came before that piece.
    at: u64,
    /// Whether that piece is sent unasked, and isn't known to be taken.
    is_pending: bool,
}

impl OutgoingCopy {
    /// Returns a copy with this name and without pieces, for the next owner under the record of this generation.
    pub(crate) fn new(generation: u64, name: CopyName) -> OutgoingCopy {
        OutgoingCopy {
            generation,
            name,
            piece: Piece::default(),
            at: 0,
            is_pending: false,
        }
    }

    pub(crate) fn generation(&self) -> u64 {
        self.generation
    }

    pub(crate) fn name(&self) -> CopyName {
        self.name
    }

    /// Returns whether this is the copy with that name, for the next owner under the record of that generation.
    pub(crate) fn is(&self, (generation, name): (u64, CopyName)) -> bool {
        self.generation == generation && self.name == name
    }

    /// Returns whether that copy is a later one. If it is an earlier one, the request for it has come late.
    pub(crate) fn is_before(&self, (generation, name): (u64, CopyName)) -> bool {
        self.generation != generation || name.is_later_than(self.name)
    }

    /// Returns the number of bytes that came before the piece that was made last.
    pub(crate) fn at(&self) -> u64 {
        self.at
    }

    /// Returns the bytes of the piece that was made last.
    pub(crate) fn bytes(&self) -> &[u8] {
        &self.piece.bytes
    }

    /// Returns the piece after this many bytes, for a request of the next owner. It is the last piece again, or a new
    /// piece from `make`. Returns nothing if the copy has neither, or if the piece can't be sent.
    pub(crate) fn piece_at(&mut self, at: u64, make: impl FnOnce() -> Piece) -> Option<&Piece> {
        if at == self.end() {
            self.make(make);
        }
        (at == self.at).then(|| self.sendable())?
    }

    /// Returns the next piece to send unasked, once the next owner has all pieces that it asked for. It is the piece
    /// that this returned last, if that isn't taken yet, or a new piece from `make`. Returns nothing if the piece can't
    /// be sent.
    pub(crate) fn piece(&mut self, make: impl FnOnce() -> Piece) -> Option<&Piece> {
        if !self.is_pending {
            self.make(make);
        }
        self.is_pending = true;
        self.sendable()
    }

    /// Notes that the next owner has the piece that was made last, and frees the bytes of that piece.
    pub(crate) fn note_taken(&mut self) {
        self.at = self.end();
        self.piece = Piece::default();
        self.is_pending = false;
    }

    fn make(&mut self, make: impl FnOnce() -> Piece) {
        self.at = self.end();
        self.piece = make();
    }

    /// Returns the piece that was made last, if it can be sent.
    fn sendable(&self) -> Option<&Piece> {
        let length = self.piece.bytes.len();
        (length <= MOST && (length > 0 || self.piece.left == 0)).then_some(&self.piece)
    }

    fn end(&self) -> u64 {
        self.at + self.piece.bytes.len() as u64
    }
}

#[cfg(test)]
mod tests {
    use super::*;

    fn piece(bytes: &[u8], left: u64) -> Piece {
        let bytes = bytes.to_vec();
        Piece { bytes, left }
    }

    fn named(count: u64) -> CopyName {
        CopyName {
            server: 2,
            joined: 3,
            count,
        }
    }

    #[test]
    fn a_later_copy_is_told_from_an_earlier_one() {
        let copy = OutgoingCopy::new(4, named(7));
        assert!(copy.is((4, named(7))) && !copy.is((4, named(6))) && !copy.is((5, named(7))));
        assert!(copy.is_before((4, named(8))) && copy.is_before((5, named(1))));
        assert!(!copy.is_before((4, named(7))) && !copy.is_before((4, named(6))));
    }

    #[test]
    fn a_piece_is_made_once_and_sent_until_it_is_taken() {
        let mut copy = OutgoingCopy::new(4, named(1));
        let first = piece(b"abc", 2);
        assert_eq!(copy.piece_at(0, || first.clone()), Some(&first));
        let again = || -> Piece { panic!("it is made") };
        assert_eq!(copy.piece_at(0, again), Some(&first));
        assert_eq!(copy.piece_at(2, again), None);
        let second = piece(b"de", 0);
        assert_eq!(copy.piece_at(3, || second.clone()), Some(&second));
        assert_eq!(copy.piece_at(0, again), None);
        // The next owner has that piece. The changes since then are sent unasked.
        let third = piece(b"f", 0);
        assert_eq!(copy.piece(|| third.clone()), Some(&third));
        assert_eq!(copy.piece(again), Some(&third));
        assert_eq!(copy.at(), 5);
        copy.note_taken();
        let fourth = piece(b"", 0);
        assert_eq!(copy.piece(|| fourth.clone()), Some(&fourth));
        assert_eq!((copy.at(), copy.generation()), (6, 4));
    }

    #[test]
    fn a_piece_that_goes_on_without_bytes_or_is_too_long_isnt_sent() {
        let mut copy = OutgoingCopy::new(4, named(1));
        assert_eq!(copy.piece(|| piece(b"", 1)), None);
        copy.note_taken();
        assert_eq!(copy.piece(|| piece(&vec![0; MOST + 1], 0)), None);
    }
}
