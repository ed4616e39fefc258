use crate::{Fault, Shard};

/// A service that moves a body in pieces while it answers calls with it. It must keep track of the changes of the body
/// in the meantime.
///
/// While a shard moves, its owner holds the body and one piece. The next owner holds the part of the body that has
/// come, and one piece.
pub trait Changes<B> {
    /// Begins a copy of the body, and tracks changes from now on. If there is an earlier copy, forgets it.
    fn begin_copy(&self, body: &mut B);

    /// Returns the next piece: first the parts that aren't copied yet, and then the parts that have changed since they
    /// were copied. A piece should have at most `most` bytes, and must have at most 1 MiB. No call of the shard is
    /// answered while this runs.
    fn next_piece(&self, body: &mut B, most: usize) -> Piece;

    /// Ends the copy, so that changes need no longer be tracked. The shard stays here, or the next owner has no copy
    /// that this one continues.
    fn end_copy(&self, body: &mut B);

    /// Returns a body without content, to which pieces will be added.
    ///
    /// # Errors
    ///
    /// If the service can't make one yet. This is called again a little later. At first the shard stays with its owner.
    /// After three failures it is handed over without a copy, and its calls wait until this succeeds.
    fn begin_body(&self, shard: Shard) -> Result<B, Fault>;

    /// Adds a piece to a body. Pieces come in the order in which they were made, each of them once.
    ///
    /// # Errors
    ///
    /// If the piece can't be added. The body is dropped, and is copied again from its beginning.
    fn add_piece(&self, body: &mut B, piece: &[u8]) -> Result<(), Fault>;

    /// Ends a body that has all its pieces. From now on, calls are answered with it.
    ///
    /// # Errors
    ///
    /// The same as for [`Changes::add_piece`].
    fn end_body(&self, _shard: Shard, _body: &mut B) -> Result<(), Fault> {
        Ok(())
    }
}

/// A piece of a body.
#[derive(Clone, Debug, Default, PartialEq, Eq)]
pub struct Piece {
    /// The bytes that [`Changes::add_piece`] adds. They must not be empty if anything is left.
    pub bytes: Vec<u8>,
    /// About how many bytes are left for further pieces. It must be 0 exactly if the copy equals the body: all of the
    /// body is copied, and nothing has changed since.
    pub left: u64,
}
