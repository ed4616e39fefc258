use crate::id_fault::IdFault;
use crate::limits::MAX_SHARD;
use std::fmt;

/// The number of a shard, from 0 to [`MAX_SHARD`]. It never stands for a server:
///
/// ```compile_fail,E0308
/// # use durkenzo::{Board, ServerId, ShardId};
/// # let board = Board::builder().build(vec![0u64])?;
/// board.control().assign(ServerId::new(1)?, ShardId::new(0)?)?;
/// # Ok::<(), Box<dyn std::error::Error>>(())
/// ```
#[derive(Clone, Copy, Debug, PartialEq, Eq, PartialOrd, Ord, Hash)]
pub struct ShardId(u16);

impl ShardId {
    /// The shard 0.
    pub const FIRST: ShardId = ShardId(0);

    /// Returns the shard of this number.
    ///
    /// # Errors
    ///
    /// `Shard` if the number is above [`MAX_SHARD`].
    pub const fn new(number: u16) -> Result<ShardId, IdFault> {
        match number <= MAX_SHARD {
            true => Ok(ShardId(number)),
            false => Err(IdFault::Shard),
        }
    }

    /// Returns the shard with this number, which the library gave.
    pub(crate) const fn of(number: u16) -> ShardId {
        ShardId(number)
    }

    /// Returns all shards of a board with this many, in order. They are at most 4,096.
    pub fn all(count: usize) -> impl ExactSizeIterator<Item = ShardId> + Clone {
        let end = count.min(usize::from(MAX_SHARD) + 1) as u16;
        (0..end).map(ShardId)
    }

    /// Returns the shard's number.
    #[must_use]
    pub const fn get(self) -> u16 {
        self.0
    }

    /// Returns the shard's number, as the place of its body in a list.
    #[must_use]
    pub const fn index(self) -> usize {
        self.0 as usize
    }
}

impl fmt::Display for ShardId {
    fn fmt(&self, f: &mut fmt::Formatter<'_>) -> fmt::Result {
        self.0.fmt(f)
    }
}

impl From<ShardId> for u16 {
    fn from(shard: ShardId) -> u16 {
        shard.get()
    }
}

impl From<ShardId> for usize {
    fn from(shard: ShardId) -> usize {
        shard.index()
    }
}

impl TryFrom<u16> for ShardId {
    type Error = IdFault;

    fn try_from(number: u16) -> Result<ShardId, IdFault> {
        ShardId::new(number)
    }
}
