//! The body of a shard: an ordered map of keys to texts and counts, behind one trait.
mod proved;

pub use proved::ProvedBody;

use durkenzo::MapFault;
use std::ops::Bound;

/// The most bytes of a key; the least is one.
pub const MAX_KEY: usize = 255;
/// The most bytes of a text.
pub const MAX_TEXT: usize = 65_535;
/// The most pairs that one scan gives.
pub const MAX_PAIRS: usize = 100;

/// The value of a key: a text or a count, which are two kinds.
#[derive(Clone, Copy, Debug, PartialEq, Eq)]
pub enum ValueRef<'a> {
    /// At most `MAX_TEXT` bytes.
    Text(&'a [u8]),
    /// A number, to which others can be added.
    Count(i64),
}

/// The keys from a lower bound on, up to an upper bound.
#[derive(Clone, Copy, Debug)]
pub struct RangeRef<'a> {
    /// The lower bound.
    pub low: Bound<&'a [u8]>,
    /// The first key that isn't in the range, if there is one.
    pub high: Option<&'a [u8]>,
    /// The most pairs that are wanted, at most `MAX_PAIRS`.
    pub most: usize,
}

/// A request to a shard.
#[derive(Clone, Copy, Debug)]
pub enum BodyRequest<'a> {
    /// Returns the value of the key.
    Get(&'a [u8]),
    /// Sets the value of the key, whether it has one or not.
    Put(&'a [u8], ValueRef<'a>),
    /// Appends to the text of the key. If the key has no value, it appends to an empty text.
    Append(&'a [u8], &'a [u8]),
    /// Adds to the count of the key. If the key has no value, it adds to 0.
    Add(&'a [u8], i64),
    /// Deletes the key.
    Delete(&'a [u8]),
    /// Returns pairs in the order of their keys.
    Scan(RangeRef<'a>),
}

/// Why a request changes nothing.
#[derive(Clone, Copy, Debug, PartialEq, Eq)]
pub enum BodyRefusal {
    /// The key holds a count, but the request is for a text; or the reverse.
    WrongKind,
    /// The text would have more than `MAX_TEXT` bytes.
    TooLong,
    /// The sum doesn't fit into 64 bits.
    Overflow,
    /// Memory was refused.
    NoMemory,
}

/// A key and its value.
pub type PairRef<'a> = (&'a [u8], ValueRef<'a>);

/// A shard's reply.
#[derive(Clone, Debug, PartialEq, Eq)]
pub enum BodyReply<'a> {
    /// The key had no value (reply to Get and Delete).
    Nothing,
    /// The request was done (reply to Put and Delete).
    Done,
    /// The value of the key (reply to Get).
    Value(ValueRef<'a>),
    /// The new length of the text, in bytes (reply to Append).
    Length(usize),
    /// The new count (reply to Add).
    Count(i64),
    /// The first pairs of the range (reply to Scan).
    Pairs(Vec<PairRef<'a>>),
    /// Nothing was changed.
    Refused(BodyRefusal),
}

/// The operations of a shard's body. Only one thread at a time has a body: the one to which the board gave its permit.
pub trait ShardBody: Send {
    /// Returns the value of the key, if it has one; or `NoMemory`. Here and below, a key must have 1 to `MAX_KEY`
    /// bytes.
    fn get(&mut self, key: &[u8]) -> Result<Option<ValueRef<'_>>, BodyRefusal>;

    /// Sets the value of the key, whether it has one or not; or fails with `TooLong` or `NoMemory`.
    fn put(&mut self, key: &[u8], value: ValueRef<'_>) -> Result<(), BodyRefusal>;

    /// Adds to the count of the key, or to 0 if it has no value, and returns the sum; or `WrongKind`, `Overflow` or
    /// `NoMemory`.
    fn add(&mut self, key: &[u8], number: i64) -> Result<i64, BodyRefusal>;

    /// Does the request, and returns the reply.
    fn apply<'a>(&'a mut self, request: BodyRequest<'_>) -> BodyReply<'a>;

    /// Deletes all keys, or fails with `NoMemory`.
    fn clear(&mut self) -> Result<(), BodyRefusal>;

    /// Frees the room that the last reply took, if it is large.
    fn forget(&mut self);

    /// Returns how many bytes the key's value has when it is written, and copies none of them. Returns nothing if the
    /// key has no value.
    ///
    /// # Errors
    ///
    /// If memory is refused.
    fn measure(&mut self, key: &[u8]) -> Result<Option<usize>, BodyRefusal>;

    /// Returns how many keys have a value.
    fn keys(&mut self) -> usize;
}

/// The board's content for a shard.
pub type BoxedBody = Box<dyn ShardBody>;

/// Returns the body with which a shard begins. It holds no keys.
///
/// # Errors
///
/// `NoMemory`.
pub fn new_shard() -> Result<BoxedBody, MapFault> {
    Ok(Box::new(ProvedBody::new()?))
}
