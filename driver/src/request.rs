/// A key of a shard: 1 to 255 bytes.
pub type Key = Box<[u8]>;

/// The kinds of requests, as their bytes encode them.
const GET: u8 = 1;
pub(crate) const PUT: u8 = 2;
pub(crate) const APPEND: u8 = 3;
pub(crate) const ADD: u8 = 4;
pub(crate) const DELETE: u8 = 5;
/// The size of an addition's amount in bytes.
pub(crate) const COUNT_BYTES: usize = 8;

/// A request to a shard's map.
#[derive(Clone, Debug, PartialEq, Eq)]
pub enum MapRequest {
    /// Sets the key to this text, unless it has a count.
    Put(Key, Vec<u8>),
    /// Appends to the text of the key. If the key has no value, appends to an empty text.
    Append(Key, Vec<u8>),
    /// Adds to the count of the key. If the key has no value, adds to 0.
    Add(Key, i64),
    /// Deletes the key.
    Delete(Key),
}

impl MapRequest {
    /// Returns the key that it changes.
    pub fn key(&self) -> &Key {
        match self {
            MapRequest::Put(key, _)
            | MapRequest::Append(key, _)
            | MapRequest::Add(key, _)
            | MapRequest::Delete(key) => key,
        }
    }

    /// Returns whether it only deletes.
    pub(crate) fn deletes(&self) -> bool {
        matches!(self, MapRequest::Delete(_))
    }

    /// Returns how many bytes it has.
    pub(crate) fn length(&self) -> usize {
        let rest = match self {
            MapRequest::Put(_, text) | MapRequest::Append(_, text) => text.len(),
            MapRequest::Add(..) => COUNT_BYTES,
            MapRequest::Delete(_) => 0,
        };
        2 + self.key().len() + rest
    }

    /// Returns its bytes: the kind, the length of the key, the key, and the argument.
    pub(crate) fn bytes(&self) -> Vec<u8> {
        match self {
            MapRequest::Put(key, text) => spelled(PUT, key, text),
            MapRequest::Append(key, more) => spelled(APPEND, key, more),
            MapRequest::Add(key, amount) => spelled(ADD, key, &amount.to_be_bytes()),
            MapRequest::Delete(key) => spelled(DELETE, key, &[]),
        }
    }
}

/// Returns whether a request of these bytes only deletes.
pub(crate) fn is_deletion(bytes: &[u8]) -> bool {
    bytes.first() == Some(&DELETE)
}

/// Returns the bytes of a request for the value of the key.
pub(crate) fn get_bytes(key: &[u8]) -> Vec<u8> {
    spelled(GET, key, &[])
}

fn spelled(kind: u8, key: &[u8], rest: &[u8]) -> Vec<u8> {
    // The reader of commands refuses a longer key. If it were cut here, its request would be malformed.
    let length = u8::try_from(key.len()).unwrap_or(0);
    let mut bytes = Vec::with_capacity(2 + key.len() + rest.len());
    bytes.extend([kind, length]);
    bytes.extend(key);
    bytes.extend(rest);
    bytes
}

/// A range of a shard's keys, in their order.
#[derive(Clone, Debug, PartialEq, Eq)]
pub struct Range {
    /// No key is below this bound, which may be empty.
    pub low: Box<[u8]>,
    /// All keys are below this bound, if there is one.
    pub high: Option<Box<[u8]>>,
    /// The most keys that are wanted. At most [`Range::MOST`] are returned.
    pub most: usize,
}

impl Range {
    /// The most pairs that are returned at once.
    pub const MOST: usize = 100;
}

/// The reply of a shard's map.
#[derive(Clone, Debug, PartialEq, Eq)]
pub enum MapReply {
    /// A key and its value (reply to a range).
    Pair(Key, Box<MapReply>),
    /// A key that has a value (reply to a range).
    Key(Key),
    /// The key had no value.
    Nothing,
    /// It was done.
    Done,
    /// The text that the key holds.
    Text(Vec<u8>),
    /// The count that the key holds.
    Count(i64),
    /// The key holds a count, but the request is for a text; or the reverse.
    WrongKind,
    /// The sum doesn't fit into 64 bits.
    Overflow,
    /// The text would be too long.
    TooLong,
    /// The bytes aren't a request.
    Malformed,
}

impl MapReply {
    /// Makes the reply of this kind.
    pub(crate) fn of(kind: u8, value: u64, text: &[u8]) -> MapReply {
        match kind {
            0 => MapReply::Nothing,
            1 => MapReply::Done,
            2 => MapReply::Text(text.to_vec()),
            3 => MapReply::Count(value as i64),
            5 => MapReply::WrongKind,
            6 => MapReply::Overflow,
            7 => MapReply::TooLong,
            _ => MapReply::Malformed,
        }
    }
}
