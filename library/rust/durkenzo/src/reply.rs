//! The replies of the sample service.
use crate::fault::MapFault;
use crate::limits::MAX_KEY;
use crate::raw::{self, Handle, ReplyParts};

/// The value of a key.
#[derive(Clone, Debug, PartialEq, Eq)]
pub enum Value {
    /// The bytes of a text.
    Text(Vec<u8>),
    /// A count.
    Count(i64),
}

/// The value of a key. If it is a text, the bytes are in the caller's room.
#[derive(Clone, Copy, Debug, PartialEq, Eq)]
pub enum Held<'a> {
    /// The bytes of a text.
    Text(&'a [u8]),
    /// A count.
    Count(i64),
}

/// The value of a key, without the bytes of a text.
#[derive(Clone, Copy, Debug, PartialEq, Eq)]
pub enum Measure {
    /// The length of the text in bytes.
    Text(usize),
    /// A count.
    Count(i64),
}

/// A reply of the sample service to a request.
#[derive(Clone, Debug, PartialEq, Eq)]
pub enum Reply {
    /// The key holds nothing, or held nothing to remove.
    Nothing,
    /// The key holds the new text; or it holds nothing, if the request was to remove it.
    Done,
    /// The value of the key. After an addition it is the new count.
    Value(Value),
    /// The pairs that a scan found, in the order of their keys.
    Pairs(Vec<(Vec<u8>, Value)>),
    /// The key holds a count and the request is for a text, or the other way round. Nothing has changed.
    WrongKind,
    /// The count would have more than 64 bits. Nothing has changed.
    Overflow,
    /// The text would have more than 65,535 bytes. Nothing has changed.
    TextTooLong,
}

impl Reply {
    /// Returns the reply with these parts. The handle keeps its bytes.
    pub(crate) fn of(handle: &mut Handle, parts: &ReplyParts) -> Result<Reply, MapFault> {
        LentReply::of(handle, parts).map(Into::into)
    }
}

/// A reply whose text is copied only when the caller asks for it.
#[derive(Debug)]
pub enum LentReply<'a> {
    /// The key holds nothing, or held nothing to remove.
    Nothing,
    /// The key holds the new text; or it holds nothing, if the request was to remove it.
    Done,
    /// The key holds a text.
    Text(LentText<'a>),
    /// The key holds a count. After an addition it is the new count.
    Count(i64),
    /// The pairs that a scan found, in the order of their keys.
    Pairs(Vec<(Vec<u8>, Value)>),
    /// The key holds a value of the other kind. Nothing has changed.
    WrongKind,
    /// The count would have more than 64 bits. Nothing has changed.
    Overflow,
    /// The text would have more than 65,535 bytes. Nothing has changed.
    TextTooLong,
}

impl<'a> LentReply<'a> {
    #[inline]
    pub(crate) fn of(
        handle: &'a mut Handle,
        parts: &ReplyParts,
    ) -> Result<LentReply<'a>, MapFault> {
        let length = parts.length;
        Ok(match parts.kind {
            0 => LentReply::Nothing,
            1 => LentReply::Done,
            2 => LentReply::Text(LentText { handle, length }),
            3 => LentReply::Count(parts.count),
            4 => LentReply::Pairs(pairs_of(handle, length)?),
            5 => LentReply::WrongKind,
            6 => LentReply::Overflow,
            7 => LentReply::TextTooLong,
            other => unreachable!("a reply of kind {other}"),
        })
    }
}

impl LentReply<'_> {
    /// Returns why the request changed nothing, if the reply with these parts refuses it.
    #[inline]
    pub(crate) fn refusal(parts: &ReplyParts) -> Option<MapFault> {
        match parts.kind {
            5 => Some(MapFault::WrongKind),
            6 => Some(MapFault::Overflow),
            7 => Some(MapFault::TextTooLong),
            _ => None,
        }
    }
}

impl From<LentReply<'_>> for Reply {
    fn from(lent: LentReply<'_>) -> Reply {
        match lent {
            LentReply::Nothing => Reply::Nothing,
            LentReply::Done => Reply::Done,
            LentReply::Text(text) => Reply::Value(Value::Text(text.into_vec())),
            LentReply::Count(count) => Reply::Value(Value::Count(count)),
            LentReply::Pairs(pairs) => Reply::Pairs(pairs),
            LentReply::WrongKind => Reply::WrongKind,
            LentReply::Overflow => Reply::Overflow,
            LentReply::TextTooLong => Reply::TextTooLong,
        }
    }
}

/// The text of a reply. The map keeps it until the next request.
#[derive(Debug)]
pub struct LentText<'a> {
    handle: &'a mut Handle,
    length: usize,
}

impl LentText<'_> {
    /// Returns how many bytes it has.
    pub fn len(&self) -> usize {
        self.length
    }

    /// Returns whether it has no bytes.
    pub fn is_empty(&self) -> bool {
        self.length == 0
    }

    /// Appends it to the bytes in `into`.
    pub fn append_to(self, into: &mut Vec<u8>) {
        let (start, mut written) = (into.len(), 0);
        into.resize(start + self.length, 0);
        let room = &mut into[start..];
        // SAFETY: this call borrows both the handle and the room exclusively.
        let code = unsafe {
            raw::durkenzo_reply_text(self.handle, room.as_mut_ptr(), room.len(), &mut written)
        };
        assert_eq!((code, written), (0, self.length), "a text has its length");
    }

    /// Returns a copy.
    pub fn into_vec(self) -> Vec<u8> {
        let mut text = Vec::with_capacity(self.length);
        self.append_to(&mut text);
        text
    }
}

/// Returns all pairs of the reply, which has this many, or `NoMemory`.
fn pairs_of(handle: &mut Handle, count: usize) -> Result<Vec<(Vec<u8>, Value)>, MapFault> {
    (0..count).map(|at| pair_of(handle, at)).collect()
}

/// Returns room for this many bytes, or `NoMemory`.
fn room(length: usize) -> Result<Vec<u8>, MapFault> {
    let mut room = Vec::new();
    room.try_reserve_exact(length)
        .map_err(|_| MapFault::NoMemory)?;
    room.resize(length, 0);
    Ok(room)
}

/// Returns the pair at this place of the reply, or `NoMemory`.
fn pair_of(handle: &mut Handle, at: usize) -> Result<(Vec<u8>, Value), MapFault> {
    let (mut parts, mut key, mut length) = (ReplyParts::default(), room(MAX_KEY)?, 0);
    // SAFETY: this call borrows the handle exclusively, and only this call uses the rooms.
    let code = unsafe { raw::durkenzo_pair(handle, at, &mut parts) };
    assert_eq!(code, 0, "a reply has its pairs");
    // SAFETY: as above.
    let code =
        unsafe { raw::durkenzo_pair_key(handle, at, key.as_mut_ptr(), MAX_KEY, &mut length) };
    assert_eq!(code, 0, "a key has at most 255 bytes");
    key.truncate(length);
    if parts.kind == 3 {
        return Ok((key, Value::Count(parts.count)));
    }
    let mut text = room(parts.length)?;
    // SAFETY: as above.
    let code =
        unsafe { raw::durkenzo_pair_text(handle, at, text.as_mut_ptr(), text.len(), &mut length) };
    assert_eq!((code, length), (0, parts.length), "a text has its length");
    Ok((key, Value::Text(text)))
}
