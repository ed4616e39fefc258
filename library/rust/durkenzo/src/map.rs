//! A map of texts and counts by key, which you can use as a board's body. It is the proved sample service.
//!
//! ```
//! use durkenzo::{Map, Reply, Request, Value};
//!
//! let mut map = Map::new()?;
//! map.put("name", "durkenzo")?;
//! map.append("name", "!")?;
//! assert_eq!(map.get("name")?, Some(Value::Text(b"durkenzo!".to_vec())));
//! assert_eq!(map.add("visits", 3)?, 3);
//! assert_eq!((map.len(), map.scan("a", "z", 10)?.len()), (2, 2));
//! assert!(map.remove("visits")?);
//! assert_eq!(map.ask(&Request::Get(b"visits"))?, Reply::Nothing);
//! # Ok::<(), Box<dyn std::error::Error>>(())
//! ```
use crate::fault::MapFault;
use crate::raw::{self, Handle, ReplyParts};
use crate::reply::{Held, LentReply, Measure, Reply, Value};
use crate::request::Request;
use std::fmt;

/// A map from keys of 1 to 255 bytes to texts of at most 65,535 bytes and counts of 64 bits, in the order of the keys.
///
/// If a call is refused, it changes nothing.
pub struct Map {
    handle: Handle,
    reply: Handle,
}

impl Map {
    /// Makes an empty map.
    ///
    /// # Errors
    ///
    /// `NoMemory` if memory for the map is refused.
    pub fn new() -> Result<Map, MapFault> {
        let mut handle = Handle::empty();
        // SAFETY: only this call uses the handle.
        match unsafe { raw::durkenzo_map(&mut handle) } {
            0 => Ok(Map {
                handle,
                reply: Handle::empty(),
            }),
            code => Err(MapFault::of(code)),
        }
    }

    /// Returns how many keys hold a value.
    #[inline]
    pub fn len(&mut self) -> u64 {
        let mut length = 0;
        // SAFETY: this value owns the handle.
        let code = unsafe { raw::durkenzo_map_length(&mut self.handle, &mut length) };
        assert_eq!(code, 0, "the handle of a map keeps it");
        length
    }

    /// Returns whether no key holds a value.
    pub fn is_empty(&mut self) -> bool {
        self.len() == 0
    }

    /// Executes the request, and returns the reply.
    ///
    /// # Errors
    ///
    /// `EmptyKey` or `KeyTooLong` if the key has a wrong length, or `NoMemory`.
    pub fn ask(&mut self, request: &Request<'_>) -> Result<Reply, MapFault> {
        self.lend(request).map(Into::into)
    }

    /// Executes the request, and returns a reply whose text you copy where and when you want it.
    ///
    /// # Errors
    ///
    /// `EmptyKey` or `KeyTooLong` if the key has a wrong length, or `NoMemory`.
    // When this is inlined, replies are told apart only by their numbers.
    #[inline]
    pub fn lend(&mut self, request: &Request<'_>) -> Result<LentReply<'_>, MapFault> {
        let parts = self.call(request)?;
        LentReply::of(&mut self.reply, &parts)
    }

    // Returns the parts of the reply. Its bytes stay in the map's handle.
    #[inline]
    fn call(&mut self, request: &Request<'_>) -> Result<ReplyParts, MapFault> {
        let (kind, key, other, amount) = request.parts();
        let mut parts = ReplyParts::default();
        // SAFETY: this value owns the handles, and the slices last as long as the call.
        let code = unsafe {
            raw::durkenzo_ask(
                &mut self.handle,
                &mut self.reply,
                kind,
                key.as_ptr(),
                key.len(),
                other.as_ptr(),
                other.len(),
                amount,
                &mut parts,
            )
        };
        match code {
            0 => Ok(parts),
            code => Err(MapFault::of(code)),
        }
    }

    /// Returns the value of the key, if it has one. A text is written at the start of your room, which grows if it is
    /// too small.
    ///
    /// # Errors
    ///
    /// `EmptyKey`, `KeyTooLong`, or `NoMemory` if the room can't grow.
    #[inline]
    pub fn get_in<'a>(
        &mut self,
        key: impl AsRef<[u8]>,
        room: &'a mut Vec<u8>,
    ) -> Result<Option<Held<'a>>, MapFault> {
        let key = key.as_ref();
        let mut parts = self.parts_in(key, room)?;
        // Only a text has a length.
        if parts.kind == 2 && parts.length > room.len() {
            let length = parts.length.next_power_of_two();
            let reserved = room.try_reserve_exact(length - room.len());
            reserved.map_err(|_| MapFault::NoMemory)?;
            room.resize(length, 0);
            parts = self.parts_in(key, room)?;
        }
        Ok(match parts.kind {
            0 => None,
            2 => Some(Held::Text(&room[..parts.length])),
            3 => Some(Held::Count(parts.count)),
            other => unreachable!("a key holds a value of kind {other}"),
        })
    }

    /// Returns the value of the key, if it has one. Of a text it returns only the length, and copies nothing.
    ///
    /// # Errors
    ///
    /// `EmptyKey` or `KeyTooLong` if the key has a wrong length.
    #[inline]
    pub fn measure(&mut self, key: impl AsRef<[u8]>) -> Result<Option<Measure>, MapFault> {
        let parts = self.parts_in(key.as_ref(), &mut [])?;
        Ok(match parts.kind {
            0 => None,
            2 => Some(Measure::Text(parts.length)),
            3 => Some(Measure::Count(parts.count)),
            other => unreachable!("a key holds a value of kind {other}"),
        })
    }

    // Returns the parts of the key's value. If it is a text that fits, its bytes are written to the room.
    #[inline]
    fn parts_in(&mut self, key: &[u8], room: &mut [u8]) -> Result<ReplyParts, MapFault> {
        let mut parts = ReplyParts::default();
        // SAFETY: this value owns the handle, and the slices last as long as the call.
        let code = unsafe {
            raw::durkenzo_get(
                &mut self.handle,
                key.as_ptr(),
                key.len(),
                room.as_mut_ptr(),
                room.len(),
                &mut parts,
            )
        };
        match code {
            0 => Ok(parts),
            code => Err(MapFault::of(code)),
        }
    }

    /// Returns the value of the key, if it has one.
    ///
    /// # Errors
    ///
    /// `EmptyKey` or `KeyTooLong` if the key has a wrong length, or `NoMemory`.
    pub fn get(&mut self, key: impl AsRef<[u8]>) -> Result<Option<Value>, MapFault> {
        match self.ask(&Request::Get(key.as_ref()))? {
            Reply::Value(value) => Ok(Some(value)),
            _ => Ok(None),
        }
    }

    /// Makes the key hold this text, and replaces the text that it held.
    ///
    /// # Errors
    ///
    /// Those of [`Map::ask`], `WrongKind` if the key holds a count, or `TextTooLong`.
    pub fn put(&mut self, key: impl AsRef<[u8]>, text: impl AsRef<[u8]>) -> Result<(), MapFault> {
        self.made(&Request::Put(key.as_ref(), text.as_ref()))
            .map(drop)
    }

    /// Appends this text to the key's text. If the key holds nothing, its text is empty before that.
    ///
    /// # Errors
    ///
    /// Those of [`Map::put`].
    pub fn append(
        &mut self,
        key: impl AsRef<[u8]>,
        tail: impl AsRef<[u8]>,
    ) -> Result<(), MapFault> {
        self.made(&Request::Append(key.as_ref(), tail.as_ref()))
            .map(drop)
    }

    /// Adds to the key's count, and returns the sum. If the key holds nothing, its count is 0 before that.
    ///
    /// # Errors
    ///
    /// Those of [`Map::ask`], `WrongKind` if the key holds a text, or `Overflow`.
    pub fn add(&mut self, key: impl AsRef<[u8]>, amount: i64) -> Result<i64, MapFault> {
        let parts = self.made(&Request::Add(key.as_ref(), amount))?;
        match LentReply::of(&mut self.reply, &parts)? {
            LentReply::Count(sum) => Ok(sum),
            other => unreachable!("an addition replied {other:?}"),
        }
    }

    /// Removes the key's value. Returns whether it had one.
    ///
    /// # Errors
    ///
    /// Those of [`Map::ask`].
    pub fn remove(&mut self, key: impl AsRef<[u8]>) -> Result<bool, MapFault> {
        Ok(self.ask(&Request::Remove(key.as_ref()))? == Reply::Done)
    }

    /// Returns the first pairs whose keys are at least `low` and below `high`: at most `most` of them, and at most 100.
    ///
    /// # Errors
    ///
    /// Those of [`Map::ask`].
    pub fn scan(
        &mut self,
        low: impl AsRef<[u8]>,
        high: impl AsRef<[u8]>,
        most: u32,
    ) -> Result<Vec<(Vec<u8>, Value)>, MapFault> {
        match self.ask(&Request::Scan(low.as_ref(), high.as_ref(), most))? {
            Reply::Pairs(pairs) => Ok(pairs),
            other => unreachable!("a scan replied {other:?}"),
        }
    }

    // Returns the parts of the reply if the request was executed, or why it changed nothing.
    #[inline]
    fn made(&mut self, request: &Request<'_>) -> Result<ReplyParts, MapFault> {
        let parts = self.call(request)?;
        match LentReply::refusal(&parts) {
            Some(fault) => Err(fault),
            None => Ok(parts),
        }
    }
}

impl fmt::Debug for Map {
    fn fmt(&self, f: &mut fmt::Formatter<'_>) -> fmt::Result {
        f.debug_struct("Map").finish_non_exhaustive()
    }
}
