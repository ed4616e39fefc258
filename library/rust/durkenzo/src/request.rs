//! The requests of the sample service.

/// A request to the sample service. Keys have 1 to 255 bytes, texts at most 65,535.
#[derive(Clone, Copy, Debug, PartialEq, Eq)]
pub enum Request<'a> {
    /// Returns the value of the key.
    Get(&'a [u8]),
    /// Makes the key hold the text, and replaces the text that it held.
    Put(&'a [u8], &'a [u8]),
    /// Appends this text to the key's text. If the key holds nothing, its text is empty before that.
    Append(&'a [u8], &'a [u8]),
    /// Adds the number to the key's count. If the key holds nothing, its count is 0 before that.
    Add(&'a [u8], i64),
    /// Removes the key's value.
    Remove(&'a [u8]),
    /// Returns the pairs whose keys are at least the first of these and below the second: at most this many, and at
    /// most 100.
    Scan(&'a [u8], &'a [u8], u32),
}

/// The number of a request's kind, its key, its other bytes and its amount, as in `durkenzo.h`.
pub(crate) type RequestParts<'a> = (u8, &'a [u8], &'a [u8], i64);

impl<'a> Request<'a> {
    /// Returns the bytes that decide which shard executes the request.
    pub fn key(&self) -> &'a [u8] {
        self.parts().1
    }

    #[inline]
    pub(crate) fn parts(&self) -> RequestParts<'a> {
        match *self {
            Request::Get(key) => (1, key, &[], 0),
            Request::Put(key, text) => (2, key, text, 0),
            Request::Append(key, tail) => (3, key, tail, 0),
            Request::Add(key, amount) => (4, key, &[], amount),
            Request::Remove(key) => (5, key, &[], 0),
            Request::Scan(low, high, most) => (6, low, high, i64::from(most)),
        }
    }
}
