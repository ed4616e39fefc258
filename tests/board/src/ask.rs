use sm_ranges::key::Key;
use sm_service::{Bytes, Request};
use std::alloc::Global;

/// What is asked of the sample service, by plain bytes.
#[derive(Clone, Copy, Debug)]
pub(crate) enum Ask<'a> {
    Get(&'a [u8]),
    Put(&'a [u8], &'a [u8]),
    Append(&'a [u8], &'a [u8]),
    Inc(&'a [u8], i64),
    Del(&'a [u8]),
    Scan(&'a [u8], &'a [u8], u32),
}

impl Ask<'_> {
    /// The request; none where a key is none, or memory is refused.
    pub(crate) fn request(self, alloc: Global) -> Option<Request> {
        match self {
            Ask::Get(key) => Some(Request::Get(key_of(alloc, key)?)),
            Ask::Put(key, text) => Some(Request::Put(key_of(alloc, key)?, bytes_of(alloc, text)?)),
            Ask::Append(key, tail) => {
                Some(Request::Append(key_of(alloc, key)?, bytes_of(alloc, tail)?))
            }
            Ask::Inc(key, amount) => Some(Request::Inc(key_of(alloc, key)?, amount)),
            Ask::Del(key) => Some(Request::Del(key_of(alloc, key)?)),
            Ask::Scan(low, high, most) => {
                Some(Request::Scan(key_of(alloc, low)?, key_of(alloc, high)?, most))
            }
        }
    }
}

fn key_of(alloc: Global, key: &[u8]) -> Option<Key> {
    Key::new(alloc, key).ok()
}

fn bytes_of(alloc: Global, text: &[u8]) -> Option<Bytes> {
    Bytes::new(alloc, text).ok()
}
