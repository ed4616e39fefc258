//! The claims: everything that clients were told.
use crate::reading::Replied;

/// A question about a shard's map. It is answered for one moment.
#[derive(Clone, Debug)]
pub enum MapQuery {
    /// Asks for the values of these keys.
    Keys(Vec<Vec<u8>>),
    /// Asks for the first keys that are at least `low` and below `high`, up to `most` of them. If `is_of_pairs` holds,
    /// their values are told too.
    Range {
        low: Vec<u8>,
        high: Option<Vec<u8>>,
        most: usize,
        is_of_pairs: bool,
    },
    /// Asks how many keys have a value.
    Count,
}

/// The reply from a map: each key, with its value if the question asked for values.
pub type Listed = Vec<(Vec<u8>, Option<Replied>)>;

#[derive(Clone, Debug)]
pub enum Said {
    /// The requests with these bytes are made, and these are their replies. If the client decided on the requests by
    /// the values of keys, the keys held these values before.
    Made {
        bodies: Vec<Vec<u8>>,
        replies: Vec<(u8, u64)>,
        held: Listed,
    },
    /// A later request of the client is made, so this one never will be.
    Passed,
    /// The client read this in the map as it was at revision `since` or later.
    Read {
        asked: MapQuery,
        listed: Listed,
        since: u64,
    },
    /// The requests aren't made, and never will be.
    NotMade { bodies: Vec<Vec<u8>> },
    /// Either all of the requests are made, or none of them. The client doesn't know which.
    Unknown { bodies: Vec<Vec<u8>> },
    /// The values in the store are damaged.
    Damaged(String),
}

#[derive(Clone, Debug)]
pub struct Claim {
    /// The store's revision when the client was told.
    pub at: u64,
    pub shard: u16,
    /// The client and its number for this request, if the client numbers its requests.
    pub numbered: Option<(u64, u64)>,
    pub said: Said,
}

impl Claim {
    /// Returns whether the claim settles the requests. If a numbered request wasn't made here, the claim doesn't,
    /// because the client may have sent it to another process too.
    pub fn is_final(&self) -> bool {
        self.numbered.is_none() || !matches!(self.said, Said::NotMade { .. })
    }
}
