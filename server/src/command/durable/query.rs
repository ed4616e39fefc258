use crate::body::MAX_KEY;
use crate::command::latest::Position;
use durkenzo_driver::{Begin, Range};

/// Kinds of queries, as they are encoded.
const KEYS: u8 = b'k';
const PAIRS: u8 = b'p';
const COUNT: u8 = b'c';

/// A question about the keys of one shard.
#[derive(Clone, Debug, PartialEq, Eq)]
pub(super) enum Query {
    /// The first keys of a range.
    Keys(Range),
    /// The first pairs of a range.
    Pairs(Range),
    /// How many keys there are.
    Count,
}

impl Query {
    /// Returns the query for so many keys behind the position.
    pub(super) fn keys_behind(position: &Position, most: usize) -> Query {
        // The least key above a key is that key with a zero byte appended.
        let after = position.after.as_deref();
        let low = after.map_or_else(Vec::new, |it| [it, &[0]].concat());
        Query::Keys(Range {
            low: low.into(),
            high: None,
            most,
        })
    }

    /// Returns how the query begins.
    pub(super) fn begin(&self) -> Begin {
        match self {
            Query::Keys(range) => Begin::Keys(range.clone()),
            Query::Pairs(range) => Begin::Scan(range.clone()),
            Query::Count => Begin::Count,
        }
    }

    /// Returns its bytes.
    pub(super) fn spell(&self) -> Vec<u8> {
        let (kind, range) = match self {
            Query::Keys(range) => (KEYS, range),
            Query::Pairs(range) => (PAIRS, range),
            Query::Count => return vec![COUNT],
        };
        let mut bytes = vec![kind, range.most as u8];
        for bound in [Some(&range.low), range.high.as_ref()] {
            let length = bound.map_or(NONE, |it| it.len() as u16);
            bytes.extend(length.to_be_bytes());
            bytes.extend(bound.into_iter().flatten());
        }
        bytes
    }

    /// Returns the query with these bytes, or nothing if the bytes are malformed.
    pub(super) fn spelled(bytes: &[u8]) -> Option<Query> {
        let (kind, rest) = bytes.split_first()?;
        if (*kind, rest) == (COUNT, &[]) {
            return Some(Query::Count);
        }
        let (most, rest) = rest.split_first()?;
        let (low, rest) = bound(rest)?;
        let (high, rest) = bound(rest)?;
        let (low, most) = (low?, usize::from(*most));
        let range = Range { low, high, most };
        match (*kind, rest) {
            (KEYS, []) => Some(Query::Keys(range)),
            (PAIRS, []) => Some(Query::Pairs(range)),
            _ => None,
        }
    }
}

/// A bound, if there is one, and the bytes behind it.
type ReadBound<'a> = (Option<Box<[u8]>>, &'a [u8]);

/// The length that stands for a missing bound.
const NONE: u16 = u16::MAX;

fn bound(bytes: &[u8]) -> Option<ReadBound<'_>> {
    let (length, rest) = bytes.split_first_chunk()?;
    match u16::from_be_bytes(*length) {
        NONE => Some((None, rest)),
        // The least key behind a key has one byte more than that key.
        length if usize::from(length) <= MAX_KEY + 1 => {
            let (bound, rest) = rest.split_at_checked(length.into())?;
            Some((Some(bound.into()), rest))
        }
        _ => None,
    }
}

#[cfg(test)]
mod tests {
    use super::*;
    use crate::chance::Chance;

    fn queries() -> Vec<Query> {
        let range = |low: &[u8], high: Option<&[u8]>, most| Range {
            low: low.into(),
            high: high.map(Into::into),
            most,
        };
        vec![
            Query::Count,
            Query::Keys(range(b"", None, 100)),
            Query::Pairs(range(&[255; MAX_KEY + 1], Some(b""), 0)),
            Query::Pairs(range(b"a", Some(b"a\0b"), 7)),
        ]
    }

    #[test]
    fn queries_are_read_as_they_were_spelled() {
        for query in queries() {
            let mut bytes = query.spell();
            assert_eq!(Query::spelled(&bytes), Some(query));
            bytes.push(0);
            assert_eq!(Query::spelled(&bytes), None);
            bytes.truncate(bytes.len() - 2);
            assert_eq!(Query::spelled(&bytes), None);
        }
    }

    #[test]
    fn spoilt_bytes_are_a_query_or_none() {
        let mut chance = Chance::new(2_654_435_769);
        for bytes in queries().iter().map(Query::spell) {
            for _ in 0..5_000 {
                let mut bytes = bytes.clone();
                let at = chance.below(bytes.len());
                bytes[at] ^= 1 << chance.below(8);
                if let Some(query) = Query::spelled(&bytes) {
                    assert_eq!(query.spell(), bytes);
                }
            }
        }
    }
}
