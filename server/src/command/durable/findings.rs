use crate::command::merged::OwnedPair;
use crate::resp::number::Digits;
use crate::resp::Replies;
use durkenzo_driver::MapReply;

/// The reply of a shard that was asked for its keys; or the answer that refuses it.
pub(super) type VisitResult = Result<Findings, Replies>;

/// The first byte of a reply to another process, unless the reply is the answer that refuses it.
const FOUND: u8 = b'=';

/// The keys that a shard found.
#[derive(Debug, Default, PartialEq, Eq)]
pub(super) struct Findings {
    /// Keys, with their values if the query asks for values.
    pub(super) pairs: Vec<OwnedPair>,
    /// How many keys there are, if the query asks for that.
    pub(super) count: usize,
}

impl Findings {
    /// Returns the findings in a shard's replies.
    pub(super) fn of(replies: Vec<MapReply>) -> Findings {
        let mut found = Findings::default();
        for reply in replies {
            match reply {
                MapReply::Count(count) => found.count = usize::try_from(count).unwrap_or(0),
                MapReply::Pair(key, held) => found.pairs.push((key, text_of(*held))),
                MapReply::Key(key) => found.pairs.push((key, Box::default())),
                _ => {}
            }
        }
        found
    }

    /// Returns the bytes that another process reads.
    pub(super) fn spell(&self) -> Vec<u8> {
        let mut bytes = vec![FOUND];
        bytes.extend((self.count as u64).to_be_bytes());
        for text in self.pairs.iter().flat_map(|it| [&it.0, &it.1]) {
            bytes.extend((text.len() as u32).to_be_bytes());
            bytes.extend_from_slice(text);
        }
        bytes
    }

    /// Reads the bytes of another process. Returns nothing if that process refused the query, or if the bytes are
    /// malformed.
    pub(super) fn spelled(bytes: &[u8]) -> Option<Findings> {
        let bytes = bytes.strip_prefix(&[FOUND])?;
        let (count, mut rest) = bytes.split_first_chunk()?;
        let count = usize::try_from(u64::from_be_bytes(*count)).ok()?;
        let mut pairs = Vec::new();
        while !rest.is_empty() {
            let (key, behind) = text(rest)?;
            let (value, behind) = text(behind)?;
            pairs.push((key.into(), value.into()));
            rest = behind;
        }
        Some(Findings { pairs, count })
    }
}

/// Splits the bytes into a text, which follows its length, and the rest.
fn text(bytes: &[u8]) -> Option<(&[u8], &[u8])> {
    let (length, rest) = bytes.split_first_chunk()?;
    rest.split_at_checked(u32::from_be_bytes(*length) as usize)
}

fn text_of(held: MapReply) -> Box<[u8]> {
    match held {
        MapReply::Text(text) => text.into(),
        MapReply::Count(count) => Digits::new(count).as_bytes().into(),
        _ => Box::default(),
    }
}

#[cfg(test)]
mod tests {
    use super::*;

    #[test]
    fn what_was_found_is_read_as_it_was_spelled() {
        let pair = |key: &str, held| MapReply::Pair(key.as_bytes().into(), Box::new(held));
        let replies = vec![
            pair("a", MapReply::Text(b"x\r\n".to_vec())),
            pair("b", MapReply::Count(-7)),
        ];
        let found = Findings::of(replies);
        assert_eq!(found.pairs[1], (b"b"[..].into(), b"-7"[..].into()));
        let keys = Findings::of(vec![MapReply::Key(b"a"[..].into())]);
        assert_eq!(keys.pairs, [(b"a"[..].into(), Box::default())]);
        let count = Findings::of(vec![MapReply::Count(9)]);
        for found in [found, keys, count, Findings::default()] {
            let mut bytes = found.spell();
            assert_eq!(Findings::spelled(&bytes), Some(found));
            bytes.pop();
            assert_eq!(Findings::spelled(&bytes), None);
        }
        assert_eq!(Findings::spelled(b"-PEERDOWN it is gone\r\n"), None);
    }

    #[test]
    fn spoilt_bytes_are_what_was_found_or_nothing() {
        let pair = (b"key"[..].into(), b"a text"[..].into());
        let found = Findings {
            pairs: vec![pair; 2],
            count: 0,
        };
        let whole = found.spell();
        for at in 0..8 * whole.len() {
            let mut bytes = whole.clone();
            bytes[at / 8] ^= 1 << (at % 8);
            if let Some(found) = Findings::spelled(&bytes) {
                assert_eq!(found.spell(), bytes);
            }
        }
    }
}
