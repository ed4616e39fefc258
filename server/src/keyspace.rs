//! The assignment of keys to shards.
use crate::packed::packed;
use durkenzo::{Layout, LayoutFault};

/// The assignment of keys to shards. Each thread has its own.
#[derive(Debug)]
pub enum Keyspace {
    /// By a hash of the key, or of the part of it in braces. Keys that begin alike are spread.
    Hash {
        /// The number of shards.
        shards: u16,
    },
    /// By the proved layout: a shard has all keys from its bound on, up to the bound of the next shard.
    Ranges(Layout),
}

/// The rule that assigns keys to shards. Each thread makes its keyspace from it.
#[derive(Clone, Debug, PartialEq, Eq)]
pub enum Rule {
    /// By hash, to so many shards.
    Hash(u16),
    /// By ranges that begin at these bounds.
    Bounds(Vec<Vec<u8>>),
}

impl Rule {
    /// Returns the number of shards.
    pub fn shards(&self) -> u16 {
        match self {
            Rule::Hash(shards) => *shards,
            // A layout has at most 4,096 bounds.
            Rule::Bounds(bounds) => u16::try_from(bounds.len()).unwrap_or(u16::MAX),
        }
    }

    /// Returns the rule's name.
    pub fn name(&self) -> &'static str {
        match self {
            Rule::Hash(_) => "hash",
            Rule::Bounds(_) => "ranges",
        }
    }
}

impl Keyspace {
    /// Makes the keyspace of this rule.
    pub fn new(rule: &Rule) -> Result<Keyspace, LayoutFault> {
        match rule {
            Rule::Hash(shards) => Ok(Keyspace::Hash { shards: *shards }),
            Rule::Bounds(bounds) => Layout::new(bounds).map(Keyspace::Ranges),
        }
    }

    /// Returns the number of shards.
    pub fn shards(&self) -> u16 {
        match self {
            Keyspace::Hash { shards } => *shards,
            // At most 4,096.
            Keyspace::Ranges(layout) => layout.count() as u16,
        }
    }

    /// Returns the shard of the key.
    #[inline]
    pub fn shard_of(&self, key: &[u8]) -> u16 {
        match self {
            Keyspace::Hash { shards } => remainder(hash_of_tag(key), *shards),
            Keyspace::Ranges(layout) => layout.shard_of(key).get(),
        }
    }

    /// Returns the shards that may have keys from `low` on and below `high`. If shards are ordered, they are in the
    /// order of their keys.
    pub fn shards_within(&self, low: &[u8], high: Option<&[u8]>) -> std::ops::RangeInclusive<u16> {
        match self {
            Keyspace::Hash { shards } => 0..=shards - 1,
            Keyspace::Ranges(layout) => {
                let last = high.map_or(layout.count() as u16 - 1, |it| last_below(layout, it));
                layout.shard_of(low).get()..=last
            }
        }
    }

    /// Returns whether each shard's keys lie below those of the next one.
    pub fn is_ordered(&self) -> bool {
        matches!(self, Keyspace::Ranges(_))
    }
}

/// Returns the last shard that may have keys below this one, which isn't empty.
fn last_below(layout: &Layout, high: &[u8]) -> u16 {
    let shard = layout.shard_of(high);
    match layout.range(shard) {
        Some((low, _)) if low == high => shard.get().saturating_sub(1),
        _ => shard.get(),
    }
}

/// Returns the remainder of the hash by so many shards.
fn remainder(hash: u64, shards: u16) -> u16 {
    // A power of two, as most counts are, takes no division.
    match shards.is_power_of_two() {
        true => hash as u16 & (shards - 1),
        false => (hash % u64::from(shards)) as u16,
    }
}

/// Returns the hash of the key's tag. The hash of the whole key is made while the function looks for braces, because
/// most keys have none.
fn hash_of_tag(key: &[u8]) -> u64 {
    let mut found = 0;
    let hash_of_key = hash(key, |word| found |= braces_in(word));
    match found {
        0 => hash_of_key,
        _ => hash(tag_of(key), |_| ()),
    }
}

/// Returns a number that isn't 0 if one of the eight bytes is an opening brace.
fn braces_in(word: u64) -> u64 {
    const ONES: u64 = u64::from_ne_bytes([1; 8]);
    const BRACES: u64 = u64::from_ne_bytes([b'{'; 8]);
    // A byte that is a brace is 0 here, and the subtraction sets its highest bit.
    let other = word ^ BRACES;
    other.wrapping_sub(ONES) & !other & ONES << 7
}

/// Returns the part of the key in its first braces. If that is empty or missing, returns the whole key, as in Redis
/// Cluster. So keys with the same tag are of the same shard.
fn tag_of(key: &[u8]) -> &[u8] {
    let Some(open) = key.iter().position(|it| *it == b'{') else {
        return key;
    };
    let rest = &key[open + 1..];
    match rest.iter().position(|it| *it == b'}') {
        None | Some(0) => key,
        Some(close) => &rest[..close],
    }
}

/// Returns a hash of the bytes, eight at a time, in which each bit of the key changes about half of the bits. The
/// closure sees each eight bytes, too. The last of these may be filled up with zeros.
#[inline(always)]
fn hash(bytes: &[u8], mut look: impl FnMut(u64)) -> u64 {
    const ODD: u64 = 0x9e37_79b9_7f4a_7c15;
    let mut add = |sum: u64, word| {
        look(word);
        (sum.rotate_left(29) ^ word).wrapping_mul(ODD)
    };
    let (mut sum, mut rest) = (bytes.len() as u64, bytes);
    while let Some((word, more)) = rest.split_first_chunk() {
        (sum, rest) = (add(sum, u64::from_le_bytes(*word)), more);
    }
    if !rest.is_empty() {
        sum = add(sum, packed(rest));
    }
    let sum = (sum ^ sum >> 32).wrapping_mul(ODD);
    sum ^ sum >> 29
}

#[cfg(test)]
mod tests {
    use super::*;

    #[test]
    fn alike_keys_are_spread_by_hash() {
        let shapes: [fn(u32) -> String; 5] = [
            |it| format!("key:{it:012}"),
            |it| format!("{it}"),
            |it| format!("user:{it}:name"),
            |it| format!("{:08x}", it * 256),
            |it| format!("a long prefix of many keys {it:05}"),
        ];
        for (shards, shape) in [7, 64, 100]
            .into_iter()
            .flat_map(|it| shapes.map(|shape| (it, shape)))
        {
            let keyspace = Keyspace::new(&Rule::Hash(shards)).unwrap();
            let mut counts = vec![0; shards.into()];
            for number in 0..u32::from(shards) * 100 {
                counts[usize::from(keyspace.shard_of(shape(number).as_bytes()))] += 1;
            }
            assert!(
                counts.iter().all(|it| (55..=150).contains(it)),
                "{counts:?}"
            );
        }
    }

    #[test]
    fn data_is_found_where_it_was_placed() {
        for (key, hash) in [
            ("", 0),
            ("a", 0xaec4_3b00_5ba0_263f),
            ("key:000000012345", 0x55b1_5957_7e67_1dc0),
            ("counter:000000012345", 0xee45_2b11_bd82_5816),
            ("{user}:a", 0xbfd5_bbc4_4ace_9e0c),
            ("x{}y", 0x6f5d_82c9_4105_12be),
            ("0123456789{tag}z{w}", 0xe501_85c6_d7a2_c033),
            ("a{b", 0x3f6c_9cab_ad77_207a),
            ("a long prefix of many keys 00017", 0xd05b_2101_1473_8b83),
        ] {
            assert_eq!(hash_of_tag(key.as_bytes()), hash, "{key}");
        }
        assert_eq!((remainder(127, 64), remainder(127, 100)), (63, 27));
    }

    #[test]
    fn keys_with_one_tag_are_of_one_shard() {
        let keyspace = Keyspace::new(&Rule::Hash(4_096)).unwrap();
        assert_eq!(
            keyspace.shard_of(b"{user}:a"),
            keyspace.shard_of(b"b{user}")
        );
        assert_eq!(tag_of(b"a{}b"), b"a{}b");
        assert_eq!(tag_of(b"0123456789{tag}"), b"tag");
        assert_eq!(tag_of(b"a{b"), b"a{b");
    }

    #[test]
    fn ranges_keep_the_order_of_keys() {
        let bounds = [&b""[..], b"g", b"n"].map(<[u8]>::to_vec).to_vec();
        let keyspace = Keyspace::new(&Rule::Bounds(bounds)).unwrap();
        assert_eq!(keyspace.shard_of(b"hat"), 1);
        assert_eq!(keyspace.shards_within(b"a", Some(b"h")), 0..=1);
        assert_eq!(keyspace.shards_within(b"a", Some(b"g")), 0..=0);
        assert_eq!(keyspace.shards_within(b"h", None), 1..=2);
    }
}
