use crate::{Pair, Revision};
use crc32fast::Hasher;

/// The checksum of a row's bytes, which detects changes: CRC-32 over its revision, its key and its value.
#[derive(Clone, Copy, Debug, PartialEq, Eq)]
pub(super) struct RowChecksum(u32);

impl RowChecksum {
    /// Returns the checksum of this pair.
    pub(super) fn of(pair: &Pair) -> RowChecksum {
        RowChecksum::of_row(&pair.key, &pair.value, pair.revision)
    }

    /// Returns the checksum of the revision at which this pair's key was created. It stays while the key is
    /// overwritten.
    pub(super) fn of_creation(pair: &Pair) -> RowChecksum {
        RowChecksum::of_row(&pair.key, &[], pair.created)
    }

    /// Returns the checksum of the moment's row, which has neither key nor value.
    pub(super) fn of_moment(moment: Revision) -> RowChecksum {
        RowChecksum::of_row(&[], &[], moment)
    }

    fn of_row(key: &[u8], value: &[u8], revision: Revision) -> RowChecksum {
        let mut sum = Hasher::new();
        sum.update(&revision.0.to_be_bytes());
        // The key's length is part of it.
        sum.update(&key.len().to_be_bytes());
        sum.update(key);
        sum.update(value);
        RowChecksum(sum.finalize())
    }

    /// Returns the number that SQLite stores.
    pub(super) fn number(self) -> i64 {
        i64::from(self.0)
    }
}

#[cfg(test)]
mod tests {
    use super::*;

    fn sum(key: &str, value: &str, revision: u64) -> RowChecksum {
        RowChecksum::of(&Pair {
            key: key.into(),
            value: value.into(),
            revision: Revision(revision),
            created: Revision(revision),
        })
    }

    #[test]
    fn each_part_of_a_row_is_in_its_sum() {
        let sums = [
            sum("ab", "c", 1),
            sum("a", "bc", 1),
            sum("ab", "d", 1),
            sum("ab", "c", 2),
            sum("bb", "c", 1),
        ];
        for (place, it) in sums.iter().enumerate() {
            assert!(!sums[..place].contains(it), "{place}");
        }
    }

    #[test]
    fn each_bit_of_a_value_is_in_its_sum() {
        let mut pair = Pair {
            key: b"batch/00001/1".to_vec(),
            value: vec![7; 300],
            revision: Revision(9),
            created: Revision(9),
        };
        let whole = RowChecksum::of(&pair);
        for bit in 0..300 * 8 {
            pair.value[bit / 8] ^= 1 << (bit % 8);
            assert_ne!(RowChecksum::of(&pair), whole, "bit {bit}");
            pair.value[bit / 8] ^= 1 << (bit % 8);
        }
    }
}
