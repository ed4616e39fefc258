use crate::base_parts::KeyedParts;
use crate::keys;
use durkenzo_store_sys::Head;

/// The snapshot of a user's machine that belongs to a base. The transaction that names the base puts this at the key of
/// the shard's snapshot, so both come together.
///
/// Each attempt at a snapshot has keys of its own. So a part that is written late, by a process that was the owner, is
/// never among the parts of another's snapshot.
#[derive(Clone, Copy, Debug, PartialEq, Eq)]
pub(crate) struct SnapshotName {
    /// The number of its base.
    pub(crate) base: u64,
    /// The process that wrote it, and which of its attempts this was.
    pub(crate) process: u64,
    pub(crate) attempt: u64,
    /// How many bytes it has, in how many parts.
    pub(crate) bytes: u64,
    pub(crate) parts: u64,
}

/// The version of its bytes.
const VERSION: u8 = 1;
/// A part has at most so many bytes.
const PART_BYTES: usize = 512 << 10;

impl SnapshotName {
    /// Names the snapshot with these bytes, of this base, for this attempt of the process. Returns also its parts, each
    /// with its key.
    pub(crate) fn parts_of(
        shard: u16,
        (base, process, attempt): (u64, u64, u64),
        bytes: &[u8],
    ) -> (SnapshotName, KeyedParts) {
        let parts = bytes.chunks(PART_BYTES);
        let name = SnapshotName {
            base,
            process,
            attempt,
            bytes: bytes.len() as u64,
            parts: parts.len() as u64,
        };
        let keyed = (0..).zip(parts);
        let keyed = keyed.map(|(place, part)| (name.key(shard, place), part.to_vec()));
        (name, keyed.collect())
    }

    /// Returns the key of its part at this place.
    pub(crate) fn key(&self, shard: u16, place: u64) -> Vec<u8> {
        keys::snapshot_part(shard, self.base, (self.process, self.attempt), place)
    }

    /// Returns whether these bytes of a log's head name its base.
    pub(crate) fn is_of(&self, head: &[u8]) -> bool {
        Head::of(head).is_ok_and(|it| it.base == self.base)
    }

    /// Returns its bytes: a version, and its numbers.
    pub(crate) fn bytes(&self) -> Vec<u8> {
        let numbers = [
            self.base,
            self.process,
            self.attempt,
            self.bytes,
            self.parts,
        ];
        let numbers = numbers.iter().flat_map(|it| it.to_be_bytes());
        std::iter::once(VERSION).chain(numbers).collect()
    }

    /// Reads these bytes; returns nothing if they are malformed.
    pub(crate) fn of(bytes: &[u8]) -> Option<SnapshotName> {
        let (version, rest) = bytes.split_first()?;
        let numbers = rest
            .chunks(8)
            .map(|it| it.try_into().ok().map(u64::from_be_bytes));
        let numbers: Vec<u64> = numbers.collect::<Option<_>>()?;
        let [base, process, attempt, bytes, parts] = numbers.try_into().ok()?;
        (*version == VERSION).then_some(SnapshotName {
            base,
            process,
            attempt,
            bytes,
            parts,
        })
    }
}

#[cfg(test)]
mod tests {
    use super::*;

    #[test]
    fn a_name_is_read_again_and_its_parts_are_the_snapshot() {
        let bytes: Vec<u8> = (0..PART_BYTES + 7).map(|it| it as u8).collect();
        let (name, parts) = SnapshotName::parts_of(3, (7, 8, 9), &bytes);
        assert_eq!((name.bytes, name.parts), (bytes.len() as u64, 2));
        assert_eq!(SnapshotName::of(&name.bytes()), Some(name));
        assert_eq!(SnapshotName::of(&name.bytes()[1..]), None);
        let whole: Vec<u8> = parts.iter().flat_map(|it| it.1.clone()).collect();
        assert_eq!(whole, bytes);
        assert_eq!(keys::base_of_snapshot(&parts[1].0), Some(7));
        assert!(parts[0].0 < parts[1].0 && parts[1].0 < name.key(3, 2));
    }
}
