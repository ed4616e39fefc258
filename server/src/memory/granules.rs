/// The size of a granule in bytes.
pub(super) const GRANULE: usize = 256;
/// The number of granules.
pub(super) const COUNT: usize = 32_768;

/// The granules of a room, each taken or free.
pub(super) struct Granules {
    are_taken: [bool; COUNT],
    taken: usize,
}

impl Granules {
    /// Makes a room in which all granules are free.
    pub(super) const fn new() -> Granules {
        Granules {
            are_taken: [false; COUNT],
            taken: 0,
        }
    }

    /// Takes the first free granules that are adjacent and have room for so many bytes. Returns where they begin, in
    /// bytes from the start of the room.
    pub(super) fn take(&mut self, bytes: usize) -> Option<usize> {
        let (count, mut free) = (count_of(bytes), 0);
        let is_last = |is_taken: &bool| {
            free = if *is_taken { 0 } else { free + 1 };
            free == count
        };
        let end = self.are_taken.iter().position(is_last)? + 1;
        let first = end - count;
        self.are_taken[first..end].fill(true);
        self.taken += count;
        Some(first * GRANULE)
    }

    /// Frees the granules that were taken at this place for so many bytes.
    pub(super) fn give_back(&mut self, at: usize, bytes: usize) {
        let (first, count) = (at / GRANULE, count_of(bytes));
        self.are_taken[first..first + count].fill(false);
        self.taken -= count;
    }

    /// Frees the granules that were taken at this place for so many bytes and that a smaller size doesn't need.
    pub(super) fn shrink(&mut self, at: usize, bytes: usize, smaller: usize) {
        let kept = count_of(smaller) * GRANULE;
        if kept < bytes {
            self.give_back(at + kept, bytes - kept);
        }
    }

    /// Returns whether more than half of the granules are taken, or would be with so many bytes more.
    pub(super) fn are_few(&self, bytes: usize) -> bool {
        self.taken + count_of(bytes) > COUNT / 2
    }
}

/// Returns how many granules so many bytes take.
fn count_of(bytes: usize) -> usize {
    bytes.div_ceil(GRANULE).max(1)
}

#[cfg(test)]
mod tests {
    use super::*;
    use crate::chance::Chance;

    #[test]
    fn pieces_lie_apart_and_are_given_back() {
        let mut chance = Chance::new(2_862_933_555_777_941_757);
        let (mut granules, mut pieces) = (Granules::new(), Vec::new());
        for _ in 0..2_000 {
            if chance.below(3) > 0 {
                let bytes = 1 + chance.below(20_000);
                let at = granules.take(bytes).unwrap();
                let is_apart =
                    |(other, length): &(usize, usize)| at + bytes <= *other || other + length <= at;
                assert!(at + bytes <= COUNT * GRANULE && pieces.iter().all(is_apart));
                pieces.push((at, bytes));
            } else if !pieces.is_empty() {
                let (at, bytes) = pieces.swap_remove(chance.below(pieces.len()));
                let smaller = chance.below(bytes + 1);
                granules.shrink(at, bytes, smaller);
                granules.give_back(at, smaller);
            }
        }
        for (at, bytes) in pieces {
            granules.give_back(at, bytes);
        }
        assert_eq!(granules.take(COUNT * GRANULE), Some(0));
        assert!(granules.are_few(0) && granules.take(1).is_none());
    }
}
