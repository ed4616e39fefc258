use durkenzo::{Record, Stand};

/// The records by which a server was seen to be a shard's owner: all from a first generation to a last, with none
/// missing. By none of them before the last one did another server execute.
#[derive(Clone, Copy, Debug, Default, PartialEq, Eq)]
pub struct Ownership {
    owner: Option<u16>,
    first: u64,
    last: u64,
    /// Whether the next owner may execute by the last one.
    is_forwarded: bool,
}

impl Ownership {
    /// Returns the ownership after this record was also seen.
    #[must_use]
    pub fn seen(self, record: &Record) -> Ownership {
        let (owner, last) = (record.owner(), record.generation);
        let is_next = (self.last..=self.last.saturating_add(1)).contains(&last);
        let stays = is_next && owner == self.owner && !(self.is_forwarded && last > self.last);
        Ownership {
            owner,
            first: if stays { self.first } else { last },
            last,
            is_forwarded: matches!(record.stand, Stand::Forwarding { .. }),
        }
    }

    /// Returns whether the server was seen to be the owner by each record from this generation to that one.
    pub fn covers(&self, server: u16, (from, to): (u64, u64)) -> bool {
        self.owner == Some(server) && self.first <= from && to <= self.last
    }
}

#[cfg(test)]
mod tests {
    use super::*;

    fn seen(stands: &[(Stand, u64)]) -> Ownership {
        let records = stands.iter().map(|(stand, generation)| Record {
            stand: *stand,
            admitted: false,
            generation: *generation,
        });
        records.fold(Ownership::default(), |it, record| it.seen(&record))
    }

    #[test]
    fn an_ownership_goes_on_as_long_as_no_record_is_missed_and_the_owner_stays() {
        let prepared = Stand::Prepared { owner: 1, next: 2 };
        let (serving, paused) = (Stand::Serving(1), Stand::Paused(1));
        let owned = seen(&[(serving, 1), (prepared, 2), (serving, 3), (paused, 4)]);
        assert!(owned.covers(1, (1, 4)) && owned.covers(1, (3, 3)));
        assert!(!owned.covers(2, (1, 4)) && !owned.covers(1, (0, 4)) && !owned.covers(1, (1, 5)));
        // One record was missed.
        let later = seen(&[(serving, 1), (prepared, 2), (paused, 4)]);
        assert!(later.covers(1, (4, 4)) && !later.covers(1, (2, 4)));
        // Another server was the owner.
        let back = seen(&[(serving, 1), (Stand::Serving(2), 2), (serving, 3)]);
        assert!(back.covers(1, (3, 3)) && !back.covers(1, (1, 3)));
    }

    #[test]
    fn an_ownership_ends_by_a_record_by_which_the_next_owner_may_execute() {
        let forwarding = Stand::Forwarding { owner: 1, next: 2 };
        let owned = [(Stand::Serving(1), 1), (forwarding, 2)];
        assert!(seen(&owned).covers(1, (1, 2)));
        let after = seen(&[owned[0], owned[1], (Stand::Serving(1), 3)]);
        assert!(after.covers(1, (3, 3)) && !after.covers(1, (2, 3)));
    }
}
