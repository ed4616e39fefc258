use crate::change::Change;
use crate::limits::MAX_GENERATION;
use crate::raw::RecordParts;
use crate::word;

// By tools/library-codes, the names in library/codes.txt:
const NAMES: [&str; 6] = [
    "Vacant",
    "Serving",
    "Prepared",
    "Forwarding",
    "Taken",
    "Paused",
];
// End of them.

/// Who owns a shard, and how far a migration of it has come.
#[derive(Clone, Copy, Debug, PartialEq, Eq)]
pub enum Stand {
    /// Nobody owns the shard yet.
    Vacant,
    /// The owner executes requests.
    Serving(u16),
    /// The owner executes requests, and a migration to the next owner has begun.
    Prepared {
        /// The owner.
        owner: u16,
        /// The owner after the migration.
        next: u16,
    },
    /// The next owner executes the requests that the owner forwards to it.
    Forwarding {
        /// The owner, which forwards.
        owner: u16,
        /// The owner after the migration, which executes.
        next: u16,
    },
    /// The new owner executes requests, and the previous one forwards requests that still reach it.
    Taken {
        /// The owner, which executes.
        owner: u16,
        /// The owner before the migration, which forwards.
        previous: u16,
    },
    /// The server owns the shard, and nobody executes requests.
    Paused(u16),
}

impl Stand {
    /// Returns the name of this kind of stand in scripts and in their answers.
    pub fn name(&self) -> &'static str {
        NAMES[usize::from(self.phase())]
    }

    /// Returns the server that must own the shard first if a vacant shard is to reach this stand.
    pub fn first_owner(&self) -> Option<u16> {
        match *self {
            Stand::Vacant => None,
            Stand::Serving(owner) | Stand::Paused(owner) => Some(owner),
            Stand::Prepared { owner, .. } | Stand::Forwarding { owner, .. } => Some(owner),
            Stand::Taken { previous, .. } => Some(previous),
        }
    }

    /// Returns the stand before this one on the shortest way from a vacant shard, and the change that leads on from
    /// there.
    pub(crate) fn step_to(&self) -> Option<(Stand, Change)> {
        match *self {
            Stand::Vacant => None,
            Stand::Serving(owner) => Some((Stand::Vacant, Change::Assign(owner))),
            Stand::Prepared { owner, next } => {
                Some((Stand::Serving(owner), Change::PrepareAddShard(next)))
            }
            Stand::Forwarding { owner, next } => {
                Some((Stand::Prepared { owner, next }, Change::PrepareDropShard))
            }
            Stand::Taken {
                owner: next,
                previous: owner,
            } => Some((Stand::Forwarding { owner, next }, Change::AddShard)),
            Stand::Paused(owner) => Some((Stand::Serving(owner), Change::Pause)),
        }
    }

    fn phase(&self) -> u8 {
        match self {
            Stand::Vacant => 0,
            Stand::Serving(_) => 1,
            Stand::Prepared { .. } => 2,
            Stand::Forwarding { .. } => 3,
            Stand::Taken { .. } => 4,
            Stand::Paused(_) => 5,
        }
    }
}

/// The board's entry for a shard.
#[derive(Clone, Copy, Debug, PartialEq, Eq)]
pub struct Record {
    /// Who owns the shard, and how far a migration of it has come.
    pub stand: Stand,
    /// Whether a server is admitted to the shard now.
    pub admitted: bool,
    /// How many steps the shard's history has.
    pub generation: u64,
}

impl Record {
    /// Returns the record of this word, which must come from the library. `word::record` finds the same record by a
    /// proved call.
    #[inline]
    pub(crate) fn of_word(word: u64) -> Record {
        Record::of(&RecordParts {
            generation: word & MAX_GENERATION,
            owner: (word >> 48 & 0xfff) as u16,
            other: (word >> 36 & 0xfff) as u16,
            phase: (word >> 61) as u8,
            admitted: word >> 60 & 1 == 1,
        })
    }

    #[inline]
    pub(crate) fn of(parts: &RecordParts) -> Record {
        let (owner, other) = (parts.owner, parts.other);
        let stand = match parts.phase {
            0 => Stand::Vacant,
            1 => Stand::Serving(owner),
            2 => Stand::Prepared { owner, next: other },
            3 => Stand::Forwarding { owner, next: other },
            4 => Stand::Taken {
                owner,
                previous: other,
            },
            _ => Stand::Paused(owner),
        };
        Record {
            stand,
            admitted: parts.admitted,
            generation: parts.generation,
        }
    }

    pub(crate) fn parts(&self) -> RecordParts {
        RecordParts {
            generation: self.generation,
            owner: self.owner().unwrap_or(0),
            other: self.other().unwrap_or(0),
            phase: self.stand.phase(),
            admitted: self.admitted,
        }
    }

    /// Returns the server that owns the shard.
    pub fn owner(&self) -> Option<u16> {
        match self.stand {
            Stand::Vacant => None,
            Stand::Serving(owner) | Stand::Paused(owner) => Some(owner),
            Stand::Prepared { owner, .. }
            | Stand::Forwarding { owner, .. }
            | Stand::Taken { owner, .. } => Some(owner),
        }
    }

    /// Returns the next or the previous owner. A shard has one of them during a migration.
    pub fn other(&self) -> Option<u16> {
        match self.stand {
            Stand::Prepared { next, .. } | Stand::Forwarding { next, .. } => Some(next),
            Stand::Taken { previous, .. } => Some(previous),
            Stand::Vacant | Stand::Serving(_) | Stand::Paused(_) => None,
        }
    }

    /// Returns the server that executes requests on the shard, by the proved [`word::executor`]. If no shard may have
    /// this record, returns `None`.
    pub fn executor(&self) -> Option<u16> {
        word::of(self).and_then(word::executor)
    }

    /// Returns the server to which this one forwards requests on the shard, by the proved [`word::forward`]. If this
    /// server forwards nothing, or no shard may have this record, returns `None`.
    pub fn forward(&self, server: u16) -> Option<u16> {
        word::forward(word::of(self)?, server)
    }
}

#[cfg(test)]
mod tests {
    use super::{Record, Stand};
    use crate::limits::MAX_GENERATION;
    use crate::word;

    type Servers = (Option<u16>, [Option<u16>; 2]);

    /// Returns the executor, and the server to which each of these servers forwards.
    fn asked(record: &Record, servers: [u16; 2]) -> Servers {
        (record.executor(), servers.map(|it| record.forward(it)))
    }

    /// Returns the same by a plain table.
    fn told(stand: Stand, servers: [u16; 2]) -> Servers {
        let (executor, forwards) = match stand {
            Stand::Vacant | Stand::Paused(_) => (None, None),
            Stand::Serving(owner) | Stand::Prepared { owner, .. } => (Some(owner), None),
            Stand::Forwarding { owner, next } => (Some(next), Some((owner, next))),
            Stand::Taken { owner, previous } => (Some(owner), Some((previous, owner))),
        };
        let to = |from| forwards.filter(|it| it.0 == from).map(|it| it.1);
        (executor, servers.map(to))
    }

    #[test]
    fn a_record_that_no_shard_may_have_forwards_nothing() {
        let record = Record {
            stand: Stand::Forwarding { owner: 1, next: 1 },
            admitted: false,
            generation: 3,
        };
        assert_eq!(word::of(&record), None);
        assert_eq!((record.executor(), record.forward(1)), (None, None));
    }

    #[test]
    fn words_are_read_as_the_proved_call_reads_them() {
        let mut read = 0;
        for (one, other) in [(1, 2), (2, 1), (4095, 2048), (2048, 4095)] {
            let two = |stand: fn(u16, u16) -> Stand| stand(one, other);
            for stand in [
                Stand::Vacant,
                Stand::Serving(one),
                two(|owner, next| Stand::Prepared { owner, next }),
                two(|owner, next| Stand::Forwarding { owner, next }),
                two(|owner, previous| Stand::Taken { owner, previous }),
                Stand::Paused(one),
            ] {
                for generation in [0, 1, MAX_GENERATION - 1, MAX_GENERATION] {
                    for admitted in [false, true] {
                        let record = Record {
                            stand,
                            admitted,
                            generation,
                        };
                        if let Some(packed) = word::of(&record) {
                            assert_eq!(Some(Record::of_word(packed)), word::record(packed));
                            assert_eq!(Record::of_word(packed), record);
                            assert_eq!(asked(&record, [one, other]), told(stand, [one, other]));
                            read += 1;
                        }
                    }
                }
            }
        }
        // A vacant shard has one record. A paused shard is idle. All others have had an entry.
        assert_eq!(read, 4 * (1 + 4 * 6 + 3));
    }
}
