use crate::{LeaseId, Pair, Revision, Room};

/// Why tables can't do something.
pub(super) enum TableFailure {
    /// The disk is full. After a rollback everything is as before.
    Full(String),
    /// The bytes that were read aren't those that were written. Everything else can be read.
    Damaged(String),
    /// They can't be used any more.
    Broken(String),
}

/// How room is made for a transaction that a full disk has refused. The means are tried one after another.
#[derive(Clone, Copy, Debug, PartialEq, Eq)]
pub(super) enum Means {
    /// The log of committed transactions goes to the tables, and returns its room.
    Log,
    /// Half of the reserve is lent, and may be used up.
    Half,
    /// All of the reserve is lent for now, to a transaction that uses up none of it.
    All,
}

impl Means {
    pub(super) const EACH: [Means; 3] = [Means::Log, Means::Half, Means::All];
}

/// The tables with the keys of an embedded store.
pub(super) trait Tables {
    /// Returns the revision of the last transaction that wrote something.
    fn moment(&self) -> Revision;

    /// Returns the revision of a key, or [`Revision::NEVER`] if it doesn't exist.
    fn revision_of(&self, key: &[u8]) -> Result<Revision, TableFailure>;

    /// Returns the pair of a key.
    fn pair_of(&self, key: &[u8]) -> Result<Option<Pair>, TableFailure>;

    /// Returns all pairs whose keys have this prefix, in their order.
    fn pairs(&self, prefix: &[u8]) -> Result<Vec<Pair>, TableFailure>;

    /// Returns the first pairs from this key on and before that end, in their order, at most so many.
    fn range(&self, from: &[u8], end: &[u8], most: usize) -> Result<Vec<Pair>, TableFailure>;

    /// Returns the keys from this one on and before that end, in their order.
    fn keys(&self, from: &[u8], end: &[u8]) -> Result<Vec<Vec<u8>>, TableFailure>;

    /// Begins to write, with this room.
    fn begin(&mut self, room: Room) -> Result<(), TableFailure>;

    /// Writes a pair. If it has a lease, the lease's end deletes it. Returns the revision that created its key:
    /// `pair.created` if the key is new.
    fn put(&mut self, pair: &Pair, lease: Option<LeaseId>) -> Result<Revision, TableFailure>;

    /// Deletes a key, and returns whether it existed.
    fn delete(&mut self, key: &[u8]) -> Result<bool, TableFailure>;

    /// Ends writing, at this moment, as durably as configured. After `Full`, nothing was written if a rollback follows.
    /// After `Broken`, that isn't known.
    fn commit(&mut self, moment: Revision) -> Result<(), TableFailure>;

    /// Takes back everything since writing began.
    fn rollback(&mut self) -> Result<(), TableFailure>;

    /// Returns whether they can still be used, if something may have failed that no other call told.
    fn is_usable(&self) -> bool {
        true
    }

    /// They can't be used any more: what the disk may not have stays as it is until they are opened again.
    fn give_up(&mut self) {}

    /// Makes room for what was refused, by these means, until it is taken back; returns whether there may be some.
    fn make_room(&mut self, _means: Means) -> bool {
        false
    }

    /// Takes back the lent room, as far as possible.
    fn take_room_back(&mut self) {}

    /// Returns how many bytes can be written by transactions that may use the reserve; nothing if there is no bound.
    fn left(&self) -> Option<u64> {
        None
    }

    /// Returns the room of deleted and overwritten values.
    fn compact(&mut self) -> Result<(), TableFailure> {
        Ok(())
    }

    /// Does the work that is due every second.
    fn tick(&mut self) -> Result<(), TableFailure> {
        Ok(())
    }
}
